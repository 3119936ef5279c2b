procedure M is
begin
   Put_Line ('hello');
end M;
