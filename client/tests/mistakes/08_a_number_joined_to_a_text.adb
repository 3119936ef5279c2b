procedure M is
   X : Integer := 1;
begin
   Put_Line ("x = " & X);
end M;
