procedure M is
   A, B, C : Boolean := True;
begin
   if A and B or C then
      null;
   end if;
end M;
