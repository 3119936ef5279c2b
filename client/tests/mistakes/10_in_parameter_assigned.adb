procedure M is
   procedure P (N : Integer) is
   begin
      N := N + 1;
   end P;
begin
   P (3);
end M;
