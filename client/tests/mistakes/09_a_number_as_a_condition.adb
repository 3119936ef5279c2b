procedure M is
   X : Integer := 1;
begin
   while X loop
      X := X - 1;
   end loop;
end M;
