procedure M is
   X : Integer := 1;
begin
   if X > 0
      X := 2;
   end if;
end M;
