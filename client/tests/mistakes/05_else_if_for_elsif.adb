procedure M is
   X : Integer := 1;
begin
   if X > 0 then
      X := 2;
   else if X < 0 then
      X := 3;
   end if;
end M;
