procedure M is
   X : Integer := 1;
begin
   if X != 2 then
      X++;
   end if;
end M;
