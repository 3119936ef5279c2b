procedure M is
begin
   null;
   X : Integer := 2;
   X := X + 1;
end M;
