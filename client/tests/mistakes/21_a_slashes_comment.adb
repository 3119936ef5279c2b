procedure M is
   X : Integer := 1;  // counts
begin
   X := 2;
end M;
