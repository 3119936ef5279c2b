procedure M is
   X : Integer;
begin
   X = 2;
end M;
