procedure M is
   Size : constant Integer := 5;
   A : array (1 .. Size) of Integer;
begin
   A (1) := 1;
end M;
