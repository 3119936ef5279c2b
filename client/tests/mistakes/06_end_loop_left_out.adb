procedure M is
   X : Integer := 1;
begin
   while X < 9 loop
      X := X + 1;
   Put_Line (X'Image);
end M;
