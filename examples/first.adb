with Ada.Text_IO; use Ada.Text_IO;
procedure First is
   X : Integer := 40;
begin
   X := X + 2;
   Put_Line ("x" & X'Image);
end First;
