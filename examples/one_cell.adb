with Ada.Text_IO; use Ada.Text_IO;
procedure One_Cell is
   task Cell is
      entry Add (N : in out Integer);
   end Cell;
   task body Cell is
   begin
      select
         accept Add (N : in out Integer) do
            N := N + 2;
         end Add;
      or
         terminate;
      end select;
   end Cell;
   X : Integer := 40;
begin
   Cell.Add (X);
   Put_Line ("x" & X'Image);
end One_Cell;
