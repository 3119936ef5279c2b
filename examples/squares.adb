with Ada.Text_IO; use Ada.Text_IO;
procedure Squares is
   Table : array (1 .. 5) of Natural;
   Sum   : Natural := 0;
begin
   for I in Table'First .. Table'Last loop
      Table (I) := I * I;
   end loop;
   for I in reverse 1 .. Table'Length loop
      Sum := Sum + Table (I);
      Put (Table (I)'Image);
   end loop;
   New_Line;
   Put_Line ("sum" & Sum'Image);
   Table (Sum) := 0;
end Squares;
