with Ada.Text_IO; use Ada.Text_IO;
procedure Race is
   Count : Natural := 0;
   task type Adder;
   task body Adder is
      Seen : Natural;
   begin
      Seen := Count;
      Count := Seen + 1;
   end Adder;
begin
   declare
      Adders : array (1 .. 2) of Adder;
   begin
      null;
   end;
   Put_Line ("counted" & Count'Image);
end Race;
