with Ada.Text_IO; use Ada.Text_IO;
procedure Counter_Wrong is
   Count : Natural := 0;
   task type Adder;
   task body Adder is
      Seen : Natural;
   begin
      for I in 1 .. 3 loop
         Seen := Count;
         Count := Seen + 1;
      end loop;
   end Adder;
begin
   declare
      Adders : array (1 .. 2) of Adder;
   begin
      null;
   end;
   Put_Line ("counted" & Count'Image);
end Counter_Wrong;
