with Ada.Text_IO; use Ada.Text_IO;
procedure Counter is
   protected Total is
      procedure Add;
      function Value return Natural;
   private
      Count : Natural := 0;
   end Total;
   protected body Total is
      procedure Add is
         Seen : Natural;
      begin
         Seen := Count;
         Count := Seen + 1;
      end Add;
      function Value return Natural is
      begin
         return Count;
      end Value;
   end Total;
   task type Adder;
   task body Adder is
   begin
      for I in 1 .. 3 loop
         Total.Add;
      end loop;
   end Adder;
   Last : Natural;
begin
   declare
      Adders : array (1 .. 2) of Adder;
   begin
      null;
   end;
   Last := Total.Value;
   Put_Line ("counted" & Last'Image);
end Counter;
