with Ada.Text_IO; use Ada.Text_IO;
procedure Buffer is
   protected Shelf is
      entry Put_In (Item : in Integer);
      entry Take_Out (Item : out Integer);
   private
      First  : Integer := 0;
      Second : Integer := 0;
      Count  : Natural := 0;
   end Shelf;
   protected body Shelf is
      entry Put_In (Item : in Integer) when Count < 2 is
      begin
         if Count = 0 then
            First := Item;
         else
            Second := Item;
         end if;
         Count := Count + 1;
      end Put_In;
      entry Take_Out (Item : out Integer) when Count > 0 is
      begin
         Item := First;
         First := Second;
         Count := Count - 1;
      end Take_Out;
   end Shelf;
   task Odd;
   task Even;
   task Consumer;
   task body Odd is
   begin
      for I in 1 .. 2 loop
         Shelf.Put_In (2 * I - 1);
      end loop;
   end Odd;
   task body Even is
   begin
      for I in 1 .. 2 loop
         Shelf.Put_In (2 * I);
      end loop;
   end Even;
   task body Consumer is
      Item : Integer;
   begin
      for I in 1 .. 4 loop
         Shelf.Take_Out (Item);
         Put_Line ("got" & Item'Image);
      end loop;
   end Consumer;
begin
   null;
end Buffer;
