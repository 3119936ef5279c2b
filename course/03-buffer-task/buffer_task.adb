with Ada.Text_IO; use Ada.Text_IO;
procedure Buffer_Task is
   task Shelf is
      entry Put_In (Item : in Integer);
      entry Take_Out (Item : out Integer);
   end Shelf;
   task Consumer;
   task Producer;
   task body Shelf is
      Store : array (0 .. 1) of Integer;
      Head  : Natural := 0;
      Count : Natural := 0;
   begin
      loop
         select
            when Count < 2 =>
               accept Put_In (Item : in Integer) do
                  Store ((Head + Count) mod 2) := Item;
               end Put_In;
               Count := Count + 1;
         or
            when Count > 0 =>
               accept Take_Out (Item : out Integer) do
                  Item := Store (Head);
               end Take_Out;
               Head := (Head + 1) mod 2;
               Count := Count - 1;
         or
            terminate;
         end select;
      end loop;
   end Shelf;
   task body Consumer is
      Item : Integer;
      Sum  : Integer := 0;
   begin
      for I in 1 .. 3 loop
         Shelf.Take_Out (Item);
         Sum := Sum + Item;
      end loop;
      Put_Line ("sum" & Sum'Image);
   end Consumer;
   task body Producer is
   begin
      for I in 1 .. 3 loop
         Shelf.Put_In (I);
      end loop;
   end Producer;
begin
   null;
end Buffer_Task;
