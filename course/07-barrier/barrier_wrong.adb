with Ada.Text_IO; use Ada.Text_IO;
procedure Barrier_Wrong is
   protected Summit is
      entry Meet;
   end Summit;
   protected body Summit is
      entry Meet when Meet'Count = 3 is
      begin
         null;
      end Meet;
   end Summit;
   task type Hiker;
   Hikers : array (1 .. 3) of Hiker;
   task body Hiker is
   begin
      Summit.Meet;
      Put_Line ("goes on");
   end Hiker;
begin
   null;
end Barrier_Wrong;
