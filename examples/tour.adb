with Ada.Text_IO; use Ada.Text_IO;
procedure Tour is
   protected Summit is
      entry Meet;
   private
      Going : Boolean := False;
   end Summit;
   protected body Summit is
      entry Meet when Meet'Count = 3 or Going is
      begin
         Going := Meet'Count > 0;
      end Meet;
   end Summit;
   task type Hiker;
   Hikers : array (1 .. 3) of Hiker;
   task body Hiker is
   begin
      Summit.Meet;
   end Hiker;
begin
   Put_Line ("up");
end Tour;
