with Ada.Text_IO; use Ada.Text_IO;
procedure Runaway_Wrong is
   protected Store is
      procedure Work;
   private
      Rounds : Natural := 0;
   end Store;
   protected body Store is
      procedure Work is
      begin
         loop
            Rounds := Rounds + 1;
         end loop;
      end Work;
   end Store;
   task Worker;
   task body Worker is
   begin
      Store.Work;
   end Worker;
begin
   delay 1.0;
   abort Worker;
   Put_Line ("aborted");
end Runaway_Wrong;
