with Ada.Text_IO; use Ada.Text_IO;
procedure Barrier is
   protected Summit is
      entry Meet;
   private
      Going : Boolean := False;
   end Summit;
   protected body Summit is
      entry Meet when Meet'Count = 2 or Going is
      begin
         Going := Meet'Count > 0;
      end Meet;
   end Summit;
   Slow_At : Natural := 0;
   Fast_At : Natural := 0;
   task Slow;
   task Fast;
   task body Slow is
   begin
      for Hill in 1 .. 2 loop
         delay 1.0;
         Slow_At := Hill;
         Summit.Meet;
         if Fast_At < Hill then
            Put_Line ("slow is alone");
         end if;
      end loop;
   end Slow;
   task body Fast is
   begin
      for Hill in 1 .. 2 loop
         Fast_At := Hill;
         Summit.Meet;
         if Slow_At < Hill then
            Put_Line ("fast is alone");
         end if;
      end loop;
   end Fast;
begin
   null;
end Barrier;
