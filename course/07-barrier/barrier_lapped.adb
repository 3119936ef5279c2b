with Ada.Text_IO; use Ada.Text_IO;
procedure Barrier_Lapped is
   protected Summit is
      procedure Arrive;
      entry Go_On;
   private
      Count : Natural := 0;
      Going : Boolean := False;
   end Summit;
   protected body Summit is
      procedure Arrive is
      begin
         Count := Count + 1;
         if Count = 2 then
            Going := True;
         end if;
      end Arrive;
      entry Go_On when Going is
      begin
         Count := Count - 1;
         Going := Count > 0;
      end Go_On;
   end Summit;
   Slow_At : Natural := 0;
   Fast_At : Natural := 0;
   task Slow;
   task Fast;
   task body Slow is
   begin
      for Hill in 1 .. 2 loop
         delay 1.0;
         Slow_At := Hill;
         Summit.Arrive;
         Summit.Go_On;
         if Fast_At < Hill then
            Put_Line ("slow is alone");
         end if;
      end loop;
   end Slow;
   task body Fast is
   begin
      for Hill in 1 .. 2 loop
         Fast_At := Hill;
         Summit.Arrive;
         Summit.Go_On;
         if Slow_At < Hill then
            Put_Line ("fast is alone");
         end if;
      end loop;
   end Fast;
begin
   null;
end Barrier_Lapped;
