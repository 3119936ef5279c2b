with Ada.Text_IO; use Ada.Text_IO;
procedure Runaway is
   Rounds : Natural := 0;
   task Worker;
   task body Worker is
   begin
      loop
         Rounds := Rounds + 1;
      end loop;
   end Worker;
begin
   delay 1.0;
   abort Worker;
   if Worker'Terminated then
      Put_Line ("terminated");
   else
      Put_Line ("not yet terminated");
   end if;
end Runaway;
