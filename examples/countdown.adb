with Ada.Text_IO; use Ada.Text_IO;
procedure Countdown is
   Left : Integer := 3;
begin
   loop
      begin
         Put_Line (Integer'Image (12 / Left));
         Left := Left - 1;
      exception
         when Constraint_Error =>
            Put_Line ("nothing left");
            exit;
      end;
   end loop;
end Countdown;
