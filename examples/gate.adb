with Ada.Text_IO; use Ada.Text_IO;
procedure Gate is
   task Guard is
      entry Enter (Who : Positive);
      entry Leave;
   end Guard;
   task body Guard is
      Inside : Natural := 0;
   begin
      loop
         select
            when Inside < 1 =>
               accept Enter (Who : Positive) do
                  Put_Line ("enter" & Who'Image);
               end Enter;
               Inside := Inside + 1;
         or
            accept Leave;
            Inside := Inside - 1;
         or
            terminate;
         end select;
      end loop;
   end Guard;
begin
   Guard.Enter (1);
   select Guard.Enter (2); or delay 1.5; Put_Line ("too late"); end select;
   Guard.Leave;
   Guard.Enter (3);
end Gate;
