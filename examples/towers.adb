with Ada.Text_IO; use Ada.Text_IO;
procedure Towers is
   Moves : Natural := 0;
   procedure Move (Disks : Positive; From, To, Spare : Integer; Made : in out Natural) is
   begin
      if Disks > 1 then
         Move (Disks - 1, From, Spare, To, Made);
      end if;
      Made := Made + 1;
      Put_Line (Integer'Image (From) & " to" & Integer'Image (To));
      if Disks > 1 then
         Move (Disks - 1, Spare, To, From, Made);
      end if;
   end Move;
begin
   Move (3, 1, 3, 2, Moves);
   Put_Line (Moves'Image & " moves");
end Towers;
