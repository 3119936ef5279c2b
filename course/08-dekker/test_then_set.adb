with Ada.Text_IO; use Ada.Text_IO;
procedure Test_Then_Set is
   In_1   : Boolean := False;
   In_2   : Boolean := False;
   Inside : Natural := 0;
   task P1;
   task P2;
   task body P1 is
   begin
      while In_2 loop
         null;
      end loop;
      In_1 := True;
      Inside := Inside + 1;
      if Inside > 1 then
         Put_Line ("both inside");
      end if;
      Inside := Inside - 1;
      In_1 := False;
   end P1;
   task body P2 is
   begin
      while In_1 loop
         null;
      end loop;
      In_2 := True;
      Inside := Inside + 1;
      if Inside > 1 then
         Put_Line ("both inside");
      end if;
      Inside := Inside - 1;
      In_2 := False;
   end P2;
begin
   null;
end Test_Then_Set;
