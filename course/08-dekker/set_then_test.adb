with Ada.Text_IO; use Ada.Text_IO;
procedure Set_Then_Test is
   Want_1 : Boolean := False;
   Want_2 : Boolean := False;
   Inside : Natural := 0;
   task P1;
   task P2;
   task body P1 is
   begin
      Want_1 := True;
      while Want_2 loop
         null;
      end loop;
      Inside := Inside + 1;
      if Inside > 1 then
         Put_Line ("both inside");
      end if;
      Inside := Inside - 1;
      Want_1 := False;
   end P1;
   task body P2 is
   begin
      Want_2 := True;
      while Want_1 loop
         null;
      end loop;
      Inside := Inside + 1;
      if Inside > 1 then
         Put_Line ("both inside");
      end if;
      Inside := Inside - 1;
      Want_2 := False;
   end P2;
begin
   null;
end Set_Then_Test;
