with Ada.Text_IO; use Ada.Text_IO;
procedure Peterson_Wrong is
   Want_1 : Boolean := False;
   Want_2 : Boolean := False;
   Turn   : Positive := 1;
   Inside : Natural := 0;
   task P1;
   task P2;
   task body P1 is
   begin
      for I in 1 .. 2 loop
         Turn := 2;
         Want_1 := True;
         while Want_2 and Turn = 2 loop
            null;
         end loop;
         Inside := Inside + 1;
         if Inside > 1 then
            Put_Line ("both inside");
         end if;
         Inside := Inside - 1;
         Want_1 := False;
      end loop;
   end P1;
   task body P2 is
   begin
      for I in 1 .. 2 loop
         Turn := 1;
         Want_2 := True;
         while Want_1 and Turn = 1 loop
            null;
         end loop;
         Inside := Inside + 1;
         if Inside > 1 then
            Put_Line ("both inside");
         end if;
         Inside := Inside - 1;
         Want_2 := False;
      end loop;
   end P2;
begin
   null;
end Peterson_Wrong;
