with Ada.Text_IO; use Ada.Text_IO;
procedure Dekker is
   Want_1 : Boolean := False;
   Want_2 : Boolean := False;
   Turn   : Positive := 1;
   Inside : Natural := 0;
   task P1;
   task P2;
   task body P1 is
   begin
      Want_1 := True;
      while Want_2 loop
         if Turn = 2 then
            Want_1 := False;
            while Turn = 2 loop
               null;
            end loop;
            Want_1 := True;
         end if;
      end loop;
      Inside := Inside + 1;
      if Inside > 1 then
         Put_Line ("both inside");
      end if;
      Inside := Inside - 1;
      Turn := 2;
      Want_1 := False;
   end P1;
   task body P2 is
   begin
      Want_2 := True;
      while Want_1 loop
         if Turn = 1 then
            Want_2 := False;
            while Turn = 1 loop
               null;
            end loop;
            Want_2 := True;
         end if;
      end loop;
      Inside := Inside + 1;
      if Inside > 1 then
         Put_Line ("both inside");
      end if;
      Inside := Inside - 1;
      Turn := 1;
      Want_2 := False;
   end P2;
begin
   null;
end Dekker;
