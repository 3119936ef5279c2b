with Ada.Text_IO; use Ada.Text_IO;
procedure Time_Out_Wrong is
   task Server is
      entry Square (N : in Integer; Result : out Integer);
   end Server;
   task Patient;
   task Hasty;
   task body Server is
   begin
      loop
         select
            accept Square (N : in Integer; Result : out Integer) do
               delay 2.0;
               Result := N * N;
            end Square;
         or
            terminate;
         end select;
      end loop;
   end Server;
   task body Patient is
      Result : Integer;
   begin
      Server.Square (3, Result);
      Put_Line ("patient got" & Result'Image);
   end Patient;
   task body Hasty is
      Result : Integer;
   begin
      select
         Server.Square (5, Result);
         Put_Line ("hasty got" & Result'Image);
      or
         delay 1.0;
         Put_Line ("hasty gives up");
      end select;
   end Hasty;
begin
   null;
end Time_Out_Wrong;
