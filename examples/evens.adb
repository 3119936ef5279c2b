with Ada.Text_IO;
use Ada.Text_IO;
procedure Evens is
   Too_Large : exception;
   Limit : constant Integer := 1_0; -- ten
   N : Integer := -4;
   Odd : Boolean := False;
   procedure Check (X : Integer) is
   begin
      if not (X < Limit) then
         raise Too_Large;
      elsif X rem 2 /= 0 or else X = 0 then
         Odd := Odd xor True;
         return;
      end if;
      Ada.Text_IO.Put_Line (X'Image & " is ""even""");
   end Check;
begin
   Search :
   while N >= -Limit and N <= Limit loop
      Attempt :
      begin
         Check (abs N);
         exit Search when Odd and then N mod 3 = 1;
      exception
         when Program_Error | Storage_Error =>
            null;
         when others =>
            raise;
      end Attempt;
      N := N + 7;
   end loop Search;
exception
   when Too_Large =>
      Put_Line ("too large, odd " & Odd'Image);
end Evens;
