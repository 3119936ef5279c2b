with Ada.Text_IO; use Ada.Text_IO;
procedure Readers_Writers is
   protected Control is
      entry Start_Read;
      procedure End_Read;
      entry Start_Write;
      procedure End_Write;
   private
      Readers   : Natural := 0;
      Writing   : Boolean := False;
      Overtaken : Natural := 0;
   end Control;
   protected body Control is
      entry Start_Read when not Writing and Start_Write'Count = 0 is
      begin
         if Start_Write'Count > 0 then
            Overtaken := Overtaken + 1;
         end if;
         Readers := Readers + 1;
      end Start_Read;
      procedure End_Read is
      begin
         Readers := Readers - 1;
      end End_Read;
      entry Start_Write when not Writing and Readers = 0 is
      begin
         Writing := True;
      end Start_Write;
      procedure End_Write is
      begin
         Writing := False;
      end End_Write;
   end Control;
   X : Integer := 0;
   Y : Integer := 0;
   task Writer;
   task type Reader;
   Readers : array (1 .. 2) of Reader;
   task body Writer is
   begin
      Control.Start_Write;
      X := X + 1;
      Y := Y + 1;
      Control.End_Write;
      Put_Line ("written");
   end Writer;
   task body Reader is
      A : Integer;
      B : Integer;
   begin
      for I in 1 .. 3 loop
         Control.Start_Read;
         A := X;
         B := Y;
         Control.End_Read;
         Put_Line ("read" & A'Image & B'Image);
      end loop;
   end Reader;
begin
   null;
end Readers_Writers;
