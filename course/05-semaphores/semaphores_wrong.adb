with Ada.Text_IO; use Ada.Text_IO;
procedure Semaphores_Wrong is
   protected Mutex is
      entry Wait;
      procedure Signal;
   private
      Value : Natural := 1;
   end Mutex;
   protected Full is
      entry Wait;
      procedure Signal;
   private
      Value : Natural := 0;
   end Full;
   protected body Mutex is
      entry Wait when Value > 0 is
      begin
         Value := Value - 1;
      end Wait;
      procedure Signal is
      begin
         Value := Value + 1;
      end Signal;
   end Mutex;
   protected body Full is
      entry Wait when Value > 0 is
      begin
         Value := Value - 1;
      end Wait;
      procedure Signal is
      begin
         Value := Value + 1;
      end Signal;
   end Full;
   Slot : Integer := 0;
   task Producer;
   task Consumer;
   task body Producer is
   begin
      Mutex.Wait;
      Slot := 7;
      Mutex.Signal;
      Full.Signal;
   end Producer;
   task body Consumer is
      Got : Integer;
   begin
      Mutex.Wait;
      Full.Wait;
      Got := Slot;
      Mutex.Signal;
      Put_Line ("got" & Got'Image);
   end Consumer;
begin
   null;
end Semaphores_Wrong;
