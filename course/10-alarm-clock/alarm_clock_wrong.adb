with Ada.Text_IO; use Ada.Text_IO;
procedure Alarm_Clock_Wrong is
   protected Clock is
      procedure Tick;
      function Now return Natural;
      entry Wake_At_1;
      entry Wake_At_2;
   private
      Seconds : Natural := 0;
   end Clock;
   protected body Clock is
      procedure Tick is
      begin
         Seconds := Seconds + 1;
      end Tick;
      function Now return Natural is
      begin
         return Seconds;
      end Now;
      entry Wake_At_1 when Seconds = 1 is
      begin
         null;
      end Wake_At_1;
      entry Wake_At_2 when Seconds = 2 is
      begin
         null;
      end Wake_At_2;
   end Clock;
   task Early;
   task Late;
   task Ticker;
   task body Early is
      Time : Natural;
   begin
      Clock.Wake_At_1;
      Time := Clock.Now;
      Put_Line ("early at" & Time'Image);
   end Early;
   task body Late is
      Time : Natural;
   begin
      Clock.Wake_At_2;
      Time := Clock.Now;
      Put_Line ("late at" & Time'Image);
   end Late;
   task body Ticker is
   begin
      for I in 1 .. 3 loop
         delay 1.0;
         Clock.Tick;
      end loop;
   end Ticker;
begin
   null;
end Alarm_Clock_Wrong;
