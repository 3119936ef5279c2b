with Ada.Text_IO; use Ada.Text_IO;
procedure Harbour is
   protected Boats is
      entry Request (N : in Positive);
      procedure Release (N : in Positive);
   private
      entry Wait (N : in Positive);
      Free : Natural := 3;
      Needed : Natural := 0;
   end Boats;
   protected body Boats is
      entry Request (N : in Positive) when Wait'Count = 0 is
      begin
         if N > Free then
            Needed := N;
            requeue Wait with abort;
         end if;
         Free := Free - N;
      end Request;
      entry Wait (N : in Positive) when Free >= Needed is
      begin
         Free := Free - N;
      end Wait;
      procedure Release (N : in Positive) is
      begin
         Free := Free + N;
      end Release;
   end Boats;
   task School;
   task Family;
   task body School is
   begin
      delay 1.0;
      Boats.Request (3);
      Put_Line ("school");
      Boats.Release (3);
   end School;
   task body Family is
   begin
      delay 1.0;
      Boats.Request (1);
      Put_Line ("family");
   end Family;
begin
   Boats.Request (2);
   delay 2.0;
   Boats.Release (2);
end Harbour;
