with Ada.Text_IO; use Ada.Text_IO;
procedure Pool_Kept is
   protected Boats is
      entry Take (N : in Positive);
      procedure Bring_Back (N : in Positive);
   private
      entry Wait (N : in Positive);
      Free   : Natural := 3;
      Needed : Natural := 0;
   end Boats;
   protected body Boats is
      entry Take (N : in Positive) when Wait'Count = 0 is
      begin
         if N > Free then
            Needed := N;
            requeue Wait;
         end if;
         Free := Free - N;
      end Take;
      entry Wait (N : in Positive) when Free >= Needed is
      begin
         Free := Free - N;
      end Wait;
      procedure Bring_Back (N : in Positive) is
      begin
         Free := Free + N;
      end Bring_Back;
   end Boats;
   task Family;
   task School;
   task body Family is
   begin
      select
         Boats.Take (2);
         Put_Line ("family rows");
         Boats.Bring_Back (2);
      or
         delay 1.0;
         Put_Line ("family walks");
      end select;
   end Family;
   task body School is
   begin
      Boats.Take (3);
      Put_Line ("school rows");
      delay 5.0;
      Boats.Bring_Back (3);
   end School;
begin
   null;
end Pool_Kept;
