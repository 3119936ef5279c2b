with Ada.Text_IO; use Ada.Text_IO;
procedure Watch is
   protected Log is
      procedure Add (N : Integer);
      function Sum return Integer;
   private
      procedure Keep (N : Integer);
      Total : Integer := 0;
   end Log;
   protected body Log is
      procedure Keep (N : Integer) is
      begin
         Total := Total + N;
      end Keep;
      procedure Add (N : Integer) is
      begin
         Keep (N);
      end Add;
      function Sum return Integer is
      begin
         return Total;
      end Sum;
   end Log;
   task type Guard is
      entry Tell (N : Integer);
   end Guard;
   Gate : Guard;
   Doors : array (1 .. 2) of Guard;
   task body Guard is
   begin
      select
         accept Tell (N : Integer) do
            Log.Add (100 / N);
         exception
            when Constraint_Error => Log.Add (1);
         end Tell;
      or
         delay Duration (2);
         Log.Add (7);
      end select;
      select
         accept Tell (N : Integer);
      else
         null;
      end select;
   end Guard;
   Sum : Integer;
begin
   Gate.Tell (0);
   Doors (2).Tell (10);
   delay 3.0;
   Sum := Log.Sum;
   Put_Line (Sum'Image & Boolean'Image (Gate'Callable) & Boolean'Image (Doors (1)'Terminated));
end Watch;
