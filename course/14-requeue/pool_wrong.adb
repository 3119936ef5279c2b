with Ada.Text_IO; use Ada.Text_IO;
procedure Pool_Wrong is
   protected Boats is
      entry Take;
      procedure Bring_Back;
   private
      Free : Natural := 3;
   end Boats;
   protected body Boats is
      entry Take when Free > 0 is
      begin
         Free := Free - 1;
      end Take;
      procedure Bring_Back is
      begin
         Free := Free + 1;
      end Bring_Back;
   end Boats;
   task Family;
   task School;
   task body Family is
   begin
      for I in 1 .. 2 loop
         Boats.Take;
      end loop;
      Put_Line ("family rows");
      for I in 1 .. 2 loop
         Boats.Bring_Back;
      end loop;
   end Family;
   task body School is
   begin
      for I in 1 .. 3 loop
         Boats.Take;
      end loop;
      Put_Line ("school rows");
      for I in 1 .. 3 loop
         Boats.Bring_Back;
      end loop;
   end School;
begin
   null;
end Pool_Wrong;
