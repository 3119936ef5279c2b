with Ada.Text_IO; use Ada.Text_IO;
procedure Stock is
   protected Shelf is
      entry Bring (Loaf : in Integer);
      entry Fetch (Loaf : out Integer);
   private
      Count, First, Second : Integer := 0;
   end Shelf;
   protected body Shelf is
      entry Bring (Loaf : in Integer) when Count < 2 is
      begin
         if Count = 0 then First := Loaf; else Second := Loaf; end if;
         Count := Count + 1;
      end Bring;
      entry Fetch (Loaf : out Integer) when Count > 0 is
      begin
         Loaf := First;
         First := Second;
         Count := Count - 1;
      end Fetch;
   end Shelf;
   task Baker;
   task body Baker is
   begin
      for Number in 1 .. 3 loop
         Shelf.Bring (Number);
      end loop;
   end Baker;
   Bought : Integer;
begin
   delay 1.0;
   for Number in 1 .. 3 loop
      Shelf.Fetch (Bought);
      Put (Bought'Image);
   end loop;
end Stock;
