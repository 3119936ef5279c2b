with Ada.Text_IO; use Ada.Text_IO;
procedure Pipeline is
   task Sum is
      entry Add (N : in Integer);
   end Sum;
   task Square is
      entry Give (N : in Integer);
   end Square;
   task Source;
   task body Sum is
      Total : Integer := 0;
      Item  : Integer := 1;
   begin
      while Item /= 0 loop
         accept Add (N : in Integer) do
            Item := N;
         end Add;
         Total := Total + Item;
      end loop;
      Put_Line ("sum" & Total'Image);
   end Sum;
   task body Square is
      Item : Integer := 1;
   begin
      while Item /= 0 loop
         accept Give (N : in Integer) do
            Item := N;
         end Give;
         Sum.Add (Item * Item);
      end loop;
   end Square;
   task body Source is
   begin
      for I in 1 .. 3 loop
         Square.Give (I);
      end loop;
      Square.Give (0);
   end Source;
begin
   null;
end Pipeline;
