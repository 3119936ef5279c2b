with Ada.Text_IO; use Ada.Text_IO;
procedure Pipeline_Wrong is
   task Sum is
      entry Add (N : in Integer);
      entry Stop;
   end Sum;
   task Square is
      entry Give (N : in Integer);
   end Square;
   task Source;
   task body Sum is
      Total : Integer := 0;
      Done  : Boolean := False;
   begin
      while not Done loop
         select
            accept Add (N : in Integer) do
               Total := Total + N;
            end Add;
         or
            accept Stop;
            Done := True;
         end select;
      end loop;
      Put_Line ("sum" & Total'Image);
   end Sum;
   task body Square is
      Item : Integer;
   begin
      for I in 1 .. 3 loop
         accept Give (N : in Integer) do
            Item := N;
         end Give;
         Sum.Add (Item * Item);
      end loop;
   end Square;
   task body Source is
   begin
      for I in 1 .. 3 loop
         Square.Give (I);
      end loop;
      Sum.Stop;
   end Source;
begin
   null;
end Pipeline_Wrong;
