with Ada.Text_IO; use Ada.Text_IO;
procedure Sieve is
   task type Filter is
      entry Place (Number : in Positive);
      entry Give (N : in Natural);
   end Filter;
   Filters : array (1 .. 4) of Filter;
   task body Filter is
      Me    : Positive;
      Prime : Natural;
      Item  : Natural;
   begin
      accept Place (Number : in Positive) do
         Me := Number;
      end Place;
      accept Give (N : in Natural) do
         Prime := N;
      end Give;
      Put_Line ("prime" & Prime'Image);
      Item := Prime;
      while Item /= 0 loop
         accept Give (N : in Natural) do
            Item := N;
         end Give;
         if Me < 4 and then (Item = 0 or else Item mod Prime /= 0) then
            Filters (Me + 1).Give (Item);
         end if;
      end loop;
   end Filter;
begin
   for I in 1 .. 4 loop
      Filters (I).Place (I);
   end loop;
   for N in 2 .. 10 loop
      Filters (1).Give (N);
   end loop;
   Filters (1).Give (0);
end Sieve;
