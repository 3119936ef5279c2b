with Ada.Text_IO; use Ada.Text_IO;
procedure Bakery is
   task Baker is
      entry Order (Loaves : Positive; Price : out Natural);
   end Baker;
   task type Customer;
   Customers : array (1 .. 2) of Customer;
   task body Baker is
   begin
      for Number in 1 .. 2 loop
         accept Order (Loaves : Positive; Price : out Natural) do
            Price := 3 * Loaves;
         end Order;
      end loop;
   end Baker;
   task body Customer is
      Paid : Natural;
   begin
      Baker.Order (2, Paid);
      Put_Line ("paid" & Paid'Image);
   end Customer;
begin
   null;
end Bakery;
