procedure M is
   task T is
      entry Put_In (X : in Integer);
   end T;
   task body T is
      Y : Integer;
   begin
      accept Put_In (Item : in Integer) do
         Y := Item;
      end Put_In;
   end T;
begin
   T.Put_In (1);
end M;
