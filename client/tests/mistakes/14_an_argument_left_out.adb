procedure M is
   task T is
      entry Put_In (X : in Integer);
   end T;
   task body T is
   begin
      accept Put_In (X : in Integer);
   end T;
begin
   T.Put_In;
end M;
