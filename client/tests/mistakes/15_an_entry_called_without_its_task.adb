procedure M is
   task T is
      entry E;
   end T;
   task body T is
   begin
      accept E;
   end T;
begin
   E;
end M;
