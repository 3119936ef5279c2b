procedure M is
   task T;
   task body T is
   begin
      Server.Start;
   end T;
   task Server is
      entry Start;
   end Server;
   task body Server is
   begin
      accept Start;
   end Server;
begin
   null;
end M;
