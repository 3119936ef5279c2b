procedure M is
   task T is
      entry E;
   end T;
begin
   T.E;
end M;
