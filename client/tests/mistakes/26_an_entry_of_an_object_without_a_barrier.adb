procedure M is
   protected P is
      entry Take;
   end P;
   protected body P is
      entry Take is
      begin
         null;
      end Take;
   end P;
begin
   P.Take;
end M;
