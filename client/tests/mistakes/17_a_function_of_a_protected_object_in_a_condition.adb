procedure M is
   protected P is
      function Get return Integer;
   private
      N : Integer := 0;
   end P;
   protected body P is
      function Get return Integer is
      begin
         return N;
      end Get;
   end P;
begin
   if P.Get = 0 then
      Put_Line ("zero");
   end if;
end M;
