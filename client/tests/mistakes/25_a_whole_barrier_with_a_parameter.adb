procedure M is
   protected P is
      entry Take (N : in Integer);
   private
      Free : Integer := 3;
   end P;
   protected body P is
      entry Take (N : in Integer) when Free >= N is
      begin
         Free := Free - N;
      end Take;
   end P;
begin
   P.Take (1);
end M;
