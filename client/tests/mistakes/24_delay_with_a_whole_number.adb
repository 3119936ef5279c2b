procedure M is
begin
   delay 2;
end M;
