procedure M is
   Count : Integer := 0;
begin
   Cuont := Count + 1;
end M;
