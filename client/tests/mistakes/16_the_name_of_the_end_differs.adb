procedure M is
   task Worker;
   task body Worker is
   begin
      null;
   end Woker;
begin
   null;
end M;
