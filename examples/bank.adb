with Ada.Text_IO; use Ada.Text_IO;
procedure Bank is
   task type Account is
      entry Send (To : Integer);
      entry Receive;
   end Account;
   Accounts : array (1 .. 2) of Account;
   task Anna;
   task Bert;
   task body Account is
   begin
      loop
         select
            accept Send (To : Integer) do
               Accounts (To).Receive;
            end Send;
         or
            accept Receive;
         or
            terminate;
         end select;
      end loop;
   end Account;
   task body Anna is
   begin
      Accounts (1).Send (2);
   end Anna;
   task body Bert is
   begin
      Accounts (2).Send (1);
   end Bert;
begin
   delay 60.0;
end Bank;
