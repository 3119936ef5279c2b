with Ada.Text_IO; use Ada.Text_IO;
procedure Time_Out is
   protected Desk is
      entry Square (N : in Integer; Result : out Integer);
      entry Next_Job (N : out Integer);
      procedure Finish (Answer : in Integer);
   private
      entry Wait (N : in Integer; Result : out Integer);
      Idle  : Boolean := True;
      Asked : Boolean := False;
      Ready : Boolean := False;
      Item  : Integer := 0;
   end Desk;
   protected body Desk is
      entry Square (N : in Integer; Result : out Integer) when Idle is
      begin
         Idle := False;
         Asked := True;
         Item := N;
         requeue Wait with abort;
      end Square;
      entry Wait (N : in Integer; Result : out Integer) when Ready is
      begin
         Ready := False;
         Idle := True;
         Result := Item;
      end Wait;
      entry Next_Job (N : out Integer) when Asked is
      begin
         Asked := False;
         N := Item;
      end Next_Job;
      procedure Finish (Answer : in Integer) is
      begin
         Item := Answer;
         Ready := Wait'Count > 0;
         Idle := not Ready;
      end Finish;
   end Desk;
   task Server;
   task Patient;
   task Hasty;
   task body Server is
      Job : Integer;
   begin
      loop
         select
            Desk.Next_Job (Job);
         or
            delay 9.0;
            exit;
         end select;
         delay 2.0;
         Desk.Finish (Job * Job);
      end loop;
   end Server;
   task body Patient is
      Result : Integer;
   begin
      Desk.Square (3, Result);
      Put_Line ("patient got" & Result'Image);
   end Patient;
   task body Hasty is
      Result : Integer;
   begin
      select
         Desk.Square (5, Result);
         Put_Line ("hasty got" & Result'Image);
      or
         delay 1.0;
         Put_Line ("hasty gives up");
      end select;
   end Hasty;
begin
   null;
end Time_Out;
