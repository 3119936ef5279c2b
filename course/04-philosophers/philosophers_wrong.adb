with Ada.Text_IO; use Ada.Text_IO;
procedure Philosophers_Wrong is
   task type Fork is
      entry Take;
      entry Put_Down;
   end Fork;
   task type Philosopher is
      entry Sit (Seat : in Natural);
   end Philosopher;
   Forks  : array (0 .. 2) of Fork;
   People : array (0 .. 2) of Philosopher;
   task body Fork is
   begin
      loop
         select
            accept Take;
         or
            terminate;
         end select;
         accept Put_Down;
      end loop;
   end Fork;
   task body Philosopher is
      Left  : Natural;
      Right : Natural;
   begin
      accept Sit (Seat : in Natural) do
         Left := Seat;
         Right := (Seat + 1) mod 3;
      end Sit;
      Forks (Left).Take;
      Forks (Right).Take;
      Put_Line ("eats" & Left'Image);
      Forks (Right).Put_Down;
      Forks (Left).Put_Down;
   end Philosopher;
begin
   for I in 0 .. 2 loop
      People (I).Sit (I);
   end loop;
end Philosophers_Wrong;
