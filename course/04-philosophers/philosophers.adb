with Ada.Text_IO; use Ada.Text_IO;
procedure Philosophers is
   task type Fork is
      entry Take;
      entry Put_Down;
   end Fork;
   task type Philosopher is
      entry Sit (Seat : in Natural);
   end Philosopher;
   Forks  : array (0 .. 2) of Fork;
   People : array (0 .. 2) of Philosopher;
   task body Fork is
   begin
      loop
         select
            accept Take;
         or
            terminate;
         end select;
         accept Put_Down;
      end loop;
   end Fork;
   task body Philosopher is
      Me     : Natural;
      First  : Natural;
      Second : Natural;
   begin
      accept Sit (Seat : in Natural) do
         Me := Seat;
      end Sit;
      First := Me;
      Second := (Me + 1) mod 3;
      if First > Second then
         First := Second;
         Second := Me;
      end if;
      Forks (First).Take;
      Forks (Second).Take;
      Put_Line ("eats" & Me'Image);
      Forks (Second).Put_Down;
      Forks (First).Put_Down;
   end Philosopher;
begin
   for I in 0 .. 2 loop
      People (I).Sit (I);
   end loop;
end Philosophers;
