procedure Division is
   X : Integer := 1;
   task Setter;
   task Divider;
   task body Setter is
   begin
      X := 0;
      X := 2;
   end Setter;
   task body Divider is
      Y : Integer;
   begin
      Y := 10 / X;
      Put_Line ("quotient" & Y'Image);
   end Divider;
begin
   delay 1.0;
   X := 5 / X;
end Division;
