with Ada.Text_IO; use Ada.Text_IO;
procedure Shift is
   protected Book is
      procedure Note;
   private
      Notes : Natural := 0;
   end Book;
   protected body Book is
      procedure Note is
      begin
         Notes := Notes + 1;
         Put_Line ("noted" & Notes'Image);
      end Note;
   end Book;
   task Baker is
      entry Order;
   end Baker;
   task Customer;
   task body Baker is
   begin
      Book.Note;
      accept Order;
   end Baker;
   task body Customer is
   begin
      Baker.Order;
   exception
      when Tasking_Error =>
         Put_Line ("no loaf");
   end Customer;
begin
   abort Baker;
   Put_Line ("closed");
end Shift;
