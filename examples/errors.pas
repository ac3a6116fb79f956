{ What is wrong with a text before anyone looks at its grammar: each code that its tokens can have.
  Each comment below says which error stands on its line, and why. }
program errors;
const
  price = 2.50;       { 106: a number with a fraction is of type real, which is left out }
  billion = 1e9;      { 106: and so is a number with an exponent }
  many = 3000000000;  { 107: the greatest integer is 2147483647 }
  seats = 12rows;     { 105: a letter may not touch a number }
  nothing = '';       { 104: a string has one character or more }
  title = 'Magpie;    { 103: this string is not closed, and goes up to the end of its line }
  first_name = 'Ada'; { 101: an underscore stands in no name }
begin
  half := many / 2    { 108: a quotient of type real; "div" divides integers }
end.
{ 102: this comment is not closed, and goes up to the end of the text
