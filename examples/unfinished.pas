{ A program that is not finished: a program begins with all of its tokens, and so nothing is wrong with any of them. What
  is missing is at the end of the text: an "end" for the loop's "begin" and one for the program's, and the last dot. The
  listing names that place, whatever blanks and comments stand before it. }
program unfinished(output);
var line: integer;
begin
  for line := 1 to 3 do
  begin
    writeln('line ', line: 1)

