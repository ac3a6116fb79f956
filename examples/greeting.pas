{ A program that is right, but more than Magpie can judge yet: the listing names the first token
  at which it leaves the form of the smallest program. }
program greeting(output);
begin
  writeln('Hello, it''s Magpie!')
end.
