{ The smallest program: it does nothing, and nothing is wrong with it. }
program hello;
begin
end.
