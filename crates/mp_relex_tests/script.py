#!/usr/bin/env python3
"""Makes `stdin` and `stdout` of these tests: a script of edits, and how many are made and how many refused.

usage: script.py       (in the folder of the crate)

It follows the text by itself, as a list of lines, to know which edits are in range. Of tokens it knows nothing.
"""
import random

PIECES = ["{", "}", "(*", "*)", "'", "''", "(.", ".)", "(", ")", ".", "..", ":", "=", ":=", "<", ">", "<=", "<>", "@", "^",
          "a", "begin", "end", "downto", "do", "1", "12", "1.5", "1e5", "1e", "e", "+", "-", "*", "/", "?", "\t", " ", "_x",
          "2147483647", "99999999999", "'a b'", "x1y2", "{ }", "(* *)", "{ *)", "''''"]
LINES = ["", "a := 1;", "begin x := 'it''s'; end", "{ a comment", "and its end }", "(* another", "*) y", "if a<>b then c..d",
         "x:=12ab", "'no end", "((.)..)", "for i := 1 downto 1.5e-3 do ?"]


class Script:
    def __init__(self):
        self.out, self.answers, self.versions = [], [], [[]]
        self.edits = self.refused = 0

    def say(self, head, lines=()):
        self.out += [head, *lines]

    def made(self, text):
        self.versions.append(text)
        self.edits += 1

    def text(self):
        return self.versions[-1]

    def insert(self, after, lines):
        self.say(f"insert {after} {len(lines)}", lines)
        if after > len(self.text()):
            self.refused += 1
            return
        self.made(self.text()[:after] + lines + self.text()[after:])

    def delete(self, first, last):
        self.say(f"delete {first} {last}")
        if not 1 <= first <= last <= len(self.text()):
            self.refused += 1
            return
        self.made(self.text()[:first - 1] + self.text()[last:])

    def replace(self, first, last, lines):
        self.say(f"replace {first} {last} {len(lines)}", lines)
        if not 1 <= first <= last <= len(self.text()):
            self.refused += 1
            return
        self.made(self.text()[:first - 1] + lines + self.text()[last:])

    def sub(self, line, column, count, piece):
        self.say(f"sub {line} {column} {count}", [piece])
        text = self.text()
        if not 1 <= line <= len(text) or not 1 <= column or column - 1 + count > len(text[line - 1]):
            self.refused += 1
            return
        old = text[line - 1]
        self.made(text[:line - 1] + [old[:column - 1] + piece + old[column - 1 + count:]] + text[line:])

    def back(self, version):
        self.say(f"back {version}")
        if not 1 <= version <= len(self.versions):
            self.refused += 1
            return
        self.made(self.versions[version - 1])

    def read(self, count):
        self.say("ready")
        self.answers.append(f"read {count}")


def row(s):
    """A byte in the middle of 100 lines: what ends at 393 is kept, a token starts again at 398."""
    s.insert(0, ["a := 1;"] * 100)
    s.sub(50, 6, 1, "2")
    s.read(7)
    s.delete(1, 100)
    s.read(0)


def ends(s):
    """The first and the last byte of a text, and the empty text."""
    start = len(s.versions)
    for piece in PIECES:
        s.insert(0, ["x y", "z '"])
        s.sub(1, 1, 1, piece)
        s.sub(2, len(s.text()[1]), 1, piece)
        s.sub(2, len(s.text()[1]) + 1, 0, piece)
        s.delete(1, 2)
    s.back(start)
    s.back(len(s.versions) + 1)


def joined(s):
    """Each piece between two others, then away again: comments, quotes and brackets opened, closed and cut."""
    for left in PIECES:
        for right in ("a}", "*)b", "'c", ".)", ".5", "=", "{d", "1"):
            s.insert(0, [left + right + " e", "f } ' *) g"])
            piece = random.choice(PIECES)
            s.sub(1, len(left) + 1, 0, piece)
            s.sub(1, len(left) + 1, len(piece), "")
            s.sub(1, len(left), 2, "")
            s.delete(1, 2)


def two_bytes(s):
    """A number ends two bytes before its fraction or exponent does; the last byte comes, and goes."""
    for head in ("", "a ", "{ } "):
        for front in ("1.", "12.", "1e+", "1e-", "1.5e+", "1..", "x1.", "'a'", "(*", "1e"):
            for piece in ("5", "e", ".", "'", "+", ")"):
                s.insert(0, [head + front, " end"])
                s.sub(1, len(head + front) + 1, 0, piece)
                s.sub(1, len(head + front) + 1, 1, "")
                s.delete(1, 2)


def scattered(s, count):
    """Edits anywhere, of which some are out of range."""
    for _ in range(count):
        text = s.text()
        line = random.randint(0, len(text) + (random.random() < 0.1))
        chosen = [random.choice(LINES) for _ in range(random.randint(0, 3))]
        what = random.random()
        if what < 0.15 or not text:
            s.insert(line, chosen)
        elif what < 0.25:
            s.delete(max(line, 1), min(line + random.randint(0, 2), len(text) + (random.random() < 0.1)))
        elif what < 0.4:
            s.replace(line, line + random.randint(0, 1), chosen)
        elif what < 0.43:
            s.back(random.randint(max(1, len(s.versions) - 40), len(s.versions)))
        else:
            row = text[min(max(line, 1), len(text)) - 1]
            column = random.randint(1, len(row) + 1)
            count = random.randint(0, min(3, len(row) + 1 - column + (random.random() < 0.05)))
            s.sub(line, column, count, random.choice(PIECES))


def whole(s):
    """A text of 262,144 bytes, in which a comment is opened at the first byte and at the last, and closed again."""
    lines = ["x" * 4094, "'" * 4094 + " ", "1" * 4095, "(" + "*" * 4092 + ")"]
    if s.text():
        s.delete(1, len(s.text()))
    s.insert(0, ["{" + "y" * 4094] + ["a := b + 1; " * 341] * 63)
    left = 262_144 - sum(len(line) + 1 for line in s.text())
    s.insert(64, ["z" * (left - 1)])
    assert sum(len(line) + 1 for line in s.text()) == 262_144
    s.sub(1, 1, 1, " ")
    s.sub(1, 1, 1, "{")
    s.sub(65, left - 1, 1, "}")
    s.sub(65, left - 1, 1, "'")
    s.sub(1, 1, 0, "z")
    s.edits -= 1
    s.refused += 1
    s.versions.pop()
    for line in lines:
        s.replace(2, 2, [line[:4092]])


def main():
    random.seed(20_261_202)
    s = Script()
    row(s)
    ends(s)
    two_bytes(s)
    joined(s)
    scattered(s, 1_000)
    whole(s)
    answers = [*s.answers, f"edits {s.edits}", f"refused {s.refused}", "differ 0"]
    assert len(s.versions) <= 4_096
    with open("stdin", "w", encoding="ascii", newline="\n") as file:
        file.write("".join(line + "\n" for line in s.out))
    with open("stdout", "w", encoding="ascii", newline="\n") as file:
        file.write("".join(line + "\n" for line in answers))


if __name__ == "__main__":
    main()
