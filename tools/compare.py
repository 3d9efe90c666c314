#!/usr/bin/env python3
"""Compares a program with a reference interpreter of run files on random studies, byte for byte.

    tools/compare.py REFERENCE PROGRAM COUNT SEED [--forms open,close,..] [--save FILE]

REFERENCE is the path of a Python module with run(text, page_length), and with Line and four(), by which
the studies are steered to times that the line accepts. PROGRAM reads a study from standard input and
writes its page, of 65,536 bytes, to standard output. The first difference is saved, told, and ends the
comparison with status 1."""
import argparse
import collections
import importlib.util
import os
import random
import re
import subprocess
import sys

PAGE = 65536
TEXT_MOST = 65536
FRAME = 55440
LATEST = 2 ** 40
DIVISORS = [d for d in range(1, FRAME + 1) if FRAME % d == 0]
FIELDS = {
    "link": ("longest",),
    "open": ("at", "session", "interval", "places"),
    "close": ("at", "session"),
    "change": ("at", "session", "interval"),
    "pick": ("at", "rule"),
    "arrive": ("at", "session", "bytes"),
    "depart": (),
}
FIELD_WORDS = sorted({f for fs in FIELDS.values() for f in fs})
NO_WORDS = ["arrow", "a", "opens", "lin", "zzz"]
FOREIGN = [b"\t", b"\r", b"\0", b"\xff", b"-", b"+", b".", b",", b"[", b"]", b"{", b"A", b"Z", b"@", b"`", b":", b"/", b"\xc3\xa9"]


def load(path):
    """The reference module at a path."""
    sys.dont_write_bytecode = True
    spec = importlib.util.spec_from_file_location("reference_run", os.path.abspath(path))
    module = importlib.util.module_from_spec(spec)
    spec.loader.exec_module(module)
    return module


class Study:
    """One random study, made call by call beside a reference line that knows the time."""

    def __init__(self, rng, reference, forms):
        self.rng, self.reference, self.forms = rng, reference, forms
        self.line = None
        self.longest = 100
        self.interval = {}
        self.sessions = rng.choice([2, 3, 4, 8, 32])
        # Few sessions with large shares, many with small ones, or both.
        self.intervals = rng.choice([[2, 4, 4, 8], [2, 3, 6, 36, 56], [16, 30, 36, 56, 1540], DIVISORS])
        self.near_end = rng.random() < 0.1

    # The values of fields: mostly what a planner writes, now and then the edges.
    def odd(self, often=0.04):
        return self.rng.random() < often

    def session(self, opened):
        known = sorted(self.interval)
        if self.odd():
            return self.rng.choice([31, 32, 33, 255, 2 ** 32, 9999999999999])
        if opened and known and not self.odd(0.1):
            return self.rng.choice(known)
        return self.rng.randrange(self.sessions)

    def time(self):
        if self.line is None:
            return self.rng.choice([0, 0, 5])
        now = self.line.time
        if self.odd():
            # A call taken at the latest time leaves nothing but departures, so it is rare.
            latest = self.rng.choice([LATEST - 1, LATEST]) if self.odd() else LATEST + 1
            return self.rng.choice([0, max(0, now - 1), latest, 9999999999999])
        end = None if self.line.wire is None else self.line.end()
        if end is None:
            if self.near_end and now < LATEST - 10000:
                return LATEST - self.rng.randrange(10000)
            return max(now, min(LATEST, now + self.rng.choice([0, 0, 1, 3, 50, 1000, 100000])))
        if self.odd():
            return end + 1
        return self.rng.choice([now, now, end, self.rng.randint(now, end)])

    def length(self, session):
        interval = self.interval.get(session, 2)
        fit = FRAME // interval
        edge = [1, self.longest, self.longest + 1, fit, fit + 1, 0, 9216, 9217]
        if self.odd(0.15):
            return self.rng.choice(edge)
        return self.rng.randint(1, max(1, min(self.longest, fit)))

    def a_interval(self):
        if self.odd():
            return self.rng.choice([0, 13, 55439, 55440, 55441, 110880, 9999999999999])
        return self.rng.choice(self.intervals)

    def places(self):
        return self.rng.choice([1, 1, 2, 3, 4, 4, 8, 20, 60]) if not self.odd() else self.rng.choice([0, 200, 256, 257])

    def form(self, word):
        rng = self.rng
        if word == "link":
            usual = [50, 100, 1000, 1500, 9216, 1]
            return {"longest": rng.choice([0, 9217, 9216, 1]) if self.odd(0.15) else rng.choice(usual)}
        if word == "depart":
            return {}
        values = {"at": self.time()}
        if word == "pick":
            values["rule"] = rng.choice([0, 1, 2, 3, 3, 2, 4, 65535, 65536]) if self.odd(0.3) else rng.randrange(4)
            return values
        values["session"] = self.session(opened=word != "open")
        if word in ("open", "change"):
            values["interval"] = self.a_interval()
        if word == "open":
            values["places"] = self.places()
        if word == "arrive":
            values["bytes"] = self.length(values["session"])
        return values

    def call(self, word, values):
        """Makes the call on the reference line, so that the next one can be timed."""
        if word == "link":
            if self.line is None:
                made = self.reference.Line.make(values["longest"], self.reference.four())
                if not isinstance(made, tuple):
                    self.line, self.longest = made, values["longest"]
            return
        if self.line is None:
            return
        line, v = self.line, values
        if word == "open":
            answer = line.open(v["session"], v["interval"], v["places"], v["at"])
        elif word == "close":
            answer = line.close(v["session"], v["at"])
        elif word == "change":
            answer = line.change(v["session"], v["interval"], v["at"])
        elif word == "pick":
            answer = line.pick(v["rule"], v["at"])
        elif word == "arrive":
            answer = line.arrive(v["session"], v["bytes"], v["at"])
        else:
            answer = line.depart()
        if answer[0] == "done" and word in ("open", "change"):
            self.interval[v["session"]] = v["interval"]
        if answer[0] == "done" and word == "close":
            self.interval.pop(v["session"], None)

    def word(self):
        if self.line is None and "link" in self.forms and not self.odd(0.1):
            return "link"
        weights = {"link": 1, "open": 6, "close": 3, "change": 6, "pick": 3, "arrive": 30, "depart": 24}
        if len(self.interval) < self.sessions:
            weights["open"] = 20
        return self.rng.choices(self.forms, [weights[f] for f in self.forms])[0]

    def next_line(self, damage):
        """One more line: a sound form, or with the chance given a damaged one."""
        word = self.word()
        values = self.form(word)
        if self.rng.random() < damage:
            return damaged(self.rng, word, values, self.forms + FIELD_WORDS + NO_WORDS)
        self.call(word, values)
        return spelled(self.rng, word, values)


def tokens_of(rng, word, values):
    """The tokens of a form, its fields in any order, numbers now and then with leading zeros."""
    names = list(values)
    if rng.random() < 0.2:
        rng.shuffle(names)
    tokens = ["(", word]
    for name in names:
        number = str(values[name])
        if rng.random() < 0.02 and len(number) < 13:
            number = number.zfill(rng.randint(len(number), 13))
        tokens += ["(", name, number, ")"]
    return tokens + [")"]


def joined(rng, tokens):
    """Tokens as a line: as a planner lays it out, packed, or with blanks anywhere."""
    def kind(token):
        return "word" if token.isalpha() else "number" if token.isdigit() else "bracket"

    layout = rng.choices(["plain", "packed", "loose"], [8, 1, 1])[0]
    text = ""
    for before, token in zip([None] + tokens, tokens):
        if before is None:
            gap = 0
        elif layout == "plain":
            gap = 0 if token == ")" or before == "(" else 1
        else:
            gap = 1 if kind(before) == kind(token) != "bracket" else 0
        if layout == "loose":
            gap += rng.choice([0, 0, 1, 2, 5])
        text += " " * gap + token
    if layout == "loose":
        text += " " * rng.choice([0, 1, 3])
    return text.encode()


def spelled(rng, word, values):
    return joined(rng, tokens_of(rng, word, values))


def damaged(rng, word, values, words):
    """A line with one or two things wrong, from the words given; now and then it is sound all the same."""
    tokens = tokens_of(rng, word, values)
    for _ in range(rng.choice([0, 1, 1, 1, 2])):
        at = rng.randrange(len(tokens)) if tokens else 0
        how = rng.choice(["drop", "double", "swap", "word", "number", "long", "bracket", "field", "again", "lose"])
        if not tokens:
            break
        if how == "drop":
            del tokens[at]
        elif how == "double":
            tokens.insert(at, tokens[at])
        elif how == "swap":
            other = rng.randrange(len(tokens))
            tokens[at], tokens[other] = tokens[other], tokens[at]
        elif how == "word":
            tokens[at] = rng.choice(words)
        elif how == "number":
            tokens[at] = str(rng.randrange(10 ** rng.randint(1, 13)))
        elif how == "long":
            tokens[at] = rng.choice(["0", "1", "9"]) * rng.choice([13, 14, 14, 15, 40])
        elif how == "bracket":
            tokens[at] = rng.choice("()")
        elif how == "field":
            tokens[-1:-1] = ["(", rng.choice(words), str(rng.randrange(100)), ")"]
        elif how == "again" and len(tokens) > 6:
            tokens[-1:-1] = tokens[2:6]
        elif how == "lose" and len(tokens) > 6:
            del tokens[2:6]
    line = joined(rng, tokens)
    for _ in range(rng.choice([0, 0, 0, 1, 1, 2])):
        at = rng.randint(0, len(line))
        how = rng.choice(["foreign", "over", "cut", "upper", "blank", "tail", "empty", "blanks", "bytes"])
        if how == "foreign":
            line = line[:at] + rng.choice(FOREIGN) + line[at:]
        elif how == "over":
            line = line[:at] + rng.choice(FOREIGN) + line[at + 1:]
        elif how == "cut":
            line = line[:at]
        elif how == "upper":
            line = line[:at] + line[at:at + 1].upper() + line[at + 1:]
        elif how == "blank":
            line = line[:at] + b" " * rng.choice([1, 2, 7]) + line[at:]
        elif how == "tail":
            line += rng.choice([b" x", b")", b"(", b" 5", b" ", b"()", b"\r"])
        elif how == "empty":
            line = b""
        elif how == "blanks":
            line = b" " * rng.randint(1, 9)
        elif how == "bytes":
            line = bytes(b for b in rng.randbytes(rng.randint(0, 30)) if b != 10)
    return line


def a_text(rng, reference, forms):
    """One study's text: usual ones, long ones that fill the page, and a few that are too long or at the limit."""
    kind = rng.choices(["usual", "sound", "damaged", "flood", "over", "limit"], [50, 25, 15, 3, 1, 1])[0]
    study = Study(rng, reference, forms)
    damage = {"usual": 0.05, "damaged": 0.6}.get(kind, 0.0)
    lines, size = [], 0
    most = rng.choice([0, 1, 3, 12, 40, 150, 400])
    if kind == "flood":
        most = 12000
    elif kind in ("over", "limit"):
        most = 70000
    room = TEXT_MOST + 2000 if kind == "over" else TEXT_MOST - 200
    while len(lines) < most and size < room - 200:
        if kind == "flood" and rng.random() < 0.7:
            # Short lines with longer answers fill the page before the text ends.
            line = rng.choice([b"", b"", b"()", b"(", b"x"])
        else:
            line = study.next_line(damage)
        lines.append(line)
        size += len(line) + 1
    text = b"\n".join(lines)
    if lines and rng.random() < 0.8:
        text += b"\n"
    if kind == "limit":
        text = (text + b" " * TEXT_MOST)[:TEXT_MOST + rng.choice([-1, 0, 1])]
    return text


def counted(counts, page):
    for line in page.split(b"\n"):
        m = re.match(rb"\((fault|refused) (\d+)|\((done|left)", line)
        if m:
            counts[int(m.group(2)) if m.group(2) else m.group(3).decode()] += 1


def program_page(program, text):
    """What the program writes, or why there is no page."""
    try:
        done = subprocess.run([program], input=text, stdout=subprocess.PIPE, stderr=subprocess.PIPE, timeout=60)
    except subprocess.TimeoutExpired:
        return None, "the program did not end within 60 seconds"
    if done.returncode != 0:
        return None, f"the program ended with status {done.returncode}"
    return done.stdout, None


def told(expected, got):
    """The first line in which two pages differ."""
    left, right = expected.split(b"\n"), got.split(b"\n")
    for n, (a, b) in enumerate(zip(left, right), 1):
        if a != b:
            return f"answer {n}: expected {a!r}, got {b!r}"
    return f"expected {len(left)} lines, got {len(right)}"


def main():
    parser = argparse.ArgumentParser(description="compare a program with a reference interpreter on random studies")
    parser.add_argument("reference")
    parser.add_argument("program")
    parser.add_argument("count", type=int)
    parser.add_argument("seed", type=int)
    parser.add_argument("--forms", default=",".join(FIELDS), help="the forms to make, by their words; link is always one")
    parser.add_argument("--save", default="difference.run", help="where the first text that differs is put")
    args = parser.parse_args()
    asked = args.forms.split(",")
    for form in asked:
        if form not in FIELDS:
            parser.error(f"no such form: {form}")
    forms = [form for form in FIELDS if form == "link" or form in asked]
    reference = load(args.reference)
    program = os.path.abspath(args.program)
    counts, lines = collections.Counter(), 0
    for number in range(args.count):
        rng = random.Random(f"{args.seed} {number}")
        text = a_text(rng, reference, forms)
        expected = reference.run(text, PAGE)
        got, why = program_page(program, text)
        if got != expected:
            with open(args.save, "wb") as file:
                file.write(text)
            print(f"study {number} of seed {args.seed} differs, saved to {args.save}: {why or told(expected, got)}")
            return 1
        counted(counts, expected)
        lines += expected.count(b"\n")
    seen = ", ".join(f"{k} {counts[k]}" for k in sorted(counts, key=lambda k: (isinstance(k, str), k)))
    print(f"{args.count} studies of seed {args.seed}, {lines} answers, no difference ({seen})")
    return 0


if __name__ == "__main__":
    sys.exit(main())
