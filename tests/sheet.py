#!/usr/bin/env python3
"""Tries the reading and writing of comma-separated text against a second reader and writer, tests/sheet_second.py.

tests/sheet.py [--sessions N] [--texts N] [--seed N]

The cases of tests/sheet.cases come first: each has its answer with it. Then N random sessions are written and read back, in
rooms that fit and in rooms that do not, and N random texts are read, most of them with a fault. Every number, length and count
of lines and every byte of the lent buffer is compared. Last, where LibreOffice is installed, a sample that it saved is read.
Needs the program try_sheet, and builds it if need be.
Exit status: 0 all agree; 1 something differs; 2 the arguments are wrong; 3 the program could not be built."""
import argparse
import collections
import json
import os
import random
import shutil
import struct
import subprocess
import sys
import tempfile
from pathlib import Path

sys.dont_write_bytecode = True  # nothing is left beside the tests
from sheet_second import MARKS, read, write

TOP = Path(__file__).resolve().parent.parent
UNTOUCHED = 170  # what the program lends
MOST_ROOM = 250_000


# ---- cases


def random_record(rng, mark):
    made = mark.encode()
    for width in filter(None, MARKS[mark]):
        most = 256**width - 1
        made += rng.choice([0, 1, most, rng.randrange(most + 1), min(most, rng.randrange(300))]).to_bytes(width, "little")
    return made


def random_session(rng):
    length = rng.choice([1, 2, 5, 20, 60])
    later = [mark for mark in MARKS if mark != "BD"]
    return random_record(rng, "BD") + b"".join(random_record(rng, rng.choice(later)) for _ in range(rng.randrange(length)))


def dressed(rng, field):
    """A field in quotes or not, with zeros in front or not."""
    if field.isdigit() and rng.random() < 0.1:
        field = "0" * rng.choice([1, 3, 30]) + field
    return f'"{field}"' if rng.random() < 0.2 else field


FAULTS = ['"', '""', "\r", "\n", "\r\n", ",", " ", "\t", "+", "-", "x", "9" * 12, "\xef\xbb\xbf", "bd", ""]


def random_text(rng):
    """A text of good lines, in most of which something is then put or taken at random."""
    lines = []
    for _ in range(rng.randrange(6)):
        mark = rng.choice(list(MARKS))
        fields = [mark]
        for width in MARKS[mark]:
            fields.append(str(rng.choice([0, 7, 256**width - 1, 256**width, rng.randrange(256**width)])) if width else "")
            if width and rng.random() < 0.8:
                fields[-1] = str(rng.randrange(256**width))
        lines.append(",".join(dressed(rng, field) for field in fields))
    text = "\r\n".join(lines) + rng.choice(["\r\n", ""])
    for _ in range(rng.choice([0, 0, 1, 1, 2])):
        at = rng.randrange(len(text) + 1)
        text = text[:at] + rng.choice(FAULTS) + text[at + rng.randrange(2):]
    return text.encode("latin-1")


def outside(path):
    """The cases of the file, each with the number, and with what is made where that stands there."""
    for line in path.read_text().splitlines():
        case = json.loads(line)
        room = MOST_ROOM if case["room"] is None else case["room"]
        if "read" in case:
            given = case["read"].encode("latin-1") * case["times"] + case["then"].encode("latin-1")
            made = bytes.fromhex(case["session"]) if "session" in case else None
            yield b"r", given, room, case["number"], made, case.get("session_bytes")
        else:
            yield b"w", bytes.fromhex(case["write"]), room, case["number"], case["text"].encode("latin-1"), None


# ---- the program, and what is compared


def program():
    """The command that runs it, built if need be."""
    # rt builds it by running it; without input it does nothing.
    words = {"cwd": TOP / "crates/try_sheet", "stdin": subprocess.DEVNULL, "stdout": subprocess.DEVNULL, "stderr": subprocess.PIPE}
    built = subprocess.run(["rt", "run"], check=False, **words)
    if built.returncode:
        sys.stderr.buffer.write(built.stderr)
        print("tests/sheet.py: the program could not be built", file=sys.stderr)
        sys.exit(3)
    made = str(TOP / "crates/try_sheet/out/try_sheet")
    return ["bash", "-c", '. "$0"; run_compiled "$@"', str(TOP / "tools/common.sh"), made]


class Trial:
    """Cases for one run of the program, and what each should come to."""

    def __init__(self, command):
        self.command, self.given, self.wanted = command, [], []

    def add(self, way, given, room):
        self.given.append(way + struct.pack("<II", room, len(given)) + given)
        self.wanted.append((way, given, room, (read if way == b"r" else write)(given, room)))

    def run(self):
        """How many cases differ, and how often each number was answered."""
        out = subprocess.run(self.command, input=b"".join(self.given), stdout=subprocess.PIPE, check=True).stdout
        at, differ, numbers = 0, 0, collections.Counter()
        for way, given, room, (number, made, lines) in self.wanted:
            end = out.find(b"\n", at)
            said, buffer = out[at:end], out[end + 1:end + 1 + room]
            at = end + 1 + room
            wanted = f"{number} {len(made)} {lines}".encode(), made + bytes([UNTOUCHED]) * (room - len(made))
            numbers[number] += 1
            if (said, buffer) != wanted:
                differ += 1
                print(f"sheet: {way.decode()} of {given[:200]!r} in {room}: answered {said.decode()}, and should {wanted[0].decode()}")
        if at != len(out):
            differ += 1
            print("sheet: the program printed more than was asked")
        return differ, numbers


def try_outside(command):
    trial, wrong = Trial(command), 0
    for way, given, room, number, made, length in outside(TOP / "tests/sheet.cases"):
        trial.add(way, given, room)
        mine = trial.wanted[-1][3]
        if mine[0] != number or (made is not None and mine[1] != made) or (length is not None and len(mine[1]) != length):
            wrong += 1
            print(f"sheet: the second machine differs from the case {given[:60]!r} in {room}: {mine[0]}, and should {number}")
    differ, numbers = trial.run()
    return len(trial.wanted), differ + wrong, numbers


def try_sessions(command, rng, count):
    trial = Trial(command)
    for _ in range(count):
        session = random_session(rng)
        text = write(session, MOST_ROOM)[1]
        if read(text, MOST_ROOM)[1] != session:
            print(f"sheet: the second machine does not read back {session!r}")
        trial.add(b"w", session, len(text) + rng.choice([0, 9]))
        trial.add(b"r", text, len(session) + rng.choice([0, 9]))
        if rng.random() < 0.3:
            trial.add(b"w", session, rng.randrange(len(text)))
            trial.add(b"r", text, rng.randrange(len(session)))
        if rng.random() < 0.3:
            at = rng.randrange(len(session))
            trial.add(b"w", session[:at] + rng.choice([b"", b"X", b"BD"]) + session[at + 1:], 4000)
    return len(trial.wanted), *trial.run()


def try_texts(command, rng, count):
    trial = Trial(command)
    for _ in range(count):
        text = random_text(rng)
        made = read(text, MOST_ROOM)[1]
        trial.add(b"r", text, rng.choice([200, len(made), max(0, len(made) - 1)]))
    return len(trial.wanted), *trial.run()


def saved_by_spreadsheet(sample):
    """The sample as LibreOffice saves it, or nothing where it is not installed. It ends lines in LF here, and CR LF elsewhere."""
    office = shutil.which("soffice") or shutil.which("libreoffice")
    if not office:
        return None
    with tempfile.TemporaryDirectory() as room:
        home = f"-env:UserInstallation=file://{room}/home"
        (Path(room) / "game.csv").write_bytes(sample)
        for kind, name in (("ods", "game.csv"), ("csv:Text - txt - csv (StarCalc):44,34,76,1", "game.ods")):
            subprocess.run([office, home, "--headless", "--convert-to", kind, name], cwd=room, check=True, capture_output=True)
        return (Path(room) / "game.csv").read_bytes().replace(b"\r\n", b"\n").replace(b"\n", b"\r\n")


def try_spreadsheet(command):
    """A spreadsheet gives every line as many fields as the longest has. So the lines behind the BD are read, and the whole is 31."""
    sample = TOP / "samples/woken-label"
    text, session = (sample.with_suffix(end).read_bytes() for end in (".csv", ".session"))
    opening = text.index(b"\n") + 1
    saved = [saved_by_spreadsheet(part) for part in (text[opening:], text)]
    if None in saved:
        print("sheet: LibreOffice is not installed: what it saves is not tried")
        return 0
    trial = Trial(command)
    for part in saved:
        trial.add(b"r", part, MOST_ROOM)
    wanted = [(0, session[11:]), (31, b"")]
    differ = trial.run()[0] + sum(case[3][:2] != want for case, want in zip(trial.wanted, wanted))
    print(f"sheet: what LibreOffice saves: {len(saved)} cases, {differ} differ")
    return differ


class Words(argparse.ArgumentParser):
    """What is wrong with the arguments is said in one line."""

    def error(self, message):
        print(f"tests/sheet.py: {message}", file=sys.stderr)
        sys.exit(2)


def main():
    parser = Words(description=__doc__, formatter_class=argparse.RawDescriptionHelpFormatter)
    parser.add_argument("--sessions", type=int, default=1000)
    parser.add_argument("--texts", type=int, default=5000)
    parser.add_argument("--seed", type=int, default=1)
    words = parser.parse_args()
    command, rng, wrong = program(), random.Random(words.seed), 0
    for what, (count, differ, numbers) in (
        ("outside cases", try_outside(command)),
        ("random sessions, written and read back", try_sessions(command, rng, words.sessions)),
        ("random texts", try_texts(command, rng, words.texts)),
    ):
        wrong += differ
        told = ", ".join(f"{number} {times} times" for number, times in sorted(numbers.items()))
        print(f"sheet: {what}: {count} cases, {differ} differ; answered {told}", flush=True)
    return 1 if wrong + try_spreadsheet(command) else 0


if __name__ == "__main__":
    sys.exit(main())
