#!/usr/bin/env python3
"""Tries every tool and example with --help and with bad input, and compares exit status and first line.

tests/tools.py    needs what tools/embed has built, and builds the player if need be

What this machine lacks is said and left out. Exit status: 0 all is as it should be; 1 something is not."""
import os
import re
import shutil
import socket
import subprocess
import sys
import tempfile
from pathlib import Path

sys.dont_write_bytecode = True  # nothing is left beside the tests
from tools_support import (
    TOP, gate, helps, leave_out, pretend, progress, run, same, says, script, verdict, wait_for_each_other)

MACHINE = os.uname().machine
BOARD = b"BD" + bytes([4, 0, 2, 0, 2, 1, 0, 0, 0])


# ---- tools/play


def play_arguments(room):
    play = "tools/play"
    give = "tools/play: give one session file, or - for standard input; --help says more"
    says([play], 2, give)
    says([play, "a", "b"], 2, give)
    says([play, "--fast"], 2, "tools/play: there is no option --fast")
    says([play, room / "none"], 2, f"tools/play: {room}/none: there is no such file")
    says([play, room], 2, f"tools/play: {room} is a folder, not a session file")
    # A socket cannot be opened by anybody, not even by root.
    with socket.socket(socket.AF_UNIX) as door:
        door.bind(str(room / "door"))
    says([play, room / "door"], 2, f"tools/play: {room}/door cannot be read")
    says(["sh", "-c", "tools/play - <&-"], 2, "tools/play: standard input is closed")


def play_sessions(room):
    """A whole session gives the player's lines alone; a refused one its lines, and a sentence on standard error."""
    stdin, stdout = (TOP / "crates/player" / name for name in ("stdin", "stdout"))
    lines = stdout.read_text().splitlines()
    # Built now, if it was not, with its progress for all to hear.
    subprocess.run([TOP / "tools/play", stdin], stdout=subprocess.DEVNULL, check=False)
    same("tools/play FILE", run(["tools/play", stdin]), (0, lines, []))
    same("tools/play -", run(["tools/play", "-"], stdin.read_bytes()), (0, lines, []))
    # Three labels on one tile, found by hand: all fall asleep and sleep on, one trade wakes them, and then it commits.
    ended, told, _ = run(["tools/play", TOP / "samples/three-labels.session"])
    numbers = [number for number in (line.split()[1] for line in told[:-1]) if number != "0"]
    wanted = ["20"] * 6 + ["23"] * 3 + ["22", "21"]
    same("one trade wakes three labels", (ended, numbers, told[-1:]), (0, wanted, ["w 0 7 2"]))
    start = b"ST\0"
    refused = [
        (b"BD" + bytes(9), "0 2 0", "0 with the number 2: a size or the first version is out of range"),
        (b"XX\0", "0 10 0", "0 with the number 10: its mark is unknown"),
        (b"", "0 11 0", "0 with the number 11: the session ends before the record does"),
        (start, "0 12 0", "0 with the number 12: the first record is not BD"),
        (bytes(60_001), "0 14 0", "0 with the number 14: the session is longer than 60,000 bytes"),
    ]
    later = [
        (BOARD + start + b"XX", "2 10 0", "2 with the number 10: its mark is unknown"),
        (BOARD + start + b"RD\0", "2 11 0", "2 with the number 11: the session ends before the record does"),
        (BOARD + start + BOARD, "2 12 0", "2 with the number 12: BD stands again, and only the first record may be BD"),
    ]
    for session, line, why in refused:
        says(["tools/play", "-"], 1, f"tools/play: refused at record {why}", session, [line])
    for session, line, why in later:
        file = room / "refused.session"
        file.write_bytes(session)
        says(["tools/play", file], 1, f"tools/play: refused at record {why}", out=["0 0 0", "1 0 0", line])


# ---- tools/make-session


def make_session(room):
    make = "tools/make-session"
    for text in sorted((TOP / "samples").glob("*.txt")):
        made = subprocess.run([TOP / make, text], capture_output=True, check=False)
        same(f"{make} {text.name}", (made.returncode, made.stdout), (0, text.with_suffix(".session").read_bytes()))
    give = "tools/make-session: give one schedule, or - for standard input; --help says more"
    says([make], 2, give)
    says([make, "a", "b"], 2, give)
    says([make, "--fast"], 2, "tools/make-session: there is no option --fast")
    says([make, room / "none"], 2, f"tools/make-session: {room}/none cannot be read: No such file or directory")
    says([make, room], 2, f"tools/make-session: {room} cannot be read: Is a directory")
    file = room / "schedule.txt"
    # Each stands on the second line, behind a good record, and nothing of either is written.
    faults = {
        b"XX 0": "unknown mark 'XX', and the marks are BD ST RD WR AB CM WT SP",
        b"st 0": "unknown mark 'st', and the marks are BD ST RD WR AB CM WT SP",
        b"RD 0": "RD takes task address: that is 2, and not 1",
        b"SP 0 1": "SP takes task: that is 1, and not 2",
        b"RD 256 0": "task 256 is out of its field, 0 to 255",
        b"RD 0 65536": "address 65536 is out of its field, 0 to 65535",
        b"WR 0 0 4294967296": "value 4294967296 is out of its field, 0 to 4294967295",
        b"RD 0 -1": "address -1 is out of its field, 0 to 65535",
        b"RD 0 one": "address 'one' is no number",
        b"-3 x SP 0": "the repeat -3 is out of its field, 1 to 60000",
        b"0 x SP 0": "the repeat 0 is out of its field, 1 to 60000",
        b"3 x": "no record follows the repeat",
        b"SP 0 # f\xc3\xbcr": "the byte 0xc3 in column 9 is not ASCII",
    }
    for line, why in faults.items():
        file.write_bytes(b"BD 4 2 2 1\n" + line + b"\n")
        says([make, file], 1, f"{file}:2: {why}")
    file.write_bytes(b"XX\n\nYY\n")
    same("every fault is said", [line.split(" ")[0] for line in run([make, file])[2]], [f"{file}:1:", f"{file}:3:"])
    for empty in (b"", b"\n# nothing\n"):
        says([make, "-"], 1, "standard input:1: the schedule is empty: it has no record", empty)
    done = subprocess.run([TOP / make, "-"], input=b"ST 0 # begins\n2 x SP 1# two\n", capture_output=True, check=False)
    same("a comment behind a record", (done.returncode, done.stdout, done.stderr), (0, b"ST\0SP\1SP\1", b""))


# ---- tools/sheet, and a text that is played


def sheets(room):
    """Text to session and back, byte for byte. A refusal is one line, with nothing on standard output."""
    sheet, sample = "tools/sheet", TOP / "samples/woken-label"
    wrong = "tools/sheet: say read or write, and nothing else; --help says more"
    for words in ([], ["copy"], ["read", "game.csv"]):
        says([sheet, *words], 2, wrong)
    says(["sh", "-c", "tools/sheet read <&-"], 2, "tools/sheet: standard input is closed")
    text, session = (sample.with_suffix(end).read_bytes() for end in (".csv", ".session"))
    # Built now, if it was not, with its progress for all to hear.
    subprocess.run([TOP / sheet, "read"], input=b"", stdout=subprocess.DEVNULL, check=False)
    for way, given, made in (("read", text, session), ("write", session, text), ("read", b"", b"")):
        done = subprocess.run([TOP / sheet, way], input=given, capture_output=True, check=False)
        same(f"{sheet} {way} of {len(given)} bytes", (done.returncode, done.stdout, done.stderr), (0, made, b""))
    no_field = "a number is missing, is not all digits or is too large, or a field that is not used is not empty"
    no_room = "with this line the session is longer than 60,000 bytes"
    for way, given, where in (
        ("read", b"SP,0,,\n", "line 1 is refused with the number 30: a quote, a CR or an LF stands where it may not; a line ends in CR LF"),
        ("read", b"SP,0\r\n", "line 1 is refused with the number 31: the number of fields is wrong: a BD has five, every other line four"),
        ("read", b"SP,0,,\r\nSP,x,,\r\n", f"line 2 is refused with the number 32: {no_field}"),
        ("read", b'"a\r\nb",,,\r\n', "line 1 is refused with the number 33: the first field is no mark"),
        ("read", b"SP,0,,\r\n" * 20_001, f"line 20001 is refused with the number 34: {no_room}"),
        ("write", BOARD + b"XX", "record 1 is refused with the number 10: its mark is unknown"),
        ("write", b"", "record 0 is refused with the number 11: the session ends before the record does"),
        ("write", BOARD * 2, "record 1 is refused with the number 12: the first record is not BD, or a later one is"),
        ("write", bytes(60_001), "record 0 is refused with the number 14: the session is longer than 60,000 bytes"),
    ):
        says([sheet, way], 1, f"tools/sheet: {where}", given)
    played = run(["tools/play", sample.with_suffix(".session")])
    same("tools/play of a text", run(["tools/play", sample.with_suffix(".csv")]), played)
    (room / "bad.csv").write_bytes(b"BD,4\r\n")
    refused = "line 1 is refused with the number 31: the number of fields is wrong: a BD has five, every other line four"
    says(["tools/play", room / "bad.csv"], 1, f"tools/sheet: {refused}")


# ---- the evening and the other examples


def evening_words():
    for name, tool in (("tools/evening", ["tools/evening"]), ("evening", [built("evening", "release")])):
        one = "is for one evening, and does not go with --evenings"
        for words, why in (
            (["--fast"], "there is no option --fast; --help says which there are"),
            (["--seed"], "--seed needs a value"),
            (["--seed", "x"], "--seed takes a number, not x"),
            (["--evenings", "0"], "--evenings takes 1 or more"),
            (["--labels", "loud"], "--labels takes sleeping or cached, not loud"),
            (["--evenings", "2", "--speak", "x.wav"], f"--speak {one}"),
            (["--labels", "cached", "--evenings", "2"], f"--labels {one}"),
        ):
            says([*tool, *words], 2, f"{name}: {why}")
    most = str(2**64 - 1)
    too_many = "evening: there are not so many evenings after this seed"
    says([built("evening", "release"), "--seed", most, "--evenings", "2"], 2, too_many)


def evening_speaks(room):
    """A --speak that fails says so and ends with 1; the transcript is told before."""
    voice, file = room / "voice/espeak-ng", room / "said.wav"
    evening = [built("evening", "release"), "--speak"]
    told = run(evening[:1])[1]
    env = {**os.environ, "PATH": str(voice.parent)}

    def fails(where, why):
        says([*evening, where], 1, f"evening: {where} was not spoken: {why}", out=told, env=env)

    fails(file, "espeak-ng could not be run (No such file or directory (os error 2))")
    script(voice, "#!/bin/sh\nexit 3\n")
    fails(file, "espeak-ng ended with exit status: 3")
    script(voice, "#!/bin/sh\nexit 0\n")
    fails(file, "espeak-ng wrote nothing")
    script(voice, '#!/bin/sh\necho spoken >"$2"\n')
    fails(room / "none/said.wav", "No such file or directory (os error 2)")
    same("a --speak that goes well", (run([*evening, file], env=env), file.read_text()), ((0, told, []), "spoken\n"))
    deaf = run(["bash", "-c", f"set -o pipefail; {evening[0]} | head -n 1"])
    same("nobody listens to the end", (deaf[0], deaf[2]), (0, []))


def built(example, how):
    return Path(os.environ.get("CARGO_TARGET_DIR", TOP / "rust/target")) / how / "examples" / example


def examples(room):
    label = "label: a label sleeps on its tile"
    if (TOP / "target/embed/bin/label").exists():
        helps([TOP / "target/embed/bin/label"], label)
        says([TOP / "target/embed/bin/label", "x"], 2, "label: it takes no argument, and x was given")
    else:
        leave_out("the label in C is", "tools/embed has built none")
    if not shutil.which("cargo"):
        leave_out("the evening and the label in Rust are", "cargo is not installed")
        return
    missing = [str(path) for path in (built("label", "debug"), built("evening", "release")) if not path.exists()]
    same("tools/embed has built the examples in Rust; not there", missing, [])
    if missing:
        return
    helps([built("label", "debug")], label)
    says([built("label", "debug"), "x"], 2, "label: it takes no argument, and x was given")
    helps([built("evening", "release")], "evening: a game with the screen dark")
    ended, told, _ = run(["tools/evening", "--seed", "7"])
    same("tools/evening --seed 7", (ended, told[-4:-3]), (0, ["Evening 7. To hear it again: --seed 7."]))
    ended, both, _ = run(["tools/evening", "--braille", "--seed", "7"])
    nobody = "With two listeners on each tile, 0 sleepers were woken by one that only listened."
    same("tools/evening --braille", (ended, both[-5:-2], both[-1].endswith(nobody)), (0, told[-4:-1], True))
    page = (TOP / "README.md").read_text()
    quoted = page.partition("Ten lines of it:\n\n")[2].partition("\n\n")[0].replace("    ", "")
    same("README.md quotes ten lines of the evening", (quoted.count("\n"), quoted in "\n".join(told)), (9, True))
    labels, cached = re.match(r"\d+", told[-3]), re.search(r"(\d+) labels, (\d+) of them", told[-2])
    figures = (f"In this evening {labels[0]} labels were", f"Then {cached[2]} of {cached[1]} labels were")
    same("README.md has the figures of the evening", [figure for figure in figures if figure not in page], [])
    evening_words()
    evening_speaks(room)


# ---- all tools


def tools():
    for name in ("tools/play", "tools/sheet", "tools/archive", "tools/embed", "tools/evening", ".ci/run"):
        helps([name], name)
    helps(["tools/make-session"], "Makes a session file from a schedule in text.")
    helps(["tools/respell"], "tools/respell [--list]")
    helps(["tests/tools.py"], "Tries every tool and example")
    helps(["tests/sheet.py"], "usage: sheet.py")
    says(["tests/sheet.py", "--fast"], 2, "tests/sheet.py: unrecognized arguments: --fast")
    says(["tools/respell", "--fast"], 2, "tools/respell: it takes --list or nothing")
    says(["tools/respell"], 0, "tools/respell: no name is in camel case, so this was done before; nothing is changed")
    for name in ("tools/archive", "tools/embed", ".ci/run", "tests/tools.py"):
        says([name, "--fast"], 2, f"{name}: it takes no argument, and --fast was given")


def versions():
    """One version: the header's. The rest has to agree."""

    def found(file, pattern):
        text = (TOP / file).read_text() if (TOP / file).exists() else ""
        match = re.search(pattern, text, re.MULTILINE)
        return match.group(1) if match else None

    version = found("include/chezumobari.h", r'^#define CHEZUMOBARI_VERSION "(.*)"$')
    same("the header has a version", bool(re.fullmatch(r"\d+\.\d+\.\d+", version or "")), True)
    same("the package's version", found("rust/Cargo.toml", r'^version = "(.*)"$'), version)
    same("the locked version", found("rust/Cargo.lock", r'^name = "chezumobari"\nversion = "(.*)"$'), version)
    same("the pkg-config file's version", found(f"target/embed/{MACHINE}/chezumobari.pc", r"^Version: (.*)$"), version)
    same("the newest version in CHANGELOG.md", found("CHANGELOG.md", r"^## (\d\S*)"), version)
    archive = TOP / f"target/embed/{MACHINE}/libchezumobari.a"
    same("the archive's version", archive.exists() and version.encode() + b"\0" in archive.read_bytes(), True)


def main():
    if sys.argv[1:] in (["--help"], ["-h"]):
        print(__doc__)
        return 0
    if sys.argv[1:]:
        print(f"tests/tools.py: it takes no argument, and {sys.argv[1]} was given", file=sys.stderr)
        return 2
    with tempfile.TemporaryDirectory(dir="/tmp") as name:  # a socket's path is short
        room = Path(name)
        top, env = pretend(room)
        for what, part in (
            ("--help and words that are wrong", tools),
            ("the argument of tools/play", lambda: play_arguments(room)),
            ("schedules", lambda: make_session(room)),
            ("progress and failing builds", lambda: progress(top, env)),
            ("two builds at once", lambda: wait_for_each_other(top, env)),
            ("the gate's order", lambda: gate(top, env)),
            ("sessions", lambda: play_sessions(room)),
            ("comma-separated text", lambda: sheets(room)),
            ("the examples", lambda: examples(room)),
            ("versions", versions),
        ):
            print(f"tools: trying {what}", flush=True)
            part()
    return verdict()


if __name__ == "__main__":
    sys.exit(main())
