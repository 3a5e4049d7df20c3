"""What tests/tools.py stands on: how it runs a command and compares, and what it tries with a toolchain that only pretends."""
import os
import shutil
import subprocess
import time
from pathlib import Path

TOP = Path(__file__).resolve().parent.parent
checked, wrong = 0, []


def run(words, stdin=b"", **more):
    """Runs a command; answers its status, and the lines of standard output and of standard error."""
    words = [str(word) for word in words]
    done = subprocess.run(words, input=stdin, capture_output=True, cwd=more.pop("cwd", TOP), **more)
    return done.returncode, done.stdout.decode("latin-1").splitlines(), done.stderr.decode("latin-1").splitlines()


def same(what, got, wanted):
    global checked
    checked += 1
    if got != wanted:
        wrong.append(what)
        print(f"tools: WRONG: {what}\n  is        {got!r}\n  should be {wanted!r}")


def says(words, status, first, stdin=b"", out=(), **more):
    """The command ends with this status, and this is the first line of standard error. Standard output is as given."""
    ended, printed, said = run(words, stdin, **more)
    name = " ".join(str(word) for word in words)
    same(name, (ended, said[:1], printed), (status, [first], list(out)))


def helps(words, first):
    """--help is on standard output, and nothing is on standard error."""
    ended, printed, said = run([*words, "--help"])
    same(f"{words} --help", (ended, printed[0][: len(first)] if printed else "", said), (0, first, []))


def leave_out(what, why):
    print(f"tools: {why}: {what} not tried")


def verdict():
    """Says how many checks there were. The exit status: 0 all is as it should be; 1 something is not."""
    print(f"tools: {checked} checks, {len(wrong)} wrong")
    return 1 if wrong else 0


# ---- progress, and builds that wait for each other: with a toolchain that only pretends

PRETENDED_RT = """#!/bin/sh
[ "$1" != doc ] || { echo "$PRETENDED/kit/START-HERE.md"; exit 0; }
echo begin >>"$PRETENDED/log"
echo "rt: chose --jobs 2 for session_text"
sleep "${PAUSE:-0}"
echo "crate session_text: modules loaded=3 checked=1"
echo "logic=proved functions=4"
echo "crate player: modules loaded=2 checked=1"
[ -z "${BREAK:-}" ] || { echo "logic=not-proved"; echo end >>"$PRETENDED/log"; exit 1; }
echo "logic=proved functions=1"
echo end >>"$PRETENDED/log"
"""


def script(path, text):
    path.parent.mkdir(parents=True, exist_ok=True)
    path.write_text(text)
    path.chmod(0o755)


def pretend(room):
    """A repository of its own whose rt proves nothing. Answers it and the environment."""
    top = room / "pretended"
    shutil.copytree(TOP / "tools", top / "tools")
    (top / "crates.txt").write_text("memory:\nsession_text:  # no needs\nplayer: memory session_text\nother: memory\n")
    script(top / "bin/rt", PRETENDED_RT)
    script(top / "bin/uname", '#!/bin/sh\necho "${MACHINE:-x86_64}"\n')
    script(top / "crates/player/out/player", "#!/bin/sh\ncat >/dev/null\necho 0 0 0\n")
    script(top / "kit/on/aarch64/toolchain/bin/qemu-x86_64", '#!/bin/sh\necho emulated\nshift 3\nexec "$@"\n')
    mine = {name: value for name, value in os.environ.items() if name != "CHEZUMOBARI_BUILDS"}
    return top, {**mine, "PATH": f"{top}/bin:{os.environ['PATH']}", "PRETENDED": str(top)}


def progress(top, env):
    ended, printed, said = run(["tools/play", "crates.txt"], cwd=top, env=env)
    announced = "tools/play: proving player and what it stands on, 3 crates in all; those that have not changed are passed over"
    lines = [announced, "tools/play: session_text is proved", "tools/play: player is proved"]
    same("progress", (ended, printed, said), (0, ["0 0 0"], lines))
    arm = run(["tools/play", "crates.txt"], cwd=top, env={**env, "MACHINE": "aarch64"})
    same("tools/play on Arm, pretended", (arm[0], arm[1]), (0, ["emulated", "0 0 0"]))
    broken = run(["tools/play", "crates.txt"], cwd=top, env={**env, "BREAK": "1"})
    not_built = ["tools/play: the player could not be built"]
    same("a build that fails", (broken[0], broken[1], broken[2][-1:]), (3, [], not_built))
    same("a build that fails is shown", "logic=not-proved" in broken[2], True)
    (top / "bin/rt").rename(top / "bin/hidden")
    none = {**env, "PATH": f"{top}/bin:/usr/bin:/bin"}
    missing = "tools/play: rt is not installed: it is the command of Rattle's toolchain"
    says(["tools/play", "crates.txt"], 3, missing, cwd=top, env=none)
    (top / "bin/hidden").rename(top / "bin/rt")


def wait_for_each_other(top, env):
    """Two at once: the first line comes soon, the second tool says that it waits, and no build begins inside another."""
    (top / "log").unlink()
    began = time.monotonic()
    words = {"cwd": top, "stdout": subprocess.DEVNULL, "stderr": subprocess.PIPE, "text": True}
    first = subprocess.Popen(["tools/play", "crates.txt"], env={**env, "PAUSE": "4"}, **words)
    first.stderr.readline()
    same("the first line comes within 5 seconds", time.monotonic() - began < 5, True)
    second = subprocess.Popen(["tools/play", "crates.txt"], env=env, **words)
    waits = "tools/play: another tool is building here: waiting until it has ended\n"
    same("the second tool waits", second.stderr.readline(), waits)
    for process in (first, second):
        process.stderr.read()
        same("it plays in the end", process.wait(), 0)
    same("one build at a time", (top / "log").read_text().split(), ["begin", "end"] * 2)


def gate(top, env):
    """The gate stops at a part that fails, and if none does it ends with the verdict of rt. Its parts only pretend here."""
    shutil.copytree(TOP / ".ci", top / ".ci")
    script(top / "bin/rt", '#!/bin/sh\necho "rt $*"\necho "rt: ok: all; must-fail edits: 5 refused${BAD:-}"\necho "${VERDICT:-3 passed, 0 failed}"\n[ -z "${VERDICT:-}" ]\n')
    script(top / "tools/embed", '#!/bin/sh\necho embedded\nexit "${EMBED:-0}"\n')
    script(top / "tests/tools.py", '#!/bin/sh\necho tried\nexit "${TOOLS:-0}"\n')
    script(top / "tests/sheet.py", '#!/bin/sh\necho compared\nexit "${SHEET:-0}"\n')
    proved = ["rt ci", "rt: ok: all; must-fail edits: 5 refused", "3 passed, 0 failed"]
    bad = ["rt ci", "rt: ok: all; must-fail edits: 5 refused, 1 bad", "3 passed, 0 failed"]
    not_fit = [".ci/run: a must-fail edit does not fit its file any more"]
    for change, status, lines, said in (
        ({}, 0, [*proved, "embedded", "tried", "compared", "3 passed, 0 failed"], []),
        ({"EMBED": "1"}, 1, [*proved, "embedded"], []),
        ({"TOOLS": "1"}, 1, [*proved, "embedded", "tried"], []),
        ({"SHEET": "1"}, 1, [*proved, "embedded", "tried", "compared"], []),
        ({"BAD": ", 1 bad"}, 3, bad, not_fit),
        ({"VERDICT": "2 passed, 1 failed"}, 1, [proved[0], proved[1], "2 passed, 1 failed"], []),
    ):
        same(f".ci/run with {change}", run([".ci/run"], cwd=top, env={**env, **change}), (status, lines, said))
