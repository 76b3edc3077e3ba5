"""progress.py WAY UNIT PROGRAM WORD..: runs the program, and looks at what it says of how far it is: as lines in a pipe
(WAY is lines), or drawn at a terminal (WAY is terminal). The last word, a number, is this script's own: it grows until
the work is long enough for something to be shown. All else has to be as without it; then that is printed. Else it says
what is wrong, with status 99."""
import os
import pty
import re
import subprocess
import sys

WAY, UNIT, WORDS = sys.argv[1], sys.argv[2], sys.argv[3:]
AMOUNT = rb"s161: (\d+)(?: of (\d+))? " + UNIT.encode()


def fail(why):
    print(why)
    sys.exit(99)


def run(words):
    """The program's status, and the bytes on its standard output and standard error."""
    if WAY == "lines":
        done = subprocess.run(words + ["--progress"], stdin=subprocess.DEVNULL, capture_output=True)
        return done.returncode, done.stdout, done.stderr
    control, terminal = pty.openpty()
    said = b""
    with subprocess.Popen(words, stdin=subprocess.DEVNULL, stdout=subprocess.PIPE, stderr=terminal) as program:
        os.close(terminal)
        while True:
            try:
                more = os.read(control, 65536)
            except OSError:
                break
            if not more:
                break
            said += more
        output = program.stdout.read()
    os.close(control)
    return program.returncode, output, said


def amounts(said):
    """What was shown, and what else was said behind it."""
    if WAY == "lines":
        whole = re.fullmatch(rb"((?:" + AMOUNT + rb"\n)*)(.*)", said, re.DOTALL)
    else:
        whole = re.fullmatch(rb"((?:\r" + AMOUNT + rb"\x1b\[K)*)((?:\r\x1b\[K)?.*)", said, re.DOTALL)
    if not whole:
        fail(f"standard error has {said!r}")
    return re.findall(AMOUNT, whole.group(1)), whole.group(4)


size = 1 << 8
shown, rest, status, output = [], b"", 0, b""
while len(shown) < 5 and len({done for done, most in shown}) < 2:
    size *= 4
    if size > 1 << 36:
        fail(f"nothing is shown of a run of {size} events")
    status, output, said = run(WORDS + [str(size)])
    shown, rest = amounts(said)
numbers = [int(done) for done, most in shown]
if numbers != sorted(numbers) or numbers[0] == numbers[-1]:
    fail(f"it doesn't go on: {numbers}")
if any(most and int(done) > int(most) for done, most in shown):
    fail(f"more is done than there is: {shown}")
if WAY == "terminal":
    if not rest.startswith(b"\r\x1b[K"):
        fail(f"the line isn't cleared: {rest!r}")
    rest = rest[len(b"\r\x1b[K"):]
plain = subprocess.run(WORDS + [str(size)], stdin=subprocess.DEVNULL, capture_output=True)
if (status, output, rest) != (plain.returncode, plain.stdout, plain.stderr):
    fail(f"{status} {output!r} {rest!r} in place of {plain.returncode} {plain.stdout!r} {plain.stderr!r}")
print("as without it")
