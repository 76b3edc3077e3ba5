"""prompt.py PROGRAM WORD..: runs the program with these words and a terminal as standard input, where a
person types a Step, a line end and Ctrl-D. Prints what the program says on standard error."""
import os
import pty
import subprocess
import sys

control, terminal = pty.openpty()
with subprocess.Popen(
    sys.argv[1:], stdin=terminal, stdout=subprocess.DEVNULL, stderr=subprocess.PIPE
) as run:
    os.close(terminal)
    os.write(control, b"s 0\n\x04")
    said = run.stderr.read()
    run.wait()
sys.stdout.buffer.write(said)
sys.exit(run.returncode)
