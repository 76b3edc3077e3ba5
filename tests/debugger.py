"""debugger.py PROGRAM SCHEDULE: types commands at the debugger through a pseudo-terminal. Each is typed
only after the whole answer of the one before it was read, and nothing more."""
import sys

from pseudo_terminal import Terminal

program, schedule = sys.argv[1:]
terminal = Terminal([program, "debug", "@sample", schedule, "--cpus", "2"], by_lines=True)
for command, answer in [
    (b"g 2\n", b"end 2\n"),
    (b"u m 3000\n", b"until 0\n"),
    (b"zz\n", b"? Unknown\ns161: note command (there is none of this name; help lists them)\n"),
    (b"j 0\n", b"at 0\n"),
    (b"s 0\n", b"s 0 ran\n"),
]:
    terminal.type(command)
    terminal.read_to(answer)
terminal.type(b"quit\n")
terminal.finish()
print("each command was answered before the next one")
