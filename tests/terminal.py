"""terminal.py PROGRAM KERNEL: types at a kernel's shell through a pseudo-terminal. Each key is typed
only after all that the kernel has to send before it was read, and nothing more."""
import sys

from pseudo_terminal import Terminal

program, kernel = sys.argv[1:]
terminal = Terminal([program, "console", kernel, "--cpus", "2"], by_lines=False)
terminal.read_to(b"A shell. Type help, and a line end.\n% ")
for key in b"off":
    terminal.type(bytes([key]))
    terminal.read_to(bytes([key]))
terminal.type(b"\n")
terminal.read_to(b"\noff\nstop: off\n")
terminal.finish()
print("each key was answered before the next one")
