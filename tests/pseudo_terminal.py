"""A program at a pseudo-terminal that neither shows what is typed itself nor changes line ends."""
import os
import pty
import select
import subprocess
import sys
import termios


class Terminal:
    def __init__(self, words, by_lines):
        """Starts a program; a terminal by lines hands over whole lines, another one each key."""
        self.end, inner = pty.openpty()
        attributes = termios.tcgetattr(inner)
        attributes[3] &= ~termios.ECHO
        if not by_lines:
            attributes[3] &= ~termios.ICANON
        attributes[1] &= ~termios.OPOST
        termios.tcsetattr(inner, termios.TCSANOW, attributes)
        self.program = subprocess.Popen(words, stdin=inner, stdout=inner, stderr=inner, start_new_session=True)
        os.close(inner)

    def type(self, keys):
        os.write(self.end, keys)

    def read_to(self, wanted):
        """Reads until the wanted bytes are there, and fails where others come or none."""
        found = b""
        while found != wanted:
            ready, _, _ = select.select([self.end], [], [], 20)
            if not ready:
                sys.exit(f"{wanted!r} is late: only {found!r} was sent")
            found += os.read(self.end, len(wanted) - len(found))
            if not wanted.startswith(found):
                sys.exit(f"{found!r} in place of {wanted!r}")

    def finish(self):
        """Waits for the program's end, and fails where its exit status isn't 0."""
        status = self.program.wait(20)
        if status != 0:
            sys.exit(f"status {status}")
