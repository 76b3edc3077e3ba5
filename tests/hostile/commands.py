"""The command lines that are run, in a small and in a middle size, and the files that they need."""
import os
import subprocess
from dataclasses import dataclass, field

# How a command writes: `whole` all at once, after everything else; `scheduled` and `driven` so too, a
# run that a refused event may end; `threads` a run in threads; `traced`, `console`, `debug` and `gdb` as
# they go on.
WRITES_AS_IT_GOES = ("traced", "console", "debug", "gdb")


@dataclass
class Command:
    """A command line, what it reads, and how it writes."""

    words: list
    kind: str = "whole"
    text: bytes = None  # standard input, none where it isn't read
    ends: int = 0  # its exit status
    of: str = ""  # what its standard input is
    sort: bool = False  # whether the order of the lines of its output is the host's
    events: list = field(default_factory=list)  # of a debugger's session, a line each
    size: list = field(default_factory=list)  # of its machine, as options
    parts: list = field(default_factory=list)  # of a client's session, its packets

    @property
    def name(self):
        name = " ".join(shown(word) for word in self.words)
        return f"{name} < {self.of}" if self.of else name or "(no word)"


def shown(word):
    """A word as a shell would need it."""
    return word if word.isprintable() and " " not in word and "(" not in word else repr(word)


def events_of(schedule):
    """The events of a schedule, or of a log, a line each."""
    events = []
    for line in schedule.splitlines():
        words = line.split()
        if not words or words[0] not in ("s", "k", "o") or line.startswith("#"):
            continue
        if words[0] == "s" and len(words) == 3 and words[2].isdigit():
            events += [f"s {words[1]}"] * int(words[2])
        else:
            events.append(" ".join(words[: {"s": 2, "k": 2, "o": 1}[words[0]]]))
    return events


def machine_of(text):
    """The machine line of a schedule, or the one that a log's machine line is for a schedule, without the
    image; nothing where the text has none."""
    words = text.split("\n", 1)[0].split(" ")
    if words[:2] != ["#", "machine"]:
        return ""
    return " ".join(word for word in words if len(word) < 64) + "\n"


PRINTER = """# Prints {count} bytes, and switches the machine off.
        lui $8, 0xbfe0
        ori $11, $0, {count}
next:   andi $12, $11, 0x3f
        addiu $12, $12, 32
        sw $12, 0($8)
sent:   lw $10, 4($8)
        andi $10, $10, 2
        beq $10, $0, sent
        nop
        sw $0, 4($8)
        addiu $11, $11, -1
        bne $11, $0, next
        nop
        lui $8, 0xbfff
        sw $0, 32264($8)
"""

OFF = "        lui $8, 0xbfff\n        sw $0, 32264($8)\n"
SPIN = "again:  beq $0, $0, again\n        nop\n"


def long_source(parts, lines):
    """A text of so many segments with so many labels each."""
    text = []
    for part in range(parts):
        text.append(f"        .org 0x{0x80000200 + part * 0x4000:08x}")
        for line in range(lines):
            name = f"label_{part}_{line}"
            text.append(f"{name}: addiu $8, $8, {line}   # {part}")
            text.append(f"        bne $8, $0, {name}")
            text.append(f"        .word {name} + 4, -{line}, 0x{part * 65536 + line:08x}")
    return "\n".join(text) + "\n"


class Maker:
    """Makes the files of the commands with the program itself, in the folder where they are run."""

    def __init__(self, program, top, folder):
        self.program = program
        self.top = top
        self.folder = folder

    def example(self, name):
        with open(os.path.join(self.top, "examples", name), encoding="utf-8") as file:
            return file.read()

    def path(self, name):
        return os.path.join(self.top, "examples", name)

    def write(self, name, text):
        """Writes a file, and gives its name."""
        with open(os.path.join(self.folder, name), "wb") as file:
            file.write(text if isinstance(text, bytes) else text.encode())
        return name

    def said(self, words, text=b""):
        """What the program prints; nothing where it has no such command."""
        return subprocess.run(
            [self.program, *words], input=text, capture_output=True, cwd=self.folder, check=False
        ).stdout

    def assemble(self, name, source):
        return self.write(name, self.said(["as"], source.encode()))


# A debugger's commands over a schedule that sends bytes; each kind of command is there.
SESSION = """# looks around
help
w
b 0 80000210
g
r 0
c 0
d 0 80000210
g 4
t 0
u r 0 10
u o
m 80000200 3
x 80000200 3
x 0x80000204 2 0
l 5
j 4
j 900
k 41
s 0
s 0 3
o
g 2
u t 0
u m 1000
u i 0 5
g
l 1024
r 7
quit
"""


# Some of them by names of addresses.
NAMED_SESSION = """b 0 take
b 1 count+8
g
w
x both 4
u m take
m sent 2
g
d 0 take
g 40
j 12
w
x 0x80000230 3 0
g
quit
"""


def framed(*bodies):
    """Packets of GDB's remote protocol, each acknowledged: so its answer is."""
    return [b"$" + body.encode() + b"#%02x" % (sum(body.encode()) % 256) + b"+" for body in bodies]


def monitor(line):
    """The packet of a monitor's line."""
    return "qRcmd," + line.encode().hex()


# A session of GDB's remote protocol: each packet that makes room for something is there.
PACKETS = framed(
    "qSupported",
    "qXfer:features:read:target.xml:0,fff",
    "qXfer:threads:read::0,fff",
    "Hg1",
    "g",
    "m80000200,40",
    "Z0,80000210,4",
    "Z2,80003000,4",
    "vCont;c",
    "bs",
    monitor("at"),
    monitor("where"),
    monitor("regs"),
    monitor("cop0"),
    monitor("tlb"),
    monitor("memory 80000200 9"),
    monitor("trace 5"),
    monitor("schedule"),
    monitor("output"),
    monitor("goto 3"),
    "vCont;c",
    monitor("help"),
    "z0,80000210,4",
    "c",
    "c",
    monitor("trace 9"),
    "bc",
    "bc",
    "M80003000,1:00",
    "zz",
    "qThreadExtraInfo,1",
    "D",
)


def images(make):
    """The images that both sizes use."""
    make.write("named.elf", make.said(["as", "--symbols"], make.example("turns.s").encode()))
    make.write("panic.elf", make.said(["as", "--symbols"], make.example("labs/panic.s").encode()))
    for name in ("hello", "turns", "words", "sum", "sharing", "conflict"):
        make.assemble(f"{name}.elf", make.example(f"{name}.s"))
    shootdown = make.example("shootdown.s")
    make.assemble("hasty.elf", shootdown.replace("beq     $15, $0, acked", "nop"))
    make.assemble("off.elf", OFF)
    make.assemble("spin.elf", SPIN)
    make.assemble("wait.elf", "wait\n")
    make.assemble("trapping.elf", "syscall\n")
    make.write("shell.elf", open(make.path("shell/shell.elf"), "rb").read())
    make.write("page.watches", make.example("shootdown.watches"))
    make.write("keys", "start\nring\noff\n")
    make.write("two-steps", "s 0 2\n")
    make.write("off.log", make.said(["run", "off.elf", "--only-log"], b"s 0 2\n"))


def small(make):
    """Each command, with each option that takes memory."""
    images(make)
    hello = make.example("hello.schedule").encode()
    make.write("hello.schedule", hello)
    hello_log = make.said(["run", "hello.elf", "--only-log"], hello)
    make.write("hello.log", hello_log)
    small_hello = b"# machine 65536 1\n" + hello
    shootdown = make.example("shootdown.schedule").encode()
    make.write("sample.log", make.said(["run", "@sample", "--cpus", "2", "--only-log"], shootdown))
    keys = make.write("few-keys", "start\n\x7foff\n")
    two = ["--cpus", "2", "--ram", "65536"]
    one = ["--ram", "65536"]
    at_random = ["--random", "7"]
    priorities = ["--random", "7", "--changes", "2", "--within", "50"]
    typed = ["--turns", "1", "--gap", "none", "--keys", keys]

    def debug(words, size, events, script=SESSION):
        return Command(["debug", *words], "debug", script.encode(), events=events, size=size)

    def gdb(*words):
        return Command(["gdb", *words], "gdb", b"".join(PACKETS), of="packets", parts=PACKETS)

    chosen = make.said(["schedule", "turns.elf", *two, *at_random]).decode()
    make.write("chosen.schedule", chosen)
    make.write("first.schedule", "# machine 65536 2\ns 0 3\n")
    behind = [*at_random, "--after", "first.schedule"]
    chosen_behind = make.said(["schedule", "turns.elf", *behind]).decode()
    sample = make.said(["run", "@sample", "--cpus", "2", "--only-log"], shootdown).decode()
    return [
        Command(["demo"]),
        Command(["as"], text=make.example("hello.s").encode(), of="hello.s"),
        Command(["as"], text=make.example("words.s").encode(), of="words.s"),
        Command(["as", "--symbols"], text=make.example("words.s").encode(), of="words.s"),
        Command(["dis", "hello.elf"]),
        Command(["dis", "words.elf", "--names"]),
        Command(["dis", "named.elf", "--symbols"]),
        Command(["run", "hello.elf"], "scheduled", hello),
        Command(["run", "hello.elf", *one, "--show-log"], "scheduled", hello),
        Command(["run", "hello.elf", *one, "--only-log"], "scheduled", hello),
        Command(["run", "hello.elf", *one, "--only-output"], "scheduled", hello),
        Command(["run", "hello.elf", *one, "--log", "3", "--show-log"], "scheduled", hello),
        Command(["run", "@sample", *two, "--show-log"], "scheduled", shootdown),
        Command(["run", "hello.elf", "--only-log"], "scheduled", small_hello, of="a machine line"),
        Command(["run", "hello.elf", "--show-log"], "scheduled", hello_log, of="a log"),
        Command(["run", "hello.elf", *one, "--turns", "1"], "driven"),
        Command(["run", "turns.elf", *two, *at_random, "--show-log"], "driven"),
        Command(["run", "turns.elf", *two, *priorities, "--only-log"], "driven"),
        Command(["run", "shell.elf", *two, *typed], "driven"),
        Command(["run", "turns.elf", *behind, "--show-log"], "driven"),
        Command(["run", "hello.elf", "--turns", "1", "--after", "hello.log"], "driven"),
        Command(["run", "sharing.elf", *two, "--turns", "1", "--events", "300", "--link", "line",
                 "--only-log"], "driven", ends=3),
        Command(["run", "conflict.elf", *one, "--turns", "1", "--strict", "--show-log"], "driven", ends=4),
        Command(["run", "off.elf", *one, "--threads", "5"], "threads"),
        Command(["run", "off.elf", *one, "--cpus", "3", "--threads", "5", "--burst", "2"], "threads"),
        Command(["run", "spin.elf", *two, "--threads", "4", "--only-log"], "threads", ends=3, sort=True),
        Command(["run", "trapping.elf", *one, "--traps"], "scheduled", b"s 0 98\n", ends=3),
        Command(["run", "turns.elf", *two, *at_random, "--traps"], "driven"),
        Command(["run", "off.elf", *one, "--threads", "5", "--traps"], "threads"),
        Command(["schedule", "turns.elf", *two, "--turns", "3"]),
        Command(["schedule", "turns.elf", *two, *priorities]),
        Command(["schedule", "shell.elf", *two, *typed]),
        Command(["schedule", "turns.elf", *behind]),
        Command(["replay", "hello.elf", "hello.log"]),
        Command(["replay", "@sample", "sample.log", "--cpus", "2", "--log", "5"]),
        Command(["audit", "@sample", "page.watches", *two], text=shootdown),
        Command(["audit", "@sample", "page.watches"], text=sample.encode(), of="a log"),
        Command(
            ["audit", "hasty.elf", "page.watches", *two, "--log", "9"],
            text=make.example("hasty.schedule").encode(),
            ends=4,
        ),
        Command(["search", "turns.elf", *two, "--seeds", "2"]),
        Command(["search", "hasty.elf", *two, "--seeds", "3", "--watches", "page.watches", "--whole"],
                ends=4),
        Command(["search", "off.elf", *one, "--seeds", "1", "--output", "keys"], ends=4),
        Command(["search", "shell.elf", *two, "--seeds", "1", "--keys", keys, "--events", "500"]),
        Command(["search", "turns.elf", *two, "--seeds", "5", "--jobs", "3"]),
        Command(["search", "turns.elf", *two, "--seeds", "5", "--progress"]),
        Command(["search", "turns.elf", "--seeds", "2", "--after", "first.schedule"]),
        Command(["search", "turns.elf", "--delays", "1", "--within", "5", "--after", "first.schedule"]),
        Command(["search", "turns.elf", *two, "--delays", "1", "--within", "6"]),
        Command(["search", "turns.elf", *two, "--delays", "2", "--within", "5", "--jobs", "3"]),
        Command(["search", "panic.elf", *two, "--delays", "1", "--never", "panic", "--jobs", "2"], ends=4),
        Command(["search", "panic.elf", *two, "--seeds", "2", "--never", "panic", "--never", "80000000",
                 "--events", "300"], ends=4),
        Command(["explore", "off.elf", *one]),
        Command(["explore", "hello.elf", *one, "--states", "9", "--output", "keys"], ends=6),
        Command(["explore", "panic.elf", *two, "--never", "panic", "--never", "80000000", "--states", "5"],
                ends=6),
        Command(["console", "hello.elf", *one], "console", b""),
        Command(["console", "shell.elf", *two, *at_random], "console", b"start\n\x7foff\n"),
        debug(["hello.elf", "hello.schedule", *one], one, events_of(hello.decode())),
        debug(["@sample", "sample.log"], ["--cpus", "2"], events_of(sample)),
        debug(["turns.elf", *two, *at_random], two, events_of(chosen)),
        debug(["turns.elf", "chosen.schedule"], two, events_of(chosen)),
        debug(["turns.elf", *behind], two, events_of(chosen_behind)),
        debug(["named.elf", *two, *at_random, "--symbols"], two, events_of(chosen), NAMED_SESSION),
        gdb("hello.elf", "hello.schedule", *one),
        gdb("turns.elf", *two, *at_random),
        gdb("turns.elf", *behind),
        Command(["trace", "hello.elf", *one], "traced", hello),
        Command(["trace", "hello.elf"], "traced", small_hello, of="a machine line"),
        Command(["trace", "hello.elf"], "traced", hello_log, of="a log"),
        Command(["trace", "turns.elf", *two, *at_random, "--names"], "traced"),
        Command(["trace", "turns.elf", *behind], "traced"),
        Command(["trace", "named.elf", *two, *at_random, "--symbols"], "traced"),
        Command(["trace", "shell.elf", *two, *typed, "--from", "900", "--count", "20"], "traced"),
        *words_and_faults(make),
    ]


def words_and_faults(make):
    """Command lines without a task, help, and faults."""
    off_log = make.said(["run", "off.elf", "--only-log"], b"s 0 2\n")
    make.write("short.elf", b"\x7fELF")
    make.write("bad.schedule", "s 0\ns 0 0\n")
    make.write("wrong.log", "m161 log 2 word\ns 0 went\n")
    make.write("bad.watches", "w 5 0400 00003000 00003004\n")
    make.write("far.watches", "w 64 00400 00003000 00003004\n")
    make.write("bytes", b"# \xff\n")
    return [
        Command(["--help"]),
        Command(["--version"]),
        Command(["help", "replay"]),
        Command(["run", "-h"]),
        Command([], ends=2),
        Command(["foo"], ends=2),
        Command(["run"], ends=2),
        Command(["run", "off.elf", "--ram", "x"], ends=2),
        Command(["run", "off.elf", "--turns", "1", "--random", "1"], ends=2),
        Command(["run", "none.elf"], text=b"", ends=1),
        Command(["run", "none\x01(\\.elf"], text=b"", ends=1),
        Command(["run", "short.elf"], text=b"", ends=1),
        Command(["run", "off.elf", "--cpus", "33"], text=b"", ends=1),
        Command(["run", "off.elf"], text=b"s 0\ns 0 0\n", ends=1, of="bad.schedule"),
        Command(["run", "off.elf"], text=b"# machine 4097 1\ns 0\n", ends=1, of="a machine line of none"),
        Command(["run", "off.elf"], text=b"m161 log 2 word\ns 0 went\n", ends=1, of="wrong.log"),
        Command(["run", "off.elf", "--cpus", "2"], text=off_log, ends=1, of="off.log"),
        Command(["trace", "@sample"], text=off_log, ends=1, of="off.log"),
        Command(["run", "off.elf"], text=b"# \xff\n", ends=1, of="bytes"),
        Command(["as"], text=b"nop\naddi $1, $2, 40000\n", ends=1, of="bad.s"),
        Command(["replay", "off.elf", "bytes"], ends=1),
        Command(["replay", "off.elf", "wrong.log"], ends=1),
        Command(["replay", "off.elf", "off.log", "--cpus", "2"], ends=1),
        Command(["replay", "@sample", "off.log"], ends=1),
        Command(["audit", "off.elf", "bad.watches"], text=b"", ends=1),
        Command(["audit", "off.elf", "far.watches"], text=b"", ends=1),
        Command(["debug", "off.elf", "bad.schedule"], text=b"", ends=1),
        Command(["search", "panic.elf", "--seeds", "1", "--never", "panic", "--never", "none"], ends=1),
        Command(["search", "off.elf", "--seeds", "1", "--never", "panic"], ends=1),
    ]


def middle(make):
    """Each command, with at least 1,000 requests for memory where it can make so many. `demo`, `dis`
    without `--symbols`, `schedule`, `replay`, `audit`, `console`, `trace` and a run that prints no log
    can't: they make room for a whole text, log or run at once, or double the room that they have."""
    images(make)
    one = ["--ram", "65536"]
    two = ["--cpus", "2", "--ram", "65536"]
    many = ["--cpus", "32", "--ram", "65536"]
    source = long_source(40, 12)
    make.assemble("long.elf", source)
    make.write("labels.elf", make.said(["as", "--symbols"], long_source(10, 30).encode()))
    make.assemble("printer.elf", PRINTER.format(count=300))
    quick = ["--turns", "1", "--transfer", "3"]
    printing = make.said(["schedule", "printer.elf", *one, *quick])
    make.write("printing.schedule", printing)
    make.write("printing.log", make.said(["run", "printer.elf", *one, "--only-log"], printing))
    keys = make.write("many-keys", "help\nstart\n" + "ring\n" * 20 + "off\n")
    typed = ["--turns", "1", "--gap", "none", "--keys", keys]
    at_random = ["--random", "7"]
    priorities = ["--random", "7", "--changes", "2", "--within", "500"]
    shootdown = make.example("shootdown.schedule").encode()
    watches = "".join(f"w {n % 64} {1024 + n:05x} 00003000 00003004\n" for n in range(400))
    make.write("many.watches", watches)
    watched = ["search", "hasty.elf", *two, "--watches", "page.watches"]
    changed = ["--changes", "2", "--within", "100"]
    script = "\n".join(
        [
            "g 100",
            "b 0 80000210",
            *["w\nr 0\nc 0\nx 80000200 9\nl 20\nm 0x80000200 12\nx 80000200 4 0"] * 6,
            "g 300",
            "d 0 80000210",
            "u o\nu o\nl 9\nu r 0 11\nw\nj 50\nr 0\ns 0 40\nk 41\no\nu o\ng 700",
            *["w\nl 99\nt 0\nhelp\nj 700\nj 9999\nx 80000201 1\nr 1"] * 4,
            "j 1\ng\nl 30\nquit\n",
        ]
    )
    events = events_of(printing.decode())
    return [
        Command(["as"], text=source.encode(), of="long.s"),
        Command(["as", "--symbols"], text=long_source(20, 6).encode(), of="labels.s"),
        Command(["dis", "long.elf"]),
        Command(["dis", "long.elf", "--names"]),
        Command(["dis", "labels.elf", "--symbols"]),
        Command(["run", "printer.elf", *one, "--show-log"], "scheduled", printing),
        Command(["run", "printer.elf", *one, "--log", "99", "--only-log"], "scheduled", printing),
        Command(["run", "printer.elf", *one, *quick], "driven"),
        Command(["run", "shell.elf", *two, *at_random, "--keys", keys, "--events", "2500", "--show-log"],
                "driven", ends=3),
        Command(["run", "shell.elf", *two, *priorities, "--keys", keys, "--events", "1500", "--link",
                 "line", "--strict", "--only-log"], "driven", ends=3),
        Command(["run", "shell.elf", *many, *typed], "driven"),
        Command(["run", "spin.elf", *many, "--threads", "50", "--only-log"], "threads", ends=3,
                sort=True),
        Command(["run", "spin.elf", *many, "--threads", "40", "--burst", "7", "--only-log"], "threads",
                ends=3, sort=True),
        Command(["run", "off.elf", *many, "--threads", "50", "--burst", "7"], "threads"),
        Command(["schedule", "shell.elf", *two, *priorities, "--keys", keys]),
        Command(["schedule", "printer.elf", *one, *quick]),
        Command(["replay", "printer.elf", "printing.log"]),
        Command(["audit", "@sample", "many.watches", *two], text=shootdown),
        Command(["search", "turns.elf", *two, "--seeds", "180"]),
        Command([*watched, *changed, "--seeds", "120", "--events", "60"]),
        Command([*watched, "--seeds", "9"], ends=4),
        Command([*watched, *changed, "--seeds", "9"], ends=4),
        Command(["search", "turns.elf", *two, "--seeds", "9", "--output", "keys"], ends=4),
        Command(["console", "printer.elf", *one, "--transfer", "3"], "console", b""),
        Command(["console", "shell.elf", *many, "--gap", "40"], "console", b"help\nstart\nring\noff\n"),
        Command(["debug", "printer.elf", "printing.schedule", *one], "debug", script.encode(),
                events=events, size=one),
        Command(["debug", "printer.elf", "printing.log"], "debug", script.encode(), events=events,
                size=one),
        Command(["gdb", "printer.elf", "printing.schedule", *one], "gdb", b"".join(PACKETS * 3),
                of="packets", parts=PACKETS * 3),
        Command(["trace", "printer.elf", *one], "traced", printing),
        Command(["trace", "shell.elf", *two, *at_random, "--keys", keys, "--events", "6000", "--names"],
                "traced", ends=3),
    ]


def steady():
    """Pairs of commands: the other one makes many more Steps, or types many more keys, which take no
    memory, so it makes no more requests than the first."""
    one = ["--ram", "65536"]
    many = ["--cpus", "32", "--ram", "65536"]
    run = ["run", "spin.elf"]
    pairs = [
        (Command(words, text=few, ends=ends, of="few"), Command(words, text=more, ends=ends, of="many"))
        for words, ends in (
            ([*run, *one], 3),
            ([*run, *one, "--log", "9"], 3),
            (["audit", "spin.elf", "page.watches", *one], 0),
        )
        for few, more in ((b"s 0\n", b"s 0 1000000\n"), (b"k 41\n", b"k 41\n" * 200))
    ]
    for words in (
        [*run, *many, "--turns", "1", "--events"],
        [*run, *many, "--random", "1", "--events"],
        [*run, *many, "--random", "1", "--changes", "3", "--within", "50", "--events"],
        ["console", "spin.elf", *many, "--events"],
    ):
        pairs.append((Command([*words, "64"], ends=3), Command([*words, "30000"], ends=3)))
    return pairs


SIZES = {"small": small, "middle": middle}
