"""A session of GDB's protocol over a run: what is answered to the bytes that a client sends. It is worked out
from the page of the protocol and from what `trace` prints of the run, by nothing of the server. What isn't known of
a state is a pattern."""
import re

FEATURES = (
    "PacketSize=4000;QStartNoAckMode+;multiprocess-;swbreak+;hwbreak+;vContSupported+;ReverseStep+;"
    "ReverseContinue+;qXfer:features:read+;qXfer:threads:read+"
)
HEX = re.compile(r"[0-9a-fA-F]+\Z")
DECIMAL = re.compile(r"(0|[1-9][0-9]*)\Z")
ANY = -1
BREAKS = ("swbreak:;", "hwbreak:;")
WATCHES = ("watch", "rwatch", "awatch")
WATCH_WORDS = ("write", "read", "access")
ALONE = ("at", "why", "where", "output", "schedule", "help")
OF_PROCESSOR = ("regs", "cop0", "tlb")


class Wrong(Exception):
    """Bytes that the protocol doesn't tell."""


class Malformed(Exception):
    """A packet whose arguments are none."""


class Digits:
    """A text of so many digits, or none for an error, of which some are known, by their place."""

    ALL = re.compile(r"[0-9a-fx]*\Z")

    def __init__(self, length, known):
        self.length = length
        self.known = known

    @property
    def pattern(self):
        return f"{self.length} digits with {self.known}"

    def match(self, text):
        return (
            len(text) == self.length
            and self.ALL.match(text)
            and all(text.startswith(digits, at) for at, digits in self.known)
        )


def number(text):
    if not HEX.match(text) or int(text, 16) >= 2**32:
        raise Malformed
    return int(text, 16)


def two(text):
    first, comma, second = text.partition(",")
    if not comma:
        raise Malformed
    return number(first), number(second)


def thread(text):
    """A processor's number, or ANY."""
    return ANY if text == "-1" else number(text) - 1


def decimal(text):
    return int(text) if DECIMAL.match(text) and int(text) < 2**32 else None


def address_of(text):
    digits = text[2:] if text.startswith("0x") else text
    return int(digits, 16) if re.match(r"[0-9a-f]{1,8}\Z", digits) else None


def frame(body):
    return b"$" + body + b"#%02x" % (sum(body) % 256)


def items_of(sent):
    """The bytes +, - and 03 between frames, and the frames: their body, or None if it is too long, and
    whether the sum is right."""
    at = 0
    while at < len(sent):
        if sent[at] != ord("$"):
            yield sent[at : at + 1], None
            at += 1
            continue
        close = sent.find(b"#", at)
        if close < 0 or close + 2 >= len(sent):
            return
        body = sent[at + 1 : close].rpartition(b"$")[2]
        digits = sent[close + 1 : close + 3].decode("latin-1")
        right = bool(HEX.match(digits)) and int(digits, 16) == sum(body) % 256
        yield (body if len(body) <= 16384 else None), right
        at = close + 3


class Session:
    """What is sent is given to `judge` with what was told, which is looked through as it goes on."""

    def __init__(self, course):
        self.course = course
        self.place = 0
        self.breakpoints = []
        self.watches = []
        self.general = 0
        self.control = ANY
        self.mark = None
        self.interrupted = False
        self.shown = 0
        self.reason = ("start",)
        self.processor = 0
        self.acknowledging = True
        self.answered = None
        self.last = b""

    # What is told.

    def exactly(self, text):
        if not self.told.startswith(text, self.at):
            raise Wrong(f"at {self.at}: {self.told[self.at :][:200]!r} in place of {text[:200]!r}")
        self.at += len(text)

    def tells(self, body):
        """The last packet of an answer: a text, or a pattern."""
        if isinstance(body, str):
            self.last = frame(body.encode("latin-1"))
            self.exactly(self.last)
            return
        found = self.told[self.at :].partition(b"#")[0][1:]
        if not body.match(found.decode("latin-1")):
            raise Wrong(f"at {self.at}: {found[:200]!r} isn't {body.pattern!r}")
        self.last = frame(found)
        self.exactly(self.last)

    def shows(self, text):
        """Packets with a text for the user: a text, or a pattern."""
        if isinstance(text, str):
            text = text.encode("latin-1")
            for k in range(0, len(text), 8191):
                self.exactly(frame(b"O" + text[k : k + 8191].hex().encode()))
            return
        told = b""
        while self.told.startswith(b"$O", self.at) and not self.told.startswith(b"$OK#", self.at):
            piece = self.told[self.at + 2 :].partition(b"#")[0]
            self.exactly(frame(b"O" + piece))
            told += bytes.fromhex(piece.decode())
        if not text.match(told.decode("latin-1")):
            raise Wrong(f"at {self.at}: {told[:200]!r} isn't {text.pattern!r}")

    def judge(self, sent, told):
        self.told, self.at = told, 0
        for item, right in items_of(sent):
            if right is None:
                self.between(item)
            elif not self.receives(item, right):
                break
        if self.at != len(told):
            raise Wrong(f"more was told: {told[self.at :][:200]!r}")

    def between(self, byte):
        if byte == b"+":
            self.answered = None
        elif byte == b"-" and self.acknowledging:
            self.exactly(self.last)
        elif byte == b"\x03":
            self.interrupted = True

    def receives(self, body, right):
        """A frame; whether the session goes on behind it."""
        if self.acknowledging:
            if not right:
                self.exactly(b"-")
                return True
            if body is not None and body == self.answered:
                return True
            self.exactly(b"+")
        self.answered = body
        body = "" if body is None else body.decode("latin-1")
        if body == "k":
            return False
        try:
            answer = self.answer(body)
        except Malformed:
            answer = "E01"
        self.tells(answer)
        if body == "QStartNoAckMode":
            self.acknowledging = False
        return body != "D"

    # Packets.

    def answer(self, body):
        """The last packet of the answer to a body."""
        if body == "vCont?":
            return "vCont;c;C;s;S"
        if body == "qSupported" or body.startswith("qSupported:"):
            return FEATURES
        if body in ("QStartNoAckMode", "D") or body.startswith("qSymbol:"):
            return "OK"
        if body in ("?", "qC", "qfThreadInfo", "qsThreadInfo", "qAttached"):
            return self.asked(body)
        if body in ("c", "s", "bc", "bs"):
            return self.moves(self.by_control("sc"[body[-1] == "c"]), body[0] == "b")
        if body.startswith("vCont;"):
            return self.acts(body[6:])
        if body == "vCont":
            raise Malformed
        if body[:1] in tuple("GPMX"):
            return "E05"
        if body[:1] in ("Z", "z"):
            return self.stops(body)
        if body[:1] in ("H", "T"):
            return self.of_thread(body)
        if body == "g":
            return Digits(648, [(8 * n, digits) for n in range(81) for digits in self.register(n)])
        if body[:1] == "p":
            n = number(body[1:])
            return Digits(8, [(0, digits) for digits in self.register(n)]) if n < 81 else "E01"
        if body[:1] == "m":
            return self.memory(*two(body[1:]))
        if body.startswith("qThreadExtraInfo,"):
            p = thread(body[17:])
            if p == ANY:
                raise Malformed
            return self.doing() if p < self.course.processors else "E02"
        if body.startswith("qXfer:"):
            return self.part(body[6:])
        if body.startswith("qRcmd,"):
            return self.monitor(body[6:])
        return ""

    def asked(self, body):
        if body == "?":
            return self.stop_text()
        if body == "qC":
            return f"QC{self.general + 1:x}"
        if body == "qfThreadInfo":
            return "m" + ",".join(f"{p + 1:x}" for p in range(self.course.processors))
        return "l" if body == "qsThreadInfo" else "1"

    def of_thread(self, body):
        if body[0] == "H" and body[1:2] not in ("g", "c"):
            raise Malformed
        p = thread(body[1 + (body[0] == "H") :])
        if body[0] == "T":
            if p == ANY:
                raise Malformed
            return "OK" if p < self.course.processors else "E02"
        if p >= self.course.processors:
            return "E02"
        if body[1] == "c":
            self.control = p
        elif p != ANY:
            self.general = p
        return "OK"

    def stops(self, body):
        if len(body) < 2 or body[1] not in "01234":
            return ""
        if body[2:3] != ",":
            raise Malformed
        kind, (address, size) = int(body[1]), two(body[3:])
        if kind >= 2 and (size == 0 or address + size > 2**32):
            raise Malformed
        held, stop = (self.watches, (kind, address, size)) if kind >= 2 else (self.breakpoints, (kind, address))
        if body[0] == "z":
            held[:] = [other for other in held if other != stop]
        elif stop not in held:
            if len(held) == 64:
                return "E03"
            held.append(stop)
        return "OK"

    @staticmethod
    def part(body):
        if body.startswith("features:read:"):
            annex, name = body[14:].partition(":")[0], "target.xml"
            rest = body[14 + len(name) + 1 :]
            if not body[14:].startswith(name + ":"):
                raise Malformed
        elif body.startswith("threads:read:"):
            rest = body[14:]
            if not body[13:].startswith(":"):
                raise Malformed
        else:
            return ""
        offset, length = two(rest)
        return re.compile(r"(?s)[lm].{0,%d}\Z" % min(length, 16383))

    @staticmethod
    def doing():
        states = [state + user + slot for state in ("running", "waiting", "stopped")
                  for user in ("", " user") for slot in ("", " slot")]
        return re.compile("(" + "|".join(state.encode().hex() for state in states) + r")\Z")

    # The state at the place.

    def pc(self, p):
        """A processor's pc, where a Step of it is seen on both sides."""
        if not any(step and step.processor == p for step in self.course.steps[: self.place]):
            return None
        for step in self.course.steps[self.place :]:
            if step and step.processor == p:
                return step.pc
        return None

    def register(self, n):
        """Its digits, where they are known."""
        value = None
        if 38 <= n < 72:
            return ["xxxxxxxx"]
        if n < 32:
            value = self.course.known(self.course.registers[self.general, n], self.place)
        elif n == 37:
            value = self.pc(self.general)
        return [] if value is None else [f"{value:08x}"]

    def memory(self, address, size):
        if size == 0:
            raise Malformed
        size = min(size, 8192, 2**32 - address)
        first = address & 0x1FFFFFFF
        if not 0x80000000 <= address < 0xC0000000:
            return re.compile(r"(E04|([0-9a-f]{2}){1,%d})\Z" % size)
        end = min(first + size, self.course.ram)
        if end <= first:
            return "E04"
        known = []
        for at in range(first // 4 * 4, end, 4):
            word = self.course.word(at, self.place) if at in self.course.memory else None
            if word is not None:
                low, high = max(at, first), min(at + 4, end)
                known.append((2 * (low - first), f"{word:08x}"[2 * (low - at) : 2 * (high - at)]))
        return Digits(2 * (end - first), known)

    # Moves.

    def by_control(self, motion):
        """What each processor does by a packet without actions."""
        everyone = range(self.course.processors)
        if self.control != ANY:
            return {self.control: motion}
        return {p: motion if motion == "c" or p == self.general else "c" for p in everyone}

    def acts(self, text):
        actions = []
        for part in text.split(";"):
            motion, colon, name = part.partition(":")
            if not re.match(r"([cs]|[CS][0-9a-fA-F]{2})\Z", motion):
                raise Malformed
            actions.append((motion[0].lower(), thread(name) if colon else ANY))
        if any(p >= self.course.processors for _, p in actions):
            return "E02"
        chosen = {}
        for motion, p in actions:
            for q in range(self.course.processors):
                if p in (ANY, q):
                    chosen.setdefault(q, motion)
        return self.moves(chosen, False)

    def step(self, place):
        return self.course.steps[place] if 0 <= place < self.course.end else None

    def stepped(self, chosen, step):
        if step and chosen.get(step.processor) == "s":
            return ("step", step.processor)
        return None

    def breaks(self, chosen, step):
        if step and step.processor in chosen and step.fetched:
            for kind in (0, 1):
                if (kind, step.pc) in self.breakpoints:
                    return ("break", step.processor, kind, step.pc)
        return None

    def touches(self, chosen, step):
        if not (step and step.processor in chosen and step.access):
            return None
        access = step.access
        places = [0x80000000 + access.word, 0xA0000000 + access.word]
        places += [access.mapped] if access.mapped is not None else []
        for kind, address, size in self.watches:
            looks = (access.is_store, not access.is_store, True)[kind - 2]
            if looks and any(address < word + 4 and word < address + size for word in places):
                return ("touch", step.processor, kind, address)
        return None

    def forwards(self, chosen):
        for j in range(self.place, self.course.end + 1):
            later = j > self.place
            found = (
                self.interrupted and ("interrupt",)
                or later and j == self.mark and ("goto",)
                or later and self.stepped(chosen, self.step(j - 1))
                or j == self.course.end and ("end",)
                or self.breaks(chosen, self.step(j))
                or self.touches(chosen, self.step(j))
            )
            if found:
                return j, found
        raise Wrong("a move that never stops")

    def backwards(self, chosen):
        for j in range(self.place, -1, -1):
            before = j < self.place
            found = (
                self.interrupted and ("interrupt",)
                or before and j == self.mark and ("goto",)
                or before and self.breaks(chosen, self.step(j))
                or before and self.stepped(chosen, self.step(j))
                or j == 0 and ("begin",)
                or self.touches(chosen, self.step(j - 1))
            )
            if found:
                return j, found
        raise Wrong("a move that never stops")

    def moves(self, chosen, is_back):
        self.place, self.reason = (self.backwards if is_back else self.forwards)(chosen)
        if self.reason[0] == "interrupt":
            self.interrupted = False
        elif self.reason[0] == "goto":
            self.mark = None
        if self.reason[0] in ("step", "break", "touch"):
            self.processor = self.reason[1]
        else:
            last = self.course.last_processor(self.place)
            self.processor = last if last in chosen else min(chosen, default=0)
        self.general = self.processor
        console = self.course.console(self.place)
        self.shows(console[self.shown :].decode("latin-1"))
        self.shown = max(self.shown, len(console))
        return self.stop_text()

    def stop_text(self):
        name = self.reason[0]
        signal = "T02" if name in ("interrupt", "goto") else "T05"
        told = ""
        if name in ("end", "begin"):
            told = f"replaylog:{name};"
        elif name == "break":
            told = BREAKS[self.reason[2]]
        elif name == "touch":
            told = f"{WATCHES[self.reason[2] - 2]}:{self.reason[3]:08x};"
        return f"{signal}{told}thread:{self.processor + 1:x};"

    def why(self):
        name = self.reason[0]
        if name == "step":
            return f"step {self.reason[1]}"
        if name in ("break", "touch"):
            word = "break" if name == "break" else WATCH_WORDS[self.reason[2] - 2]
            return f"{word} {self.reason[1]} {self.reason[3]:08x}"
        return self.course.next(self.place) if name == "end" else name

    # The monitor.

    def monitor(self, digits):
        if len(digits) % 2 or not re.match(r"[0-9a-fA-F]*\Z", digits):
            raise Malformed
        self.shows(self.line(bytes.fromhex(digits).decode("latin-1")))
        return "OK"

    def line(self, line):
        word, space, rest = line.partition(" ")
        if not space and word in ALONE:
            return self.alone(word)
        if not space and word in OF_PROCESSOR:
            return re.compile(r"(?s).+\n\Z")
        if space and word in OF_PROCESSOR:
            p = decimal(rest)
            if p is None:
                return "? BadArgument\n"
            return re.compile(r"(?s)[^?].*\n\Z") if p < self.course.processors else "? BadProcessor\n"
        if word in ("goto", "trace", "memory") or space and word in ALONE:
            return self.with_numbers(word, rest) if space else "? BadArgument\n"
        return "? Unknown\n"

    def alone(self, word):
        if word == "at":
            return f"at {self.place} next {self.course.next(self.place)}\n"
        if word == "why":
            return f"{self.why()} at {self.place}\n"
        if word == "output":
            return self.course.console(self.place).decode("latin-1")
        if word == "schedule":
            return written(self.course.events[: self.place])
        return re.compile(r"(?s).+\n\Z")

    def with_numbers(self, word, rest):
        bad = "? BadArgument\n"
        if word == "memory":
            first, _, second = rest.partition(" ")
            address, n = address_of(first), decimal(second)
            if address is None or n is None or not 1 <= n <= 1024 or address % 4:
                return bad
            at = address & 0x1FFFFFFF if 0x80000000 <= address < 0xC0000000 else address
            return re.compile(r"(?s)[^?].*\n\Z") if at + 4 * n <= self.course.ram else bad
        n = decimal(rest)
        if n is None or word not in ("goto", "trace"):
            return bad
        if word == "trace":
            if not 1 <= n <= 1024:
                return bad
            number = min(n, self.place)
            return re.compile(r"([0-9]+ [^\n]*\n){%d}\Z" % number)
        if n > len(self.course.events):
            return bad
        self.mark = None if n == self.place else n
        return f"at {n}\n" if n == self.place else f"goto {n}\n"


def written(events):
    """A schedule's lines: Steps of one processor that follow each other are one line."""
    lines = []
    for event in events:
        if lines and event[0] == "s" and lines[-1][0] == event:
            lines[-1][1] += 1
        else:
            lines.append([event, 1])
    return "".join(event + (f" {n}" if n > 1 else "") + "\n" for event, n in lines)
