"""What a command may answer where memory is refused."""
import re
import signal

import commands
import running

# What standard error gets for the commands of a session that have other arguments than theirs.
NOTES = {"j": b"s161: note j (the number of an event, at most how many there are with those that are left)\n"}
MEMORY = b"s161: memory\n"
THREADS = {
    b"s161: threads NoMemory (memory was refused)\n": "threads NoMemory",
    b"s161: threads NoThread (the system refused a thread)\n": "threads NoThread",
}
# A debugger's commands that change nothing.
DISPLAYS = ("help", "w", "r", "c", "t", "m", "x", "l")
REFUSED = re.compile(rb"stop: refused (0|[1-9][0-9]*) 6 NoMemory\n\Z")


class Wrong(Exception):
    """An answer that the specification doesn't allow."""


def sorted_as(command, output):
    """An output whose lines have the host's order, in one of their own."""
    return b"".join(sorted(output.splitlines(True))) if command.sort else output


def is_same(command, answer, usual):
    """Whether a run answered as it does undisturbed."""
    return (
        answer.status == usual.status
        and answer.errors == usual.errors
        and sorted_as(command, answer.output) == sorted_as(command, usual.output)
    )


def judge_end(answer):
    """A run ends by itself, and in time."""
    if answer.status == -signal.SIGALRM:
        raise Wrong("it didn't end in time")
    if answer.status < 0:
        raise Wrong(f"it was killed by signal {-answer.status}")


def judge_refusal(command, answer, usual):
    """The kind of an answer while memory was refused."""
    if is_same(command, answer, usual):
        return "as without"
    judge_end(answer)
    if command.kind == "debug":
        return Session(command, answer).judge()
    if answer.status != 1:
        raise Wrong("another exit status, or another text")
    if answer.errors == MEMORY:
        return judge_fault(command, answer, usual)
    if command.kind == "threads" and answer.errors in THREADS and not answer.output:
        return THREADS[answer.errors]
    if command.kind in ("scheduled", "driven", "traced", "console"):
        return judge_stop(command, answer, usual)
    raise Wrong("neither the fault of memory nor the usual answer")


def judge_fault(command, answer, usual):
    """What stands on standard output beside the fault of memory."""
    if not answer.output:
        return "memory"
    if command.kind not in ("traced", "console", "gdb"):
        raise Wrong("a part of the output, and the fault of memory")
    if not usual.output.startswith(answer.output):
        raise Wrong("the output isn't the beginning of the usual one")
    if command.kind == "gdb" and len(answer.output) != answered(command, answer):
        raise Wrong("not the answers to the packets before the one that memory was refused to")
    if command.kind == "traced" and not answer.output.endswith(b"\n"):
        raise Wrong("a part of a line")
    return "memory, behind a part"


def ends_of_packets(command):
    """After how many bytes of its output the answers to a client's packets end: a new session with the
    first of them says it for each."""
    packets = command.parts
    texts = [b"".join(packets[:count]) for count in range(len(packets) + 1)]
    return [len(running.place.undisturbed(command.words, text).output) for text in texts]


def answered(command, answer):
    """How many bytes answer the packets that a session had carried out when memory was refused last:
    those that ended before the last byte that it had read."""
    read = len(command.text[: answer.counts.place])
    carried = 0
    at = 0
    for packet in command.parts:
        at += len(packet)
        # The last byte acknowledges the answer.
        carried += at - 1 < read
    return ends_of_packets(command)[carried]


def option(words, name, value):
    """These words, with this value of an option."""
    if name in words:
        at = words.index(name)
        return words[:at] + [name, value] + words[at + 2 :]
    return words + [name, value]


def says_stop_apart(command):
    """Whether why a run stopped is said on standard error."""
    return command.kind == "console" or "--only-log" in command.words or "--only-output" in command.words


def judge_stop(command, answer, usual):
    """A run that ended as memory was refused to event K: what it printed is that of the events before."""
    stop = answer.errors if says_stop_apart(command) else answer.output
    if "--only-log" in command.words:
        k = entries_of(answer.output)
    else:
        found = REFUSED.search(stop)
        if not found:
            raise Wrong("neither the fault of memory nor a stop that names it")
        k = int(found.group(1))
    line = b"stop: refused %d 6 NoMemory\n" % k
    if event_at(command, k) != "o":
        raise Wrong(f"event {k} isn't the end of a transfer")
    if command.kind == "traced":
        before = [text for text in usual.output.splitlines(True)[:-1] if int(text.split()[0]) < k]
        wanted = (b"".join(before) + line, b"")
    else:
        wanted = wanted_of_stop(command, k, line)
    if (answer.output, answer.errors) != wanted:
        raise Wrong(f"another text than that of the first {k} events")
    return f"refused {k}"


def wanted_of_stop(command, k, line):
    """Both streams of a run whose event K is refused for memory."""
    words, text = first_events(command, k)
    first = running.place.undisturbed(words, text)
    if says_stop_apart(command):
        return (first.output, line)
    if not first.output.endswith(b"stop: end\n"):
        raise Wrong(f"the first {k} events don't end")
    return (first.output[: -len(b"stop: end\n")] + line, b"")


def first_events(command, k):
    """The words and the input of the same run with its first K events."""
    if command.kind == "scheduled":
        text = command.text.decode()
        events = commands.events_of(text)[:k]
        return command.words, (commands.machine_of(text) + "".join(f"{event}\n" for event in events)).encode()
    if "--after" in command.words:
        return without_order(command.words), schedule_text(command, k)
    return option(command.words, "--events", str(k)), command.text


# The options of an order, each with a value.
ORDER = {"--turns", "--delayed", "--random", "--changes", "--within", "--events", "--transfer", "--keys", "--gap",
         "--after"}


def without_order(words):
    """These words without the options of an order."""
    return [word for at, word in enumerate(words) if word not in ORDER and words[at - 1] not in ORDER]


def schedule_text(command, k):
    """The first K events of a run by an order, as a schedule."""
    text = running.place.undisturbed(["schedule", *without(command.words[1:])]).output.decode()
    events = commands.events_of(text)[:k]
    return (commands.machine_of(text) + "".join(f"{event}\n" for event in events)).encode()


def entries_of(log):
    """How many events the log of a run has, with those that its tail dropped."""
    lines = [line for line in log.splitlines() if not line.startswith(b"#")]
    head = lines[0].split() if lines else []
    if head[:3] == [b"m161", b"tail", b"2"]:
        return int(head[4]) + len(lines) - 1
    return len(lines) - 1


def event_at(command, k):
    """Event K of a run."""
    if command.kind in ("scheduled", "traced") and command.text is not None:
        events = commands.events_of(command.text.decode())
    else:
        words = ["schedule", *without(command.words[1:])]
        if command.kind == "console":
            words += ["--gap", "none"] if "--gap" not in words else []
            words += ["--turns", "1"] if not {"--turns", "--random"} & set(words) else []
            words += ["--keys", running.place.file("keys", command.text)]
        words = option(words, "--events", str(k + 1))
        events = commands.events_of(running.place.undisturbed(words).output.decode())
    return events[k] if k < len(events) else None


def without(words):
    """The words of a run, without those that `schedule` doesn't take."""
    kept = []
    skip = 0
    for word in words:
        if skip:
            skip -= 1
        elif word in ("--from", "--count"):
            skip = 1
        elif word not in ("--show-log", "--only-log", "--only-output", "--traps", "--names", "--symbols"):
            kept.append(word)
    return kept


class Session:
    """A debugger's session in which a command may have been refused memory: a refused command leaves
    the session as it was, so those after it answer as if it hadn't been given."""

    def __init__(self, command, answer):
        self.command = command
        self.answer = answer
        self.made = []
        self.left = list(command.events)
        self.breakpoints = []
        self.refused = []
        self.noted = b""  # what standard error has of the lines so far

    def usual(self, lines):
        """What these lines print from here on, each for itself: in a new session over the same
        events, of which those that were made are made at once."""
        text = "".join(f"{event}\n" for event in self.made + self.left)
        first = [f"g {len(self.made)}"] if self.made else []
        first += self.breakpoints
        script = "".join(f"{line}\nzz\n" for line in first + lines)
        place = running.place
        image, options = self.command.words[1], (*self.command.size, *self.shown())
        key = (image, *options, text, script)
        if key not in place.known:
            words = ["debug", image, place.file("schedule", text.encode()), *options]
            answer = place.run(words, place.file("script", script.encode()))
            place.known[key] = answer.output.split(b"? Unknown\n")[len(first) :]
        return place.known[key]

    def shown(self):
        """The command's options that answers depend on, but for the machine's size."""
        words = self.command.words
        symbols = ["--symbols"] if "--symbols" in words else []
        return symbols + (["--log", words[words.index("--log") + 1]] if "--log" in words else [])

    def judge(self):
        lines = self.command.text.decode().splitlines()
        answers = self.usual(lines)
        begin = 0
        at = 0
        output = self.answer.output
        for number, line in enumerate(lines):
            usual = answers[number - begin]
            if at == len(output) and self.is_fault() and usual:
                return self.told(self.unread(number))
            if output.startswith(usual, at):
                at += len(usual)
                self.does(line, usual.decode())
                if usual == b"? BadArgument\n":
                    self.noted += NOTES[line.split()[0]]
            elif output.startswith(b"? NoMemory\n", at):
                at += len(b"? NoMemory\n")
                self.refused.append("? NoMemory")
                if line.split()[0] not in DISPLAYS:
                    answers, begin = self.usual(lines[number + 1 :]), number + 1
            elif line == "o" and output.startswith(b"refused 6 NoMemory\n", at):
                at += len(b"refused 6 NoMemory\n")
                self.refused.append("refused 6")
                answers, begin = self.usual(lines[number + 1 :]), number + 1
            elif line[:1] in ("g", "u") and self.is_refused(usual, output[at:]):
                at += output[at:].index(b"\n") + 1
                answers, begin = self.usual(lines[number + 1 :]), number + 1
            else:
                raise Wrong(f"`{line}`, line {number + 1}, answers {output[at : at + 60]!r}")
            if line == "quit":
                break
        if at != len(output):
            raise Wrong(f"more was written: {output[at : at + 60]!r}")
        if self.is_fault():
            return self.told(self.unread(len(lines)))
        if self.answer.status != 0 or self.answer.errors != self.noted:
            raise Wrong("another exit status, or another error")
        if not self.refused:
            raise Wrong("another answer, though nothing says that memory was refused")
        return self.told(None)

    def is_fault(self):
        return self.answer.status == 1 and self.answer.errors == self.noted + MEMORY

    def unread(self, answered):
        """That memory was refused before a line was read to its end, after this many lines that have
        their answers: the fault of memory ends a session there alone. In carrying out a line it is
        that line's answer."""
        read = self.command.text[: self.answer.counts.place]
        whole = read.count(b"\n")
        if read.endswith(b"\n"):
            raise Wrong(f"the fault of memory, though line {whole} was read to its end")
        if answered < whole:
            raise Wrong(f"line {answered + 1} has no answer")
        return "memory, in reading a line" if read else "memory"

    def told(self, end):
        kinds = self.refused + ([end] if end else [])
        return ", then ".join(kinds)

    def does(self, line, answer):
        """Notes what an accepted command has changed."""
        words = line.split()
        told = answer.split()
        if not words or not told or told[0] == "?":
            return
        if words[0] in ("g", "u"):
            self.goes(told[0], int(told[1]))
        elif words[0] == "s" and len(words) == 3:
            made = int(told[1]) + (told[0] in ("until", "off"))
            self.made += [f"s {words[1]}"] * made
        elif words[0] in ("s", "k", "o") and told[0] != "refused":
            self.made.append(line)
        elif words[0] == "j":
            self.left = self.made[int(words[1]) :] + self.left
            self.made = self.made[: int(words[1])]
        elif words[0] in ("b", "d"):
            self.breakpoints.append(line)

    def goes(self, word, number):
        made = number + (word in ("until", "off"))
        self.made += self.left[:made]
        self.left = self.left[made + (word == "refused") :]

    def is_refused(self, usual, output):
        """Whether a run of the debugger ended at a Done that was refused memory, before it would have
        stopped by itself; then the events before it were made, and that one is used up."""
        found = re.match(rb"refused (0|[1-9][0-9]*) 6 NoMemory\n", output)
        if not found:
            return False
        k = int(found.group(1))
        word, number = usual.split()[:2]
        if k >= int(number) + (word in (b"until", b"off", b"refused")):
            raise Wrong(f"event {k} is refused, but the run stops before it")
        if self.left[k] != "o":
            raise Wrong(f"event {k} of those that are left isn't the end of a transfer")
        self.goes("refused", k)
        self.refused.append("refused K 6")
        return True
