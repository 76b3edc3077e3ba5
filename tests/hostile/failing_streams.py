"""failing_streams.py PROGRAM SHIM TOP SIZE [COMMAND..]: see tests/failing-streams."""
import os
import signal
import sys

import judging
import running
import sweeping
from judging import Wrong

UNREAD = b"s161: input (standard input can't be read)\n"
OUTPUT = b"s161: output\n"

# A way of failing: what is counted, from the undisturbed run's counts; what the shim is told; and what
# may be answered. Those of one run each have no plan but other streams.
WAYS = {
    "a read fails": ("reads", "read fail {n} {n} 4", "read"),
    "reads fail from one on": ("reads", "read fail {n} 0 4", "read"),
    "a read is interrupted": ("reads", "read again {n} {n} 4", "usual"),
    "a read is short": ("reads", "read short {n} {n} 4", "usual"),
    "every read is short": ("once", "read short 1 0 4", "usual"),
    "the input fails behind some bytes": ("input", "read budget {n} 0 0", "read"),
    "the files fail behind some bytes": ("files", "read budget {n} 0 3", "read"),
    "an opening fails": ("opens", "open fail {n} {n}", "open"),
    "a write fails": ("writes", "write fail {n} {n} 4", "write"),
    "writes fail from one on": ("writes", "write fail {n} 0 4", "write"),
    "a write finds no room": ("writes", "write full {n} {n} 4", "write"),
    "a write finds no reader": ("writes", "write pipe {n} {n} 4", "write"),
    "a write takes nothing": ("writes", "write none {n} {n} 4", "write"),
    "a write is interrupted": ("writes", "write again {n} {n} 4", "usual"),
    "a write is short": ("writes", "write short {n} {n} 4", "usual"),
    "every write is short": ("once", "write short 1 0 4", "usual"),
    "the output has room for some bytes": ("output", "write budget {n} 0 1", "write"),
    "the errors have room for some bytes": ("errors", "write budget {n} 0 2", "write"),
    "the input is closed": ("alone", [(os.POSIX_SPAWN_CLOSE, 0)], "no input"),
    "the input is a folder": ("alone", [(os.POSIX_SPAWN_OPEN, 0, ".", os.O_RDONLY, 0)], "no input"),
    "the output is closed": ("alone", [(os.POSIX_SPAWN_CLOSE, 1)], "no output"),
    "the output is full": ("alone", [(os.POSIX_SPAWN_OPEN, 1, "/dev/full", os.O_WRONLY, 0)], "no output"),
    "the output is a pipe without a reader": ("alone", "pipe", "no output"),
    "it is, and SIGPIPE is ignored": ("alone", "quiet pipe", "no output"),
    "the errors are closed": ("alone", [(os.POSIX_SPAWN_CLOSE, 2)], "no errors"),
    "the errors are full": ("alone", [(os.POSIX_SPAWN_OPEN, 2, "/dev/full", os.O_WRONLY, 0)], "no errors"),
}
# So many places of a long stream are tried: all of the first ones, and others at equal distances.
PLACES = {"small": (100, 60), "middle": (300, 300)}


def places(count, size):
    """The numbers below a count that are tried."""
    first, others = PLACES[size]
    step = max(1, (count - first) // others)
    return sorted({*range(min(count, first)), *range(first, count, step), max(0, count - 1)})


def numbers(what, usual, size):
    """The numbers N of a way's plan, for a command that answers so undisturbed."""
    counts = usual.counts
    if what == "reads":
        return [n + 1 for n in places(counts.requests["read"] + 1, size)]
    if what == "writes":
        return [n + 1 for n in places(counts.requests["write"] + 1, size)]
    if what == "opens":
        return range(1, counts.requests["open"] + 2)
    if what == "input":
        return places(counts.bytes_read[0] + 1, size) if counts.reads[0] else []
    if what == "files":
        return places(counts.bytes_read[3] + 1, size) if counts.reads[3] else []
    if what == "output":
        return places(counts.bytes_written[1] + 1, size)
    if what == "errors":
        return places(counts.bytes_written[2] + 1, size)
    return [1]


def shown_name(name):
    """A file's name as a fault shows it."""
    return b"".join(
        b"\\x%02x" % byte if byte < 32 or byte in (127, 40, 92) else bytes([byte]) for byte in name
    )


def is_beginning(command, output, usual):
    """Whether an output is the beginning of the usual one."""
    if command.sort:
        return len(output) <= len(usual.output)
    return usual.output.startswith(output)


def is_whole(command, output):
    """Whether an output ends where a command may end a write: of `debug` and `gdb` behind an answer, of
    `trace` behind a line, of `console` anywhere, else only before it begins."""
    if command.kind == "debug":
        return len(output) in ends_of_answers(command)
    if command.kind == "gdb":
        return len(output) in judging.ends_of_packets(command)
    return not output or command.kind == "console" or (command.kind == "traced" and output[-1:] == b"\n")


def ends_of_answers(command):
    """After how many bytes of its output a debugger's answers end."""
    ends = [0]
    session = judging.Session(command, None)
    for text in session.usual(command.text.decode().splitlines()):
        ends.append(ends[-1] + len(text))
    return set(ends)


def judge_file(command, answer):
    """The fault of a file that can't be read."""
    wanted = b"s161: file %s (the file can't be read)\n" % shown_name(answer.counts.name)
    if answer.status != 1 or answer.output or answer.errors != wanted:
        raise Wrong(f"not the fault of {answer.counts.name!r}")
    return "file"


def told_behind_notes(answer):
    """What standard error has, without the notes of a debugger's session."""
    return b"".join(line for line in answer.errors.splitlines(True) if not line.startswith(b"s161: note "))


def judge_input(command, answer, usual):
    """The fault of standard input; what was written before it stays, of a debugger by whole answers."""
    if answer.status != 1 or told_behind_notes(answer) != UNREAD:
        raise Wrong("not the fault of standard input")
    if command.kind == "traced" and answer.output:
        raise Wrong("an output before the input was read")
    if not usual.output.startswith(answer.output) or not is_whole(command, answer.output):
        raise Wrong("the output isn't a beginning of the usual one")
    return "input"


def judge_output(command, answer, usual, room):
    """The fault of standard output, which had room for so many bytes, or failed at some write."""
    if answer.status != 1 or told_behind_notes(answer) != OUTPUT:
        raise Wrong("not the fault of standard output")
    if not is_beginning(command, answer.output, usual):
        raise Wrong("the output isn't the beginning of the usual one")
    if room is None and not is_whole(command, answer.output):
        raise Wrong("a part of what is written at once")
    if room is not None and len(answer.output) != room:
        raise Wrong("another number of bytes than there is room for")
    return "output"


def judge_errors(command, answer, usual):
    """An error output that fails: the status alone can tell of it."""
    if answer.status != 1:
        raise Wrong("another exit status than 1")
    if not is_beginning(command, answer.output, usual):
        raise Wrong("the output isn't the beginning of the usual one")
    told = answer.errors.removesuffix(OUTPUT)
    for wanted in (usual.errors, OUTPUT, UNREAD):
        if wanted.startswith(told):
            return "errors"
    raise Wrong("the errors aren't the beginning of the usual ones")


def judge(way, n, command, answer, usual):
    """The kind of an answer while some stream failed, at number N of what the way counts."""
    what, plan, wanted = WAYS[way]
    judging.judge_end(answer)
    counts = answer.counts
    disturbed = sum(counts.disturbed.values())
    same = judging.is_same(command, answer, usual)
    if wanted == "usual" or (what != "alone" and not disturbed):
        if not same:
            raise Wrong("another answer than without")
        return "as without" if disturbed else None
    if wanted == "open":
        return judge_file(command, answer)
    if wanted == "read":
        return judge_input(command, answer, usual) if counts.descriptor == 0 else judge_file(command, answer)
    if wanted == "write":
        if counts.descriptor == 2:
            return judge_errors(command, answer, usual)
        if "fail" in plan and "0 4" in plan:
            return judge_errors(command, answer, usual)
        return judge_output(command, answer, usual, n if what == "output" else None)
    return judge_alone(wanted, command, answer, usual, same)


def judge_alone(wanted, command, answer, usual, same):
    """An answer on a stream that isn't there."""
    if wanted == "no input":
        if usual.counts.reads[0]:
            return judge_input(command, answer, usual)
    elif wanted == "no output":
        if usual.output:
            if answer.status != 1 or answer.errors != OUTPUT or answer.output:
                raise Wrong("not the fault of standard output")
            return "output"
    elif usual.errors:
        # (a debugger's session ends at the first note)
        begun = command.kind == "debug" and usual.output.startswith(answer.output)
        if answer.status != 1 or answer.errors or not (begun or same_output(command, answer, usual)):
            raise Wrong("not the exit status of a failing error output, or another output")
        return "errors"
    if not same:
        raise Wrong("another answer than without")
    return "as without"


def same_output(command, answer, usual):
    return judging.sorted_as(command, answer.output) == judging.sorted_as(command, usual.output)


def run_alone(command, read, streams):
    """Runs a command over other streams."""
    if streams not in ("pipe", "quiet pipe"):
        return running.place.run_alone(command.words, read, streams)
    reader, writer = os.pipe()
    os.close(reader)
    usual_signals = [signal.SIGPIPE] if streams == "pipe" else []
    answer = running.place.run_alone(
        command.words, read, [(os.POSIX_SPAWN_DUP2, writer, 1)], usual_signals
    )
    os.close(writer)
    return answer


def fail(task):
    """Runs a command while a stream fails; returns the kind of its answer."""
    number, way, n = task
    sweep = sweeping.sweep
    command = sweep.commands[number]
    usual = sweep.usual[number]
    what, plan, _wanted = WAYS[way]
    if what == "alone":
        answer = run_alone(command, sweep.inputs[number], plan)
    else:
        answer = running.place.run(
            command.words, sweep.inputs[number], plan.format(n=n), sweep.limit(number)
        )
    try:
        return number, way, judge(way, n, command, answer, usual), None
    except Wrong as wrong:
        return number, way, "wrong", f"number {n}: {wrong}: {sweeping.told(answer)}"


def main(program, shim, top, size, *chosen):
    sweep = sweeping.start("tests/failing-streams", program, shim, top, size, chosen)
    sweep.settle(judging)
    tasks = [
        (number, way, n)
        for number, usual in enumerate(sweep.usual)
        if usual
        for way, (what, _plan, _wanted) in WAYS.items()
        for n in numbers(what, usual, size)
    ]
    tasks.sort(key=lambda task: (-sweep.usual[task[0]].seconds, task))
    for number, way, kind, fault in running.each(fail, tasks, program, shim, sweep.folder.name):
        if kind:
            sweep.note(number, way, kind, fault)
    sweep.account(
        WAYS,
        lambda usual: f"{usual.counts.requests['open']} openings, {usual.counts.requests['read']} reads, "
        f"{usual.counts.requests['write']} writes",
        each_mode=False,
    )
    sweep.end()


if __name__ == "__main__":
    main(*sys.argv[1:])
