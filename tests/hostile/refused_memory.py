"""refused_memory.py PROGRAM SHIM TOP SIZE [COMMAND..]: see tests/refused-memory."""
import sys

import commands
import judging
import running
import sweeping

# Which requests are refused in a run, and how the shim is told.
MODES = {
    "once": ("memory", "memory refuse {n} {n}"),
    "from there on": ("memory", "memory refuse {n} 0"),
    "a thread": ("thread", "thread refuse {n} {n}"),
}


def refuse(task):
    """Runs a command with request N refused, or all from it on; returns the kind of its answer."""
    number, mode, n = task
    sweep = sweeping.sweep
    command = sweep.commands[number]
    usual = sweep.usual[number]
    kind, plan = MODES[mode]
    answer = running.place.run(
        command.words, sweep.inputs[number], plan.format(n=n), sweep.limit(number)
    )
    hit = answer.counts.disturbed[kind]
    try:
        if hit:
            return number, mode, n, judging.judge_refusal(command, answer, usual), None, True
        if not judging.is_same(command, answer, usual):
            raise judging.Wrong("nothing was refused, and the answer is another one")
        return number, mode, n, None, None, False
    except judging.Wrong as wrong:
        return number, mode, n, "wrong", f"request {n}: {wrong}: {sweeping.told(answer)}", bool(hit)


def compare_steady(sweep):
    """That Steps and keys make no request for memory: the requests of runs with few and with many."""
    for few, many in commands.steady():
        answers = [running.place.undisturbed(command.words, command.text) for command in (few, many)]
        counts = [answer.counts.requests["memory"] for answer in answers]
        right = counts[1] <= counts[0] and all(answer.status == many.ends for answer in answers)
        print(f"{many.name}: {counts[1]} requests for memory, {few.name}: {counts[0]}")
        if not right:
            print(f"{sweep.script}: {many.name}: more requests than {few.name}, or another status")
        sweep.passed += right
        sweep.failed += not right


def main(program, shim, top, size, *chosen):
    sweep = sweeping.start("tests/refused-memory", program, shim, top, size, chosen)
    sweep.settle(judging)
    tasks = []
    for number, usual in enumerate(sweep.usual):
        for mode, (kind, _plan) in MODES.items():
            if usual is None or (mode == "a thread" and not usual.counts.requests[kind]):
                continue
            tasks += [(number, mode, n) for n in range(1, usual.counts.requests[kind] + 2)]
    last = {}
    todo = sorted(tasks, key=lambda task: (-sweep.usual[task[0]].seconds, task))
    while todo:
        # The number of requests of a run in threads is the host's: it goes on until none was refused.
        again = []
        for number, mode, n, kind, fault, hit in running.each(
            refuse, todo, program, shim, sweep.folder.name
        ):
            if kind:
                sweep.note(number, mode, kind, fault)
            if n > last.get((number, mode), (0, True))[0]:
                last[(number, mode)] = (n, hit)
        for (number, mode), (n, hit) in last.items():
            if hit:
                again.append((number, mode, n + 1))
        todo = again
    sweep.account(
        MODES,
        lambda usual: f"{usual.counts.requests['memory']} requests for memory"
        + (f", {usual.counts.requests['thread']} for threads" if usual.counts.requests["thread"] else ""),
    )
    if not chosen:
        compare_steady(sweep)
    refused = sum(usual.counts.requests["memory"] for usual in sweep.usual if usual)
    print(f"{refused} requests for memory of {len(sweep.commands)} commands")
    sweep.end()


if __name__ == "__main__":
    main(*sys.argv[1:])
