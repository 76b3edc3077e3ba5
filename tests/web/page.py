#!/usr/bin/env python3
"""page.py PAGE [--shots FOLDER] [--only WORD]: drives the page in Chromium as a person would, and looks at what it shows.
The last line is `N passed, M failed`."""

import argparse
import contextlib
import os
import pathlib
import re
import subprocess
import tempfile
import time
import traceback

from browser import Browser

TOP = pathlib.Path(__file__).resolve().parent.parent.parent
LABS = sorted(it.stem for it in (TOP / "examples/labs").glob("*.s") if not it.stem.endswith("-fixed"))
UNFAIR = {"barrier-reuse"}  # found by few seeds alone
WRONG = {"stuck": "stuck", "hung": "no order comes to an end any more", "output": "the console has sent something else", "end": "not off"}

TWO = """0 0 80000200 <main> 34090005 ori $9, $0, 0x0005  r9=00000005
1 0 80000204 <main+4> 3c088000 lui $8, 0x8000  r8=80000000
2 0 80000208 <main+8> 8d0a1000 lw $10, 4096($8)  (00001000)=00000004 r10=00000004
3 0 8000020c <main+c> ad091000 sw $9, 4096($8)  [00001000 <other+d80>]=00000005
4 0 80000210 <main+10> ad097e14 sw $9, 32276($8)  cpue=00000003 starts 1
5 1 80000280 <other> 3c088000 lui $8, 0x8000  r8=80000000
6 1 80000284 <other+4> 8d0a1000 lw $10, 4096($8)  (00001000 <other+d80>)=00000005 r10=00000005
7 k 41
not a line
8 1 80000288 <other+8> ad001000 sw $0, 4096($8)  [00001000]=00000000
stop: end
"""
ECHO = """        lui $8, 0xbfe0
again:  lw $9, 8($8)
        andi $9, $9, 2
        beq $9, $0, again
        nop
        lw $10, 12($8)
        lw $10, 0($8)
        sw $10, 0($8)
sent:   lw $11, 4($8)
        andi $11, $11, 2
        beq $11, $0, sent
        nop
        lui $8, 0xbfff
        sw $0, 32264($8)
"""
COUNTERS = """        lui     $8, 0xbfff
        ori     $8, $8, 0x8000
        lui     $9, 0x8000
        ori     $9, $9, 0x021c
        sw      $9, 1792($8)
        ori     $9, $0, 3
        sw      $9, -492($8)
both:   lui     $11, 0x8000
add:    ll      $12, 4096($11)
        addiu   $12, $12, 1
        sc      $12, 4096($11)
        beq     $12, $0, add
        nop
        lw      $13, 4160($11)
        addiu   $13, $13, 1
        sw      $13, 4160($11)
        beq     $0, $0, both
        nop
"""


# Takes some 1,400 Steps.
SLOW = """        ori     $14, $0, 700
down:   addiu   $14, $14, -1
        bne     $14, $0, down
        nop
"""
# Prints a digit, in $12, and waits until it was sent.
PRINTED = """addiu   $12, $12, 48
        lui     $14, 0xbfe0
        sw      $12, 0($14)
sent:   lw      $12, 4($14)
        andi    $12, $12, 2
        beq     $12, $0, sent
        nop
"""
# An addition that may be lost, and a look whether it was.
ADDED = """        lw      $12, 4224($11)
        addiu   $12, $12, 1
        sw      $12, 4224($11)
"""
LOOKED = """        lw      $12, 4224($11)
        addiu   $12, $12, -2
        bne     $12, $0, rest
        nop
"""


def lengths(schedule):
    """How many events a schedule's lines have."""
    return sum(int(it[2]) if len(it) > 2 else 1 for it in map(str.split, schedule))


class Page:
    """The uses of the page, each with what its elements show then."""

    def __init__(self, browser, url):
        self.b, self.url = browser, url

    def data(self, name):
        return self.b.js(f"document.body.dataset.{name}")

    def text(self, id):
        return self.b.js(f"document.getElementById('{id}').textContent")

    def idle(self):
        self.b.wait("!document.body.dataset.busy && !hunting")

    def choose(self, name):
        self.b.choose("#example", self.b.js(f"EXAMPLES.findIndex(x => x.name === '{name}')"))
        self.idle()

    def run(self):
        self.b.click("#assemble")
        self.idle()

    def write(self, source):
        self.b.type("#source", source)

    def find(self):
        self.b.click("#hunt")
        self.b.wait("!hunting && $('hunted').textContent !== ''", 60)
        return self.text("hunted")

    def find_by_few(self):
        """Looks for a bad interleaving, up to the first seeds."""
        self.b.click("#hunt")
        self.b.wait("!hunting || /seeds tried/.test($('hunted').textContent)", 60)
        if self.b.js("hunting"):
            self.b.click("#hunt")
            self.b.wait("!hunting")
        return self.text("hunted")

    @contextlib.contextmanager
    def changed(self, *changes):
        """The page with other texts in the places of some, in turn old and new, meanwhile."""
        text = pathlib.Path(self.url[7:]).read_text()
        for old, new in zip(changes[::2], changes[1::2]):
            assert text.count(old) == 1, old
            text = text.replace(old, new)
        with tempfile.TemporaryDirectory() as folder:
            path = pathlib.Path(folder) / "index.html"
            path.write_text(text)
            self.b.open(path.as_uri())
            yield
        self.b.open(self.url)

    def unexplored(self):
        """The page, but it explores 512 states alone, so that it tries delays on nearly each lab."""
        return self.changed("MOST_STATES = 1 << 20", "MOST_STATES = 512")

    def stopped(self, *waited):
        """Looks for a bad interleaving, and stops that by a key once all of this holds: after how many ms it has, and what it says."""
        self.b.js("void (window.stopped = new Promise(go => $('hunt').addEventListener('keydown', () => { const t = performance.now(); "
                  "new MutationObserver(() => go(performance.now() - t)).observe(document.body, { attributeFilter: ['data-hunt'] }); }, { once: true })))")
        self.b.click("#hunt")
        for it in waited:
            self.b.wait(it)
        self.b.js("$('hunt').focus()")
        self.b.key("Enter")
        ms, said = self.b.js("stopped"), self.text("hunted")
        print(f"  stopped in {ms:.0f} ms: {said}")
        return ms, said

    def s161(self, source, command, *words):
        """The lines that the release's program prints of a kernel."""
        with tempfile.TemporaryDirectory() as folder:
            image = f"{folder}/it.elf"
            with open(image, "wb") as out:
                subprocess.run([TOP / "release/s161", "as"], input=source.encode(), stdout=out, check=True)
            return subprocess.run([TOP / "release/s161", command, image, *words], capture_output=True, text=True).stdout.splitlines()

    def sought(self, delays, within="", words=("--hung", "2000")):
        """What the program says of the source's runs by turns with so many delays, in the page's words."""
        source, cpus, limit = (self.b.js(f"$('{id}').value") for id in ("source", "cpus", "limit"))
        more = ["--within", within] if within else []
        lines = self.s161(source, "search", "--cpus", cpus, "--delays", str(delays), "--events", limit, "--whole", *more, *words)
        if lines[0].startswith("clean"):
            runs, cut = re.fullmatch(r"clean (\d+)(?: cut (\d+))?", lines[0]).groups()
            few = f"{int(runs):,} runs by turns with at most {'one delay' if delays == 1 else 'two delays'}" + (f" at the first {int(within):,} choices" if within else "")
            return few + (f" ({int(cut):,} of them cut after {int(limit):,} events)" if cut else "")
        choices, verdict = lines[1].split()[2:], lines[2].split()[1]
        where = ["", " with one delay, at choice ", " with delays at the choices "][len(choices)] + " and ".join(choices)
        return f"Turns{where}: {WRONG[verdict]} after " + (f"{lengths(lines[3:]):,} events." if verdict != "hung" else "")

    def are_sought(self, said, words=("--hung", "2000")):
        """The runs with few delays that the page counts are those of the program."""
        found = re.findall(r"([\d,]+ runs? by turns with at most (one|two) delays?(?: at the first ([\d,]+) choices)?(?: \(.*? events\))?)", said)
        assert found, said
        for runs, most, within in found:
            wanted = self.sought(1 if most == "one" else 2, within.replace(",", ""), words)
            assert runs == wanted, (said, wanted)

    def explored(self, states=1 << 20, words=()):
        """What the program says of all states of the source, in the page's words."""
        source, cpus = (self.b.js(f"$('{id}').value") for id in ("source", "cpus"))
        lines = self.s161(source, "explore", "--cpus", cpus, "--states", str(states), *words)
        if lines[0].startswith("clean"):
            return f"Right in every order: {int(lines[0].split()[1]):,} states."
        if lines[0].startswith("open"):
            more, events = map(int, lines[0].split()[1:])
            return f"There are more than {more:,} states, too many to look at all here; up to {events:,} events"
        number, verdict = int(lines[1].split()[2]), lines[2].split()[1]
        return f"After {lengths(lines[3:]):,} events: {WRONG[verdict]}. No shorter run is so; {number:,} states {'in all' if verdict == 'hung' else 'come before it'}."

    def are_more(self, said, words=()):
        """There are more states than the page says, and up to so many events nothing goes wrong: so says the program of a quarter as many."""
        more, events = re.match(r"There are more than ([\d,]+) states(?:, too many to look at all here; up to ([\d,]+) events|\.) ", said).groups()
        number = int(more.replace(",", ""))
        assert self.explored(number, words).startswith(f"There are more than {more} states"), said
        if events:
            few = number if number in (512, 1 << 20) else number >> 2
            assert self.explored(few, words) == f"There are more than {few:,} states, too many to look at all here; up to {events} events", said

    def press(self, keys):
        for key in keys:
            self.b.key(key)
            self.idle()

    # ---- The uses

    def opens(self):
        """A lab is there at once, and has run."""
        assert (self.data("events"), self.data("stop"), self.data("stale")) == ("44", "stuck", "1"), self.data("events")
        assert "Stale store #18" in self.text("verdict") and "stores A [00001000] = 1" in self.text("verdict"), self.text("verdict")
        assert "✗ lost" in self.text("view") and "⚠ stale" in self.text("view")
        assert "line 17" in self.text("detail") and self.b.js("document.querySelector('#gutter .at').textContent") == "01▸17"
        assert self.b.js("document.querySelectorAll('#head rect').length") == 2
        assert self.b.js("location.hash") == "#kernel=lost-update" and "--turns 1" in self.text("same"), self.text("same")

    def document(self):
        """Each control has a name, each id is there once, and the page may ask for nothing."""
        names = self.b.js("[...document.querySelectorAll('[id]')].map(e => e.id)")
        assert len(names) == len(set(names)), [it for it in names if names.count(it) > 1]
        assert self.b.js("document.documentElement.lang") == "en" and self.b.js("document.title")
        nodes = self.b.call("Accessibility.getFullAXTree")["nodes"]
        wanted = {"button", "textbox", "combobox", "checkbox", "spinbutton"}
        bare = [it for it in nodes if not it.get("ignored") and it.get("role", {}).get("value") in wanted and not it.get("name", {}).get("value")]
        assert not bare, [(it["role"]["value"], it.get("value")) for it in bare]
        assert self.b.js("document.querySelector('meta[http-equiv]').content").startswith("default-src 'none'")
        assert self.b.js("fetch('data:text/plain,x').then(() => 'asked', () => 'refused')") == "refused"
        # no text that is opened can bring a script
        self.b.js("document.body.dataset.script = ''; $('note').innerHTML = '<img src=x onerror=\"document.body.dataset.script = 1\">'")
        time.sleep(0.3)
        assert self.data("script") == ""
        self.b.events = [it for it in self.b.events if it.get("method") != "Log.entryAdded"]  # which said so
        self.choose("lost-update")

    def contrast(self):
        """Texts stand out from their grounds, in light and in dark: at least 4.5 to 1."""
        pairs = [("ink", "panel"), ("dim", "panel"), ("dim", "bg"), ("warn", "panel"), ("good", "panel"), ("accent", "panel"), ("on", "accent"), ("ink", "band"), ("ink", "spin"), ("ink", "wait"), ("trap", "panel")]
        pairs += [(f"t{i}", f"w{i}") for i in range(6)]
        for dark in (False, True):
            self.b.dark(dark)
            for text, ground in pairs:
                ratio = self.b.js(f"""(() => {{ const lum = name => {{ const [r, g, b] = colour(name).match(/[\\d.]+/g).map(x => x / 255).map(x => x <= .03928 ? x / 12.92 : ((x + .055) / 1.055) ** 2.4);
                    return .2126 * r + .7152 * g + .0722 * b; }}, [a, b] = [lum('{text}'), lum('{ground}')].sort((a, b) => b - a); return (a + .05) / (b + .05); }})()""")
                assert ratio >= (4.5 if ground in ("panel", "bg", "accent") else 4.0), (dark, text, ground, round(ratio, 2))
        self.b.dark(False)

    def keys(self):
        """The arrows go from event to event and back; folds open; a search goes to its matches."""
        self.choose("lost-update")
        self.b.js("select(-1); $('scroll').focus()")
        for _ in range(14):
            self.b.key("ArrowRight")
        assert "#13" in self.text("detail") and "Loads 0 from A" in self.text("detail"), self.text("detail")
        self.b.key("ArrowDown", shift=True)
        assert "#15" in self.text("detail") and "$12" in self.text("detail")
        self.b.key("ArrowLeft")
        assert "#14" in self.text("detail")
        self.b.key("End")
        assert "#43" in self.text("detail")
        self.b.key("w")
        assert "#18" in self.text("detail")
        self.b.key("s")
        assert "#39" in self.text("detail")
        before = self.b.js("rows.length")
        self.b.js("select(0)")
        self.b.key("Enter")
        assert self.b.js("rows.length") == before + 5
        self.b.key("e")
        assert self.b.js("level") == 1 and self.b.js("rows.length") == 44
        self.b.key("e"), self.b.key("e")
        self.b.key("/")
        self.b.call("Input.insertText", text="sc $13")
        self.b.key("Enter")
        assert "of 3" in self.text("found"), self.text("found")
        assert self.b.js("document.querySelectorAll('.match').length") == 3
        self.b.key("Escape")
        self.b.js("$('find').value = ''; search()")

    def buttons(self):
        """The same by the mouse: a row, the transport, a place on the map, the tabs."""
        self.choose("lost-update")
        self.b.click('[data-go="Home"]')
        self.b.click('[data-go="ArrowRight"]'), self.b.click('[data-go="ArrowRight"]')
        assert "#1 " in self.text("detail"), self.text("detail")
        self.b.click("#map")
        middle = self.b.js("sel")
        assert 18 <= middle <= 26, middle
        self.b.click("#verdict a.k")
        assert self.b.js("sel") == 43
        for tab, words in (("memory", "00001000"), ("tlb", "No row of a TLB"), ("watch", "Watch"), ("regs", "Processor 1")):
            self.b.click(f'[data-tab="{tab}"]')
            assert words in self.text("tabs"), (tab, self.text("tabs"))
        self.b.click('[data-level="0"]')
        assert self.b.js("rows.length") == 44
        self.b.click('[data-level="2"]')

    def machines_own(self):
        """Registers and memory behind each event are the machine's, forwards and back."""
        self.choose("peterson")
        last = self.b.js("run.last")
        for k in (last, 5, last // 2, 0, -1, last - 1, last):
            self.b.js(f"select({k})")
            self.b.wait("isView() && view.at === memoryAt")
            assert "The machine’s own" in self.text("tabs")
            assert self.b.js("run.goTo(sel), view.words.every((w, i) => w === run.word(memoryAt + 4 * i))"), k
            assert self.b.js("view.processors.every((it, p) => it.registers.every((v, r) => r === 0 || (run.get(p + '.r' + r) ?? 0) === v))"), k
        assert self.data("mismatches") == "0"

    def by_hand(self):
        """Digits make Steps of processors behind the selected event; the order goes on from there."""
        self.choose("lost-update")
        self.b.js("select(11); $('scroll').focus()")
        self.press("000011")
        assert (self.data("events"), self.data("stop")) == ("18", "hand"), (self.data("events"), self.data("stop"))
        assert self.b.js("run.events.map(e => e.p).join('')").endswith("000011") and self.text("verdict").startswith("By hand")
        assert self.b.js("$('order').value") == "schedule" and self.b.js("$('schedule').value") == self.b.js("run.schedule()")
        self.b.click("#more")
        self.idle()
        assert self.data("stop") in ("off", "stuck"), self.data("stop")
        # a Step of a processor that waits is idle
        self.choose("lost-update")
        self.b.js("select(run.last)")
        self.press("1")
        assert self.b.js("run.events[run.last].line").endswith(" -  idle") and self.data("stop") == "stuck", self.b.js("run.events[run.last].line")
        # one that was never started, too, and the run is one of its schedule
        self.b.js("select(2)")
        self.press("1")
        lines = self.b.js("run.events.map(e => e.line).join('|')")
        assert lines.endswith("3 1 00000000 -  idle"), lines
        self.run()
        assert self.b.js("run.events.map(e => e.line).join('|')") == lines

    def faults(self):
        """A fault of the assembler stands at its line and column, and goes with the next run."""
        self.choose("lost-update")
        before = self.data("events")
        source = self.b.js("$('source').value")
        self.write(source.replace("addiu ", "addjx "))
        self.run()
        assert "Line 16, column 9: UnknownWord" in self.text("said"), self.text("said")
        assert self.b.js("document.querySelector('#gutter .bad').textContent") == "16" and self.b.js("!!document.querySelector('#bands .caret')")
        at = self.b.js("$('source').selectionStart")
        assert source.replace("addiu ", "addjx ")[at:].startswith("addjx") and self.data("events") == before
        self.write("# ä, and a tab\nnop\n\tnop # é\n\tlw $1, ö($2)\n")
        self.run()
        assert "Line 4, column 9: BadToken" in self.text("said"), self.text("said")
        self.write("nop\n")
        self.run()
        assert self.text("said") == "" and self.b.js("!document.querySelector('#bands .caret')")

    def labs(self):
        """A bad interleaving of each lab, and none of its fixed one, in any order where that has few states; the schedule goes wrong again."""
        right = 0
        for name in LABS:
            self.choose(name)
            said = self.find()
            if name in UNFAIR and "none went wrong" in said:
                continue
            assert "goes wrong" in said or said == self.explored(), (name, said)
            stop, events = self.data("stop"), self.data("events")
            assert self.b.js("$('order').value") == "schedule" and self.data("mismatches") == "0"
            turns = self.b.js("parseSchedule($('schedule').value).length")
            self.run()
            assert (self.data("stop"), self.data("events")) == (stop, events), name
            warned = self.b.js("run.over.length + run.unseen.length + (deadlock(run) ? 1 : 0)")
            print(f"  {name}: {said} {events} events, {turns} turns, {warned} hints", flush=True)
            self.choose(name + "-fixed")
            self.b.click("#hunt")
            self.b.wait("!hunting || /^[3-9]\\d\\d seeds|^\\d+,\\d+ seeds/.test($('hunted').textContent)", 60)
            if self.b.js("hunting"):
                self.b.click("#hunt")
                self.b.wait("!hunting")
            said = self.text("hunted")
            print(f"  {name}-fixed: {said}", flush=True)
            if "Right in every order" in said:
                right += 1
                assert said == self.explored() + " In whatever order and for however long, nothing goes wrong, and it can always come to its end.", (name, said)
            else:
                assert "none went wrong" in said and "no proof" in said, (name, said)
                self.are_more(said)
            if name == "lost-update":
                assert self.data("states") == "527", said
        assert right >= 6, right

    def slow(self, name, text=SLOW):
        """A lab of too many states: behind its addition each processor counts down."""
        self.choose(name)
        source = self.b.js("$('source').value")
        at = source.index("\n# the second to come through")
        self.write(source[:at] + text + source[at:])
        self.b.type("#limit", "5000")

    def numbers(self):
        """Has the page note how many states it says that there are, while it looks at them."""
        self.b.js("void (window.numbers = [], new MutationObserver(() => { const it = /^more than ([\\d,]+) states$/.exec($('hunted').textContent); "
                  "if (it) numbers.push(+it[1].replaceAll(',', '')); }).observe($('hunted'), { childList: true }))")

    def delays(self):
        """Where there are too many states, runs with few delays are made before the seeds: `s161 search --delays` finds the same, or as many."""
        self.slow("lost-update")
        said, wanted = self.find(), self.sought(2)
        assert said == wanted + " No run with fewer delays is so.", (said, wanted)
        assert (self.data("found"), self.data("delays"), self.data("stop")) == ("stuck", "11", "stuck") and f"after {int(self.data('events')):,} events" in wanted
        assert self.b.js("$('order').value") == "schedule"
        self.slow("lost-update-fixed")
        said = self.find_by_few()
        assert " events nothing goes wrong. None of" in said and "none went wrong" in said, said
        self.are_more(said), self.are_sought(said)

    def delays_stopped(self):
        """The search stops at once in the middle of the delays, by a key, and says of no more runs than were made."""
        with self.unexplored():
            self.slow("lost-update-fixed")
            ms, said = self.stopped("/^\\d,?\\d\\d\\d runs with few delays/.test($('hunted').textContent)")
            assert ms < 500 and "(stopped)" in said and "0 seeds tried" in said, (ms, said)
            self.are_more(said), self.are_sought(said)

    def exploring_stopped(self):
        """The search stops at once in the middle of all states, by a key, and says nothing that wasn't looked at."""
        found, rest = "/^more than \\d\\d,?\\d\\d\\d states/.test($('hunted').textContent)", "0 seeds tried, none went wrong (stopped). That is no proof: another order may."
        self.slow("lost-update-fixed")
        ms, said = self.stopped(found)
        assert ms < 300 and re.fullmatch(r"There are more than [\d,]+ states\. " + re.escape(rest), said), (ms, said)
        self.are_more(said)
        # while it looks up to how many events nothing goes wrong: as if that took more states than the first look
        with self.changed("EXPLORE_MS = 6000", "EXPLORE_MS = 100", "this.more >> 2", "MOST_STATES"):
            self.slow("lost-update-fixed")
            ms, said = self.stopped(found, "$('hunt').textContent === 'Stop the search' && performance.now() > (window.later ??= performance.now() + 1000)")
            assert ms < 300 and re.fullmatch(r"There are more than [\d,]+ states\. " + re.escape(rest), said), (ms, said)
            self.are_more(said)
        # once nothing was found stuck, while it looks at what is sent
        self.choose("shootdown")
        self.b.js("document.querySelectorAll('#left details')[1].open = true")
        self.b.click("#ifoutput")
        self.numbers()
        ms, said = self.stopped("numbers.some((n, i) => n < numbers[i - 1])")
        states = re.search(r"[\d,]+", self.explored())[0]
        assert ms < 300 and said == f"{states} states: nothing is stuck. {rest}", (ms, said)
        self.b.click("#ifoutput")
        self.b.js("document.querySelectorAll('#left details')[1].open = false")

    def states_told(self):
        """Meanwhile the page says that there are more states than so many: never fewer than before, and never as many as there are."""
        # a Step reads of time what wasn't known, so that the states are looked for anew
        self.slow("lost-update-fixed", SLOW.replace("700", "30") + "        mfc0    $15, $1\n")
        self.numbers()
        said, numbers = self.find(), self.b.js("numbers")
        assert said.startswith(self.explored()), said
        assert len(numbers) > 3 and numbers == sorted(numbers), numbers
        # all states were found, but not all were tried
        with self.changed("FIRST_STATES = 16", "FIRST_STATES = 1", "ms < 20 ? 2 * n", "ms < 20 ? n"):
            self.choose("lost-update-fixed")
            self.numbers()
            said, numbers = self.find(), self.b.js("numbers")
            assert said.startswith(self.explored()) and len(numbers) > 500 and numbers[-1] == 526, (said, numbers[-1])

    def numbers(self):
        """Has the page note how many states it says that there are, while it looks at them."""
        self.b.js("void (window.numbers = [], new MutationObserver(() => { const it = /^more than ([\\d,]+) states$/.exec($('hunted').textContent); "
                  "if (it) numbers.push(+it[1].replaceAll(',', '')); }).observe($('hunted'), { childList: true }))")

    def delays(self):
        """Where there are too many states, runs with few delays are made before the seeds: `s161 search --delays` finds the same, or as many."""
        self.slow("lost-update")
        said, wanted = self.find(), self.sought(2)
        assert said == wanted + " No run with fewer delays is so.", (said, wanted)
        assert (self.data("found"), self.data("delays"), self.data("stop")) == ("stuck", "11", "stuck") and f"after {int(self.data('events')):,} events" in wanted
        assert self.b.js("$('order').value") == "schedule"
        self.slow("lost-update-fixed")
        said = self.find_by_few()
        assert " events nothing goes wrong. None of" in said and "none went wrong" in said, said
        self.are_more(said), self.are_sought(said)

    def delays_stopped(self):
        """The search stops at once in the middle of the delays, by a key, and says of no more runs than were made."""
        with self.unexplored():
            self.slow("lost-update-fixed")
            ms, said = self.stopped("/^\\d,?\\d\\d\\d runs with few delays/.test($('hunted').textContent)")
            assert ms < 500 and "(stopped)" in said and "0 seeds tried" in said, (ms, said)
            self.are_more(said), self.are_sought(said)

    def exploring_stopped(self):
        """The search stops at once in the middle of all states, by a key, and says nothing that wasn't looked at."""
        found, rest = "/^more than \\d\\d,?\\d\\d\\d states/.test($('hunted').textContent)", "0 seeds tried, none went wrong (stopped). That is no proof: another order may."
        self.slow("lost-update-fixed")
        ms, said = self.stopped(found)
        assert ms < 300 and re.fullmatch(r"There are more than [\d,]+ states\. " + re.escape(rest), said), (ms, said)
        self.are_more(said)
        # while it looks up to how many events nothing goes wrong: as if that took more states than the first look
        with self.changed("EXPLORE_MS = 6000", "EXPLORE_MS = 100", "this.more >> 2", "MOST_STATES"):
            self.slow("lost-update-fixed")
            ms, said = self.stopped(found, "$('hunt').textContent === 'Stop the search' && performance.now() > (window.later ??= performance.now() + 1000)")
            assert ms < 300 and re.fullmatch(r"There are more than [\d,]+ states\. " + re.escape(rest), said), (ms, said)
            self.are_more(said)
        # once nothing was found stuck, while it looks at what is sent
        self.choose("shootdown")
        self.b.js("document.querySelectorAll('#left details')[1].open = true")
        self.b.click("#ifoutput")
        self.numbers()
        ms, said = self.stopped("numbers.some((n, i) => n < numbers[i - 1])")
        states = re.search(r"[\d,]+", self.explored())[0]
        assert ms < 300 and said == f"{states} states: nothing is stuck. {rest}", (ms, said)
        self.b.click("#ifoutput")
        self.b.js("document.querySelectorAll('#left details')[1].open = false")

    def looked_for_anew(self):
        """Where a Step reads of time what wasn't known, the states are looked for anew; the page goes on saying how many there are at least."""
        self.slow("lost-update-fixed", SLOW.replace("700", "30") + "        mfc0    $15, $1\n")
        self.numbers()
        said, numbers = self.find(), self.b.js("numbers")
        assert len(numbers) > 3 and numbers == sorted(numbers), numbers
        assert said.startswith(self.explored()), said

    def labs_by_delays(self):
        """Each lab that isn't explored is found by the delays by which the program finds it; of a fixed one as many runs are right."""
        found = right = 0
        with self.unexplored():
            for name in LABS + [it + "-fixed" for it in LABS]:
                self.choose(name)
                said = self.find_by_few()
                if "No shorter run" in said or "Right in every order" in said:
                    continue
                wanted = self.sought(2)
                if name.endswith("-fixed"):
                    right += f" None of {wanted} goes wrong. " in said
                    self.are_sought(said)
                else:
                    found += 1
                    assert said.startswith(wanted) and ("No run with fewer delays is so." in said) == ("delay" in wanted), (name, said, wanted)
            # with two early delays this one goes wrong, and with a late one: that is shown
            self.choose("sequence-lock")
            source = self.b.js("$('source').value").replace("over:   ", "over:\n" + SLOW + ADDED + "count:  ").replace("$0, over", "$0, count")
            self.write(source.replace("        sw      $0, -504($8)", LOOKED + "        sw      $0, -504($8)"))
            self.b.type("#limit", "5000")
            said, wanted = self.find(), self.sought(2)
            assert said == wanted + " No run with fewer delays is so." and "one delay" in wanted and "and" in self.sought(2, "16"), (said, wanted)
        assert found >= 9 and right >= 10, (found, right)

    def delays_by_rules(self):
        """Runs with few delays are judged by what the user says, and nothing is said of what isn't judged."""
        with self.unexplored(), tempfile.TemporaryDirectory() as folder:
            sent = pathlib.Path(folder) / "sent"
            asked = ["--output", str(sent)]
            self.b.js("document.querySelectorAll('#left details')[1].open = true")
            # not off: behind no delay, one, and two
            sent.write_text("")
            for limit in (40, 45, 50):
                self.choose("lost-update-fixed")
                self.b.type("#limit", str(limit))
                said, wanted = self.find(), self.sought(2, words=asked)
                assert f"not off after {limit} events." in wanted and said.startswith(wanted), (said, wanted)
                assert (self.data("stop"), self.data("events")) == ("end", str(limit))
            # the word isn't known there
            self.choose("lost-update-fixed")
            self.b.type("#limit", "2000"), self.b.type("#ifword", "80001000"), self.b.type("#ifvalue", "2")
            said = self.find_by_few()
            assert " events nothing but the word can go wrong. The word aside, none of " in said, said
            self.are_sought(said)
            self.b.type("#ifword", ""), self.b.type("#ifvalue", "")
            # another output: the count is printed in the place of a look at it
            self.b.click("#ifoutput")
            self.b.type("#output", "2")
            sent.write_text("2")
            for name in ("lost-update", "lost-update-fixed"):
                self.choose(name)
                source, n = re.subn(r"addiu +\$12, \$12, -2\n.*\n.*\n", PRINTED, self.b.js("$('source').value"))
                assert n == 1
                self.write(source)
                said = self.find_by_few()
                if name == "lost-update":
                    assert said == self.sought(2, words=asked) + " No run with fewer delays is so." and "something else" in said, said
                    self.b.js("select(run.last)")
                    assert self.data("stop") == "off" and self.text("console") == "1", self.text("console")
                else:
                    assert " events nothing is stuck. None of " in said, said
                    self.are_sought(said, asked)
            # a run that has sent what it has to is stuck all the same
            self.write(source.replace("sw      $0, -504($8)", "nop"))
            assert self.find() == self.sought(2) and self.data("stop") == "stuck", self.text("hunted")
            self.write(source)
            self.b.click("#ifend")
            assert "by turns" not in self.find_by_few(), self.text("hunted")
            self.b.click("#ifoutput")
            # a run that need not end is cut
            self.choose("two-locks")
            self.b.type("#limit", "300")
            said = self.find_by_few()
            assert " of them cut after 300 events)" in said, said
            self.are_sought(said, ["--hung", "0"])

    def as_found(self):
        """The run of the seed itself is there, too."""
        self.choose("two-locks")
        said = self.find()
        assert "After 19 events: no order comes to an end any more" in said and self.data("found") == "hung", said
        self.b.js("document.querySelectorAll('#left details')[1].open = true")
        self.b.click("#ifstuck")  # without that rule nothing is explored
        said = self.find()
        assert "not off after 2,000 events" in said, said
        self.b.click("#ifstuck")
        self.b.click("#hunted [data-found]")
        self.idle()
        assert self.b.js("$('order').value") == "random" and self.b.js("$('number').value") == self.data("found") and self.data("stop") == "end"

    def rules(self):
        """A run is judged by what the user says: here by a word, and by the console."""
        self.choose("lost-update-fixed")
        self.b.js("document.querySelectorAll('#left details')[1].open = true")
        self.b.type("#ifword", "80001000"), self.b.type("#ifvalue", "3")
        said = self.find()
        assert "the word has another value" in said and self.data("stop") == "off", said
        self.b.type("#ifvalue", "2")
        self.b.choose("#order", "priorities")
        self.b.click("#hunt")
        self.b.wait("/^[3-9]\\d\\d |^\\d+,/.test($('hunted').textContent)", 60)
        self.b.click("#hunt")
        self.b.wait("!hunting")
        assert "none went wrong" in self.text("hunted"), self.text("hunted")
        self.b.type("#ifword", "nowhere")
        self.b.click("#hunt")
        self.b.wait("!hunting")
        assert "needs an address" in self.text("said"), self.text("said")
        self.b.type("#ifword", ""), self.b.type("#ifvalue", "")
        # a kernel that hangs is right if it need not end, but not said to end; its output is looked at
        self.choose("two-locks")
        self.b.click("#ifend")
        source, said = self.b.js("$('source').value"), self.find()
        _, states, kind, *_ = self.s161(source, "explore", "--cpus", "2")
        assert kind == "# hung" and said == f"Right in every order: {int(states[9:]):,} states. In whatever order and for however long, nothing goes wrong.", said
        self.b.click("#ifoutput")
        self.b.type("#output", "ho")
        with tempfile.NamedTemporaryFile("w") as sent:
            sent.write("ho"), sent.flush()
            _, states, kind, *events = self.s161(source, "explore", "--cpus", "2", "--output", sent.name)
        said = self.find()
        assert kind == "# output" and said.startswith(f"After {lengths(events)} events: {WRONG['output']}. ") and f" {int(states[9:]):,} states come before it" in said, said
        self.b.click("#ifend"), self.b.click("#ifoutput")
        self.choose("hello")
        self.b.choose("#cpus", 1)
        self.b.click("#ifoutput")
        self.b.type("#output", "ho")
        assert "something else" in self.find()
        self.b.click("#ifoutput")
        self.b.js("document.querySelectorAll('#left details')[1].open = false")

    def spins(self):
        """Laps that repeat are one row; a store between, even of the same word, ends a fold."""
        self.choose("two-locks")
        assert self.b.js("run.folds.length") == 2 and self.b.js("rows.length") < 40
        assert "× 328" in self.text("view") and "Deadlock" in self.text("verdict")
        assert self.b.js("rows.filter(r => r.kind === 'fold').reduce((n, r) => n + r.fold.steps, 0)") > 1900
        lap = ["0 80000204 8d280000 lw $8, 0($9)", "0 80000208 1100fffe beq $8, $0, 0x80000204", "0 8000020c 00000000 nop"]
        lines = ["0 80000200 3c098000 lui $9, 0x8000  r9=80000000 starts 1"] + 3 * lap
        lines += ["1 80000300 ad200000 sw $0, 0($9)  [00000000]=00000000"] + 3 * lap
        self.open_text("".join(f"{k} {line}\n" for k, line in enumerate(lines)), "spins.trace")
        assert self.b.js("run.folds.map(f => f.first + ' ' + f.times).join()") == "4 2,14 2", self.b.js("JSON.stringify(run.folds)")

    def open_text(self, text, name):
        with tempfile.TemporaryDirectory() as folder:
            path = pathlib.Path(folder) / name
            path.write_text(text)
            self.b.js("document.body.dataset.busy = 'yes'")
            self.b.put_file("#file", path)
            self.idle()

    def orders(self):
        """Each order's run is the one that the words of s161 make, by the lines of the release's program."""
        self.choose("two-locks")
        for order, number, words in (("turns", 3, ["--turns", "3"]), ("random", 11, ["--random", "11"]), ("priorities", 5, ["--random", "5", "--changes", "3", "--within", "100"])):
            self.b.choose("#order", order)
            self.b.type("#number", str(number)), self.b.type("#limit", "300")
            self.run()
            assert " ".join(words) in self.b.js("commandOf(settings())")
            lines = self.s161(self.b.js("$('source').value"), "trace", "--cpus", "2", "--events", "300", *words)
            assert self.b.js("run.events.map(e => e.line)") == lines[:-1] and lines[-1].startswith("stop: "), order
        self.choose("two-locks")
        self.b.type("#limit", "300")
        self.run()
        self.b.click("#more")
        self.idle()
        assert self.data("events") == "2300" and self.b.js("$('limit').value") == "2300" and self.b.js("sel") == 300

    def link_and_file(self):
        """The address has the run, and so has a saved file."""
        self.choose("missed-wakeup")
        self.find()
        arrow = self.b.js("run.arrows.filter(a => a.what === 'IPI' && a.to > a.from).map(a => run.events[a.to].line)")
        assert len(arrow) == 1 and "trap 0" in arrow[0], arrow
        lines = self.b.js("run.events.map(e => e.line).join('|')")
        self.b.js("select(12)")
        self.b.click("#link")
        self.b.wait("/address/.test($('said').textContent)")
        url = self.b.js("location.href")
        assert len(url) < 4000, len(url)
        self.b.open(url)
        self.idle()
        assert self.b.js("run.events.map(e => e.line).join('|')") == lines and self.b.js("sel") == 12
        path = self.b.saved("save", "run.json")
        self.choose("hello")
        self.b.js("document.body.dataset.busy = 'yes'")
        self.b.put_file("#file", path)
        self.idle()
        assert self.b.js("run.events.map(e => e.line).join('|')") == lines
        self.b.open(self.url + "#kernel=sum")
        assert self.b.js("EXAMPLES[$('example').value].name") == "sum"
        self.b.js("location.hash = '#kernel=torn-pair'")
        self.b.wait("EXAMPLES[$('example').value].name === 'torn-pair'"), self.idle()
        self.b.open(self.url + "#run=AAAA")
        assert "no run" in self.text("said"), self.text("said")
        self.b.open(self.url)
        self.b.wait("location.hash === '#kernel=lost-update'")

    def exports(self):
        """Schedule, trace, kernel and drawings are saved as files."""
        self.choose("lost-update")
        assert self.b.saved("schedule", "run.schedule").read_text().splitlines()[1:] == self.b.js("run.schedule()").splitlines()
        assert len(self.b.saved("trace", "run.trace").read_text().splitlines()) == 45
        assert self.b.saved("elf", "kernel.elf").read_bytes()[:4] == b"\x7fELF"
        assert self.b.saved("png", "interleaving.png").read_bytes()[:4] == b"\x89PNG"
        svg = self.b.saved("svg", "interleaving.svg").read_text()
        assert svg.startswith("<svg") and "var(--" not in svg
        assert self.b.js("new DOMParser().parseFromString(pictureText(), 'image/svg+xml').querySelector('parsererror') === null")

    def watch(self):
        self.choose("lost-update")
        self.b.click('[data-tab="watch"]')
        self.b.type("#watch", "over")
        self.b.key("Enter")
        self.b.wait("/over.*c16c1040/.test($('tabs').textContent)")
        self.b.click("[data-drop]")
        self.b.click('[data-tab="memory"]')
        self.b.type("#address", "over")
        self.b.key("Enter")
        self.b.wait("/c16c1040/.test($('tabs').textContent)")
        self.b.click('[data-tab="regs"]')

    def typed(self):
        """Keys are typed in a run, and by hand, and its schedule has them."""
        self.write(ECHO)
        self.b.choose("#cpus", 1), self.b.choose("#order", "turns")
        self.b.type("#number", "1"), self.b.type("#keys", "A"), self.b.type("#limit", "5000")
        self.run()
        assert self.data("stop") == "off" and "k 41" in self.b.js("run.schedule()"), self.data("stop")
        self.b.js("select(run.last)")
        assert self.text("console") == "A", self.text("console")
        assert "×" in self.text("view")
        lines = self.b.js("run.events.map(e => e.line).join('|')")
        schedule = self.b.js("run.schedule()")
        self.b.choose("#order", "schedule")
        self.b.js(f"$('schedule').value = run.schedule()")
        self.run()
        assert self.data("stop") == "off" and self.b.js("run.events.map(e => e.line).join('|')") == lines and self.b.js("run.schedule()") == schedule
        self.b.js("select(20)")
        self.b.type("#key", "Z")
        self.b.key("Enter")
        self.idle()
        assert self.b.js("run.events[run.last].line") == "21 k 5a", self.b.js("run.events[run.last].line")
        self.b.click("#sent")
        self.idle()
        assert "sends nothing" in self.text("said"), self.text("said")
        self.b.type("#keys", "")

    def kernel_in_c(self):
        """An ELF file runs without a source, with user mode, a TLB and a timer."""
        self.b.js("document.body.dataset.busy = 'yes'")
        self.b.put_file("#file", TOP / "examples/c/kernel.elf")
        self.idle()
        self.b.choose("#cpus", 2)
        self.b.type("#limit", "60000")
        self.run()
        assert self.data("stop") == "off" and int(self.data("events")) > 50000, (self.data("stop"), self.data("events"))
        self.b.js("select(run.last)")
        assert "kernel: off" in self.text("console") and "count" in self.b.js("run.symbols.map(s => s.name).join()")
        self.b.click('[data-tab="tlb"]')
        self.b.js("select(30000)")
        self.b.wait("isView()")
        assert "00400" in self.text("tabs"), self.text("tabs")
        self.b.click('[data-tab="regs"]')
        assert self.data("mismatches") == "0"

    def small_trace(self):
        self.open_text(TWO, "two.trace")
        assert self.data("events") == "9" and "1 lines left out" in self.text("note") and self.data("mismatches") == "0"
        self.b.js("select(6)")
        assert "Loads 5 from A [00001000], stored at #3 (processor 0)" in self.text("detail"), self.text("detail")
        assert "key 41" in self.text("view") and self.b.js("run.arrows.length") == 1 and "As the lines tell it" in self.text("tabs")

    def many_lines(self):
        """A run of 100,000 events, and its trace opened from a file: the page goes on drawing and takes keys meanwhile."""
        self.choose("lost-update")
        self.write(COUNTERS)
        self.b.type("#limit", "100000"), self.b.choose("#order", "random")
        self.watched(lambda: self.run(), "run and shown")
        assert self.data("events") == "100000" and self.data("mismatches") == "0", self.data("events")
        path = self.b.saved("trace", "run.trace")
        self.b.js("document.body.dataset.busy = 'yes'")
        self.watched(lambda: (self.b.put_file("#file", path), self.idle()), "opened from a file")
        assert self.data("events") == "100000" and self.b.js("run.file === null")
        ms = self.b.js("(() => { const t = performance.now(); select(run.last); select(0); select(50000); draw(); return performance.now() - t; })()")
        self.b.js("$('scroll').focus()")
        start = time.time()
        for _ in range(20):
            self.b.key("ArrowRight")
        each = (time.time() - start) * 50
        print(f"  to the end, back and to the middle in {ms:.0f} ms; {each:.0f} ms an arrow; {self.b.js('rows.length')} rows")
        assert ms < 1500 and each < 150 and self.b.js("sel") == 50020

    def watched(self, work, what):
        """Does it while a clock of the page notes the longest time without a turn."""
        self.b.js("window.longest = 0; window.clock = (() => { let last = performance.now(); return setInterval(() => { const now = performance.now(); longest = Math.max(longest, now - last); last = now; }, 4); })()")
        start = time.time()
        work()
        longest = self.b.js("clearInterval(clock), longest")
        print(f"  100,000 lines {what} in {time.time() - start:.1f} s, the page never busy for longer than {longest:.0f} ms", flush=True)
        assert longest < 700, longest

    def busy(self):
        """A search leaves the page free: an arrow is answered meanwhile; a new run ends no search wrongly."""
        self.choose("peterson-fixed")
        self.b.js("document.querySelectorAll('#left details')[1].open = true")
        self.b.click("#ifstuck")
        self.b.click("#hunt")
        self.b.wait("/seeds tried/.test($('hunted').textContent)")
        self.b.js("$('scroll').focus(); select(3)")
        start = time.time()
        self.b.key("ArrowRight")
        self.b.wait("isView() && sel === 4")
        assert time.time() - start < 1 and self.b.js("hunting")
        self.b.key("b")
        self.b.wait("!hunting")
        assert "(stopped)" in self.text("hunted")
        self.b.click("#ifstuck")

    def trap(self):
        """After a trap of the engine the machine is dropped, the page says so, and goes on with a new one."""
        view = "    view({ k, from, count, version }) {\n"
        with self.changed(view, view + "        if (k === 7) engine.call('host_free', 0xfffffff0n);\n"):
            self.b.js("select(6)")
            self.b.wait("document.body.dataset.trap")
            self.b.wait("/dropped/.test($('said').textContent)")
            assert self.b.js("$('more').disabled") and self.data("events") == "44"
            self.run()
            assert self.data("events") == "44" and self.text("said") == ""
            self.b.js("select(8)")
            self.b.wait("isView()")

    def refused_memory(self):
        """Where the browser gives no memory, the page says so, and the run stays."""
        run = "    run({ file, size, blocks, plan, keys, limit }) {\n"
        with self.changed(run, run + "        engine.call('host_refuse', limit === 77 ? 4n : 0n);\n"):
            self.b.type("#limit", "77")
            self.run()
            assert "out of memory" in self.text("said"), self.text("said")
            self.b.type("#limit", "2000")
            self.run()
            assert self.text("said") == "" and self.data("events") == "44"

    def without_machine(self):
        """The page as it is written, without a module, opens a trace."""
        with tempfile.TemporaryDirectory() as folder:
            path = pathlib.Path(folder) / "index.html"
            path.write_text(re.sub(r'(id="module">)[^<]*', r"\1", pathlib.Path(self.url[7:]).read_text()))
            self.b.open(path.as_uri())
            assert "only open traces" in self.text("said") and self.b.js("$('assemble').disabled")
            self.small_trace()
        self.b.open(self.url)

    def narrow(self):
        """Nothing overflows on a laptop's screen, also with the browser's own bars; on a small one the page scrolls."""
        self.choose("lost-update")
        for height in (768, 640):
            self.b.size(1366, height)
            assert self.b.js("document.documentElement.scrollWidth") <= 1366 and self.b.js("document.documentElement.scrollHeight") <= height
            assert self.b.js("['assemble', 'hunt', 'scroll', 'console'].every(id => { const r = $(id).getBoundingClientRect(); return r.bottom <= innerHeight && r.height > 15; })")
        self.b.size(600, 900)
        assert self.b.js("document.documentElement.scrollWidth") <= 600 and self.b.js("$('source').getBoundingClientRect().width") > 300
        self.b.size(1366, 768)

    def projector(self):
        self.choose("lost-update")
        self.b.js("$('scroll').focus()")
        self.b.key("f")
        assert self.b.js("zoom") > 1 and self.b.js("$('source').getBoundingClientRect().width") == 0
        self.b.key("f")
        assert self.b.js("zoom") == 1

    def by_keyboard(self):
        """Tab reaches every control in turn, and none holds it; help opens and closes by keys."""
        self.choose("lost-update")
        self.b.js("document.activeElement.blur()")
        seen = []
        for _ in range(70):
            self.b.key("Tab")
            seen.append(self.b.js("document.activeElement.id || document.activeElement.dataset.go || document.activeElement.dataset.tab || document.activeElement.tagName"))
        for id in ("open", "example", "source", "cpus", "order", "number", "assemble", "hunt", "play", "find", "scroll", "regs", "memory", "console"):
            assert id in seen, (id, seen)
        self.b.js("$('scroll').focus()")
        self.b.key("?")
        assert self.b.js("$('keysheet').open")
        self.b.key("Enter")
        assert not self.b.js("$('keysheet').open")

    def quiet(self):
        """No request left the page, and nothing was thrown, all along."""
        asked = [e["params"]["request"]["url"] for e in self.b.events if e.get("method") == "Network.requestWillBeSent"]
        assert all(u.split(":")[0] in ("file", "data", "blob", "about") for u in asked), asked
        thrown = [e for e in self.b.events if e.get("method") in ("Runtime.exceptionThrown", "Log.entryAdded")]
        assert not thrown, thrown[:1]


USES = ["opens", "document", "contrast", "keys", "buttons", "machines_own", "by_hand", "faults", "spins", "orders", "labs", "exploring_stopped", "states_told", "delays", "delays_stopped", "labs_by_delays", "delays_by_rules", "as_found", "rules", "busy", "watch", "typed", "kernel_in_c", "link_and_file",
        "exports", "small_trace", "many_lines", "trap", "refused_memory", "without_machine", "narrow", "projector", "by_keyboard", "quiet"]


def shots(b, p, folder):
    """The pictures of the page that a reader wants to see."""
    folder = pathlib.Path(folder)
    b.dark(False)
    p.choose("lost-update")
    b.wait("isView()")
    b.shot(folder / "lost-update.png")
    p.choose("two-locks")
    p.find()
    b.wait("isView()")
    b.shot(folder / "two-locks.png")
    p.choose("missed-wakeup")
    p.find()
    b.click('[data-tab="memory"]')
    b.wait("isView()")
    b.dark(True)
    b.shot(folder / "missed-wakeup-dark.png")
    b.js("setWide()")
    b.dark(False)
    b.shot(folder / "projector.png")
    b.js("setWide(); setTab('regs')")
    p.choose("lost-update")
    p.faults()
    p.choose("lost-update")
    p.write(b.js("$('source').value").replace("addiu ", "addjx "))
    p.run()
    b.size(1366, 640)
    b.shot(folder / "fault.png")
    b.size(1366, 768)
    p.choose("three")
    p.find()
    b.shot(folder / "three.png")
    p.kernel_in_c()
    b.js("select(26757)")
    b.wait("isView()")
    b.shot(folder / "kernel-in-c.png")
    b.click("#about")
    b.shot(folder / "about.png")
    b.key("Escape")
    b.size(600, 1600)
    b.shot(folder / "narrow.png")
    b.size(1366, 768)


def main():
    parser = argparse.ArgumentParser()
    parser.add_argument("page")
    parser.add_argument("--shots")
    parser.add_argument("--only", default="")
    words = parser.parse_args()
    b = Browser(os.environ.get("CHROMIUM", "chromium"))
    p = Page(b, pathlib.Path(words.page).resolve().as_uri())
    passed = failed = 0
    try:
        b.dark(False)
        b.open(p.url)
        for use in USES:
            if words.only not in use:
                continue
            try:
                getattr(p, use)()
                passed += 1
                print("passed", use, flush=True)
            except Exception:
                failed += 1
                print("FAILED:", use, flush=True)
                traceback.print_exc()
                b.open(p.url)
        if words.shots:
            shots(b, p, words.shots)
        print("tests/web/page.py:", b.call("Browser.getVersion")["product"])
    finally:
        b.close()
    print(f"{passed} passed, {failed} failed")
    return 1 if failed else 0


if __name__ == "__main__":
    raise SystemExit(main())
