// The page's worker: it has the machine, so that nothing there freezes. It answers one message after the other; a search gives way to
// others between its slices. `made` is the run on the page: its file, its events, and machines of some of its places.
'use strict';
const MOST = 100000; // events of a run
const SNAPSHOTS_BYTES = 100 << 20; // for machines of places that were passed
let moduleBytes = null, engine = null, made = null, hunting = 0, versions = 0;

class Refused extends Error {}

// A machine that was booted from a file.
function booted(file, size) {
    const session = new Session(engine), answer = session.boot(file, size);
    if (answer === OK) return session;
    session.close();
    throw new Refused(answer === NO_MEMORY ? 'out of memory' : `the file can't be loaded: ${BOOT_FAULTS[answer] || answer}`);
}

function copied(session) {
    const copy = new Session(engine);
    if (session.copyTo(copy) === OK) return copy;
    copy.close();
    return null;
}

// ---- The run on the page

class Made {
    constructor(file, size) {
        this.file = file; this.size = { ...size, log: MOST }; this.kinds = new Uint8Array(MOST); this.values = new Uint8Array(MOST); this.count = 0;
        this.session = booted(file, this.size); this.at = 0; // the machine, and behind how many events it stands
        this.snapshots = [{ at: 0, session: copied(this.session) }]; this.interval = 1024; this.version = 0;
        if (!this.snapshots[0].session) { this.drop(); throw new OutOfMemory(); }
    }
    drop() { for (const it of [this, ...this.snapshots]) if (it.session) it.session.close(); }
    get room() { return Math.max(3, Math.min(40, Math.floor(SNAPSHOTS_BYTES / (4 * this.size.ram + 4 * MOST)))); }
    // Keeps a machine of this place; where there are too many, every second one goes.
    keep() {
        if (this.snapshots.length >= this.room) {
            this.interval *= 2;
            this.snapshots = this.snapshots.filter(it => it.at % this.interval === 0 || it.session.close());
        }
        const session = this.at % this.interval ? null : copied(this.session);
        if (session) { this.snapshots.push({ at: this.at, session }); this.snapshots.sort((a, b) => a.at - b.at); }
    }
    // Brings the machine behind event k: from where it stands, or from the last place before that was kept.
    bringTo(k) {
        const from = this.snapshots.findLast(it => it.at <= k);
        if (this.at > k || this.at < from.at) {
            if (from.session.copyTo(this.session) !== OK) throw new OutOfMemory();
            this.at = from.at;
        }
        while (this.at < k) {
            const next = Math.min(k, this.at - this.at % this.interval + this.interval);
            while (this.at < next) this.again(next);
            if (this.at % this.interval === 0 && !this.snapshots.some(it => it.at === this.at)) this.keep();
        }
    }
    // Makes the next events of the run once more, those of one processor in one call.
    again(next) {
        const kind = this.kinds[this.at], value = this.values[this.at];
        let n = 1;
        if (kind === 0) while (this.at + n < next && this.kinds[this.at + n] === 0 && this.values[this.at + n] === value) n++;
        const answer = kind === 0 ? this.session.steps(value, n).answer : this.session.event(kind, value).answer;
        if (answer !== OK) throw new Refused(`event ${this.at} of the run is refused: ${REFUSALS[answer]}`);
        this.at += n;
    }
    // What came behind event k is no part of the run any more.
    cut(k) {
        this.bringTo(k); this.count = k;
        this.snapshots = this.snapshots.filter(it => it.at <= k || it.session.close());
    }
    // Notes the events that the machine has made, by its log.
    note() {
        const log = this.session, total = log.made();
        for (let k = this.count; k < total; k++) { const it = log.entry(k); this.kinds[k] = it.kind; this.values[k] = it.value; }
        this.count = this.at = total;
    }
    // Makes at most n events by a plan; their lines, and why no more.
    trace(plan, keys, n) {
        const { answer } = this.session.trace(plan, keys, false, Math.min(n, MOST - this.count));
        if (answer >= 18) throw new Refused(REFUSALS[answer]);
        const bytes = this.session.read();
        this.note();
        return { bytes, stop: stopOf(answer) };
    }
}
const stopOf = answer => answer === OK ? 'end' : answer === OFF ? 'off' : answer === STUCK ? 'stuck' : 'refused: ' + REFUSALS[answer];

// Why the run goes no further where it stands, by one event more on a copy.
function stopHere(otherwise) {
    const copy = copied(made.session);
    if (!copy) return otherwise;
    const { answer } = copy.drive({ kind: TURNS, transfer: 1, gap: null }, new Uint8Array(0), 1);
    copy.close();
    return answer === OFF ? 'off' : answer === STUCK ? 'stuck' : otherwise;
}

// ---- The lines of given events. An order chooses the events of a trace, so for n Steps of processor p one is taken that has p in
// front: priorities that never change, by a seed that draws p as the highest. Those seeds are found once, on a kernel that starts all.

const PROBE = 'lui $8, 0xbfff\nori $8, $8, 0x8000\nlui $9, 0xffff\nori $9, $9, 0xffff\nsw $9, -492($8)\nhere: beq $0, $0, here\nnop\n';
const leaders = new Map();
const inFront = seed => ({ kind: PRIORITIES, seed: BigInt(seed), changes: 0, within: 1, transfer: NEVER, gap: null });
function leadersOf(processors) {
    if (leaders.has(processors)) return leaders.get(processors);
    const session = new Session(engine), tried = new Session(engine), seeds = [];
    session.assemble(new TextEncoder().encode(PROBE), false);
    session.boot(session.read(), { ram: 4096, processors, log: 64, line: false, strict: false });
    session.steps(0, 5);
    for (let seed = 0; seeds.filter(it => it !== undefined).length < processors; seed++) {
        if (seed > 20000 || session.copyTo(tried) !== OK) throw new OutOfMemory();
        tried.drive(inFront(seed), new Uint8Array(0), 1);
        const p = tried.entry(tried.entries() - 1).value;
        if (seeds[p] === undefined) seeds[p] = seed;
    }
    session.close(); tried.close(); leaders.set(processors, seeds);
    return seeds;
}

// What is seen of a Step that is idle: the registers of coprocessor 0 that a line shows, in its order.
const SHOWN = ['index', 'entrylo', 'context', 'badvaddr', 'entryhi', 'compare', 'status', 'cause', 'epc'];
const seenOf = p => ({ ...made.session.processor(p), control: SHOWN.map(name => made.session.cop(p, CONTROL[name])) });
const word = x => x.toString(16).padStart(8, '0');

// The line of an event that no order chooses: a key, the end of a transfer, and an idle Step.
function lineOf(kind, value) {
    const number = made.count, before = kind === 0 ? seenOf(value) : null, told = made.session.event(kind, value);
    if (told.answer !== OK) return { refusal: told.answer };
    made.note();
    if (kind === 1) return { line: `${number} k ${value.toString(16).padStart(2, '0')}\n` };
    if (kind === 2) return { line: `${number} o\n` };
    if (told.kind !== 2) throw new Error('a Step without an order was not idle');
    const after = seenOf(value), items = SHOWN.map((name, i) => after.control[i] === before.control[i] ? '' : ` ${name}=${word(after.control[i])}`);
    const state = after.state === before.state ? '' : ` state=${after.state}`;
    return { line: `${number} ${value} ${word(before.pc)} -  ${(state + items.join('') + ' idle').trim()}\n` };
}

// Makes at most n Steps of processor p, and gives their lines; why not all are made, if so.
function linesOfSteps(p, n, out) {
    while (n > 0) {
        const from = made.count, want = Math.min(n, 2048);
        const { bytes } = made.trace(inFront(leadersOf(made.size.processors)[p]), new Uint8Array(0), want);
        let own = 0;
        while (from + own < made.count && made.kinds[from + own] === 0 && made.values[from + own] === p) own++;
        if (from + own < made.count) made.cut(from + own);
        out.push(own === want ? bytes : firstLines(bytes, own));
        n -= own;
        if (own === want) continue;
        const { line, refusal } = lineOf(0, p);
        if (refusal) return refusal;
        out.push(new TextEncoder().encode(line));
        n--;
    }
    return 0;
}
function firstLines(bytes, n) {
    let end = 0;
    for (let left = n; left > 0; end++) if (bytes[end] === 10) left--;
    return bytes.subarray(0, end);
}
// Makes the events of these blocks, up to the first that is refused.
function follow(blocks, limit) {
    const out = [];
    for (const { kind, value, n } of blocks) {
        const room = Math.min(n, limit - made.count);
        let refusal = 0;
        if (room <= 0) break;
        if (kind === 0) refusal = linesOfSteps(value, room, out);
        else { const got = lineOf(kind, value); refusal = got.refusal || 0; if (!refusal) out.push(new TextEncoder().encode(got.line)); }
        if (refusal) return { bytes: joined(out), stop: stopHere('refused: ' + REFUSALS[refusal]) };
    }
    return { bytes: joined(out), stop: stopHere('end') };
}
function joined(parts) {
    const bytes = new Uint8Array(parts.reduce((n, it) => n + it.length, 0));
    let at = 0;
    for (const it of parts) { bytes.set(it, at); at += it.length; }
    return bytes;
}

// ---- The search: all states, where they are few enough; then every run with few delays, and runs of seeds, judged at their ends

// What is wrong with a run that ended so; '' for nothing.
function judged(rules, session, stop) {
    if (rules.stuck && stop === STUCK) return 'stuck';
    if (rules.end && stop === OK) return 'not off';
    if (stop === OK) return '';
    if (rules.output !== null) {
        session.output();
        if (new TextDecoder('latin1').decode(session.read()) !== rules.output) return 'another output';
    }
    if (rules.word && session.word(rules.word.address) !== rules.word.value) return 'another word';
    return '';
}
const breathe = () => new Promise(go => { const { port1, port2 } = new MessageChannel(); port1.onmessage = () => { port1.close(); go(); }; port2.postMessage(0); });

// The schedule that a machine's log has, as blocks.
function blocksOf(session) {
    const blocks = [], total = session.entries();
    for (let k = 0; k < total; k++) {
        const { kind, value } = session.entry(k), end = blocks[blocks.length - 1];
        if (kind === 0 && end && end.kind === 0 && end.value === value) end.n++; else blocks.push({ kind, value, n: 1 });
    }
    return blocks;
}
function merged(list) {
    const out = [];
    for (const it of list) {
        const end = out[out.length - 1];
        if (end && end.kind === 0 && it.kind === 0 && end.value === it.value) out[out.length - 1] = { ...end, n: end.n + it.n }; else out.push(it);
    }
    return out;
}

// The events of a list, by their numbers, as blocks.
function blocksNamed(numbers, processors, keys) {
    let typed = 0;
    return merged(Array.from(numbers, n => n < processors ? { kind: 0, value: n, n: 1 } : n === processors ? { kind: 2, value: 0, n: 1 } : { kind: 1, value: keys[typed++], n: 1 }));
}

const EXPLORE_MS = 6000, MOST_STATES = 1 << 20; // how long and how far is explored, before the delays
const FIRST_STATES = 16; // of the first slice
// For how long delays are tried, before the seeds: in turns of so many Steps, and in slices of so many events at most.
const DELAYS_MS = 4000, DELAYED_TURNS = 50, SLICE_EVENTS = 500000, FIRST_CHOICES = 16, FEW_STATES = 2000;

// How much the next slice does, so that one takes some 20 to 40 ms.
const adapted = (n, ms) => ms < 20 ? 2 * n : ms > 40 ? Math.max(1, n >> 1) : n;
function check(answer) {
    if (answer === NO_MEMORY) throw new OutOfMemory();
    if (answer !== OK && answer !== MORE) throw new Refused(REFUSALS[answer]);
}

class Hunt {
    constructor({ file, size, plan, keys, limit, rules, from, most }, tell) {
        Object.assign(this, { file, plan, keys, limit, rules, from, most, tell, id: ++hunting, bad: '', seed: from, delayedRuns: 0, processors: size.processors });
        this.output = rules.output === null ? null : Uint8Array.from(rules.output, c => c.charCodeAt(0));
        this.base = booted(file, { ...size, log: limit }); this.tried = new Session(engine);
    }
    get isOn() { return this.id === hunting; }
    again() { if (this.base.copyTo(this.tried) !== OK) throw new OutOfMemory(); }
    try(plan) { this.again(); return judged(this.rules, this.tried, this.tried.drive(plan, this.keys, this.limit).answer); }
    // All states, in slices, until there is an answer, the time is over, or it is stopped. What was found may be all that there are: so there are
    // `more` than one less. Where a Step reads of time what wasn't known, they are looked for anew, from one on.
    async states(limit, output, until) {
        check(this.base.beginToExplore(limit, this.keys, output));
        let number = FIRST_STATES;
        do {
            const start = performance.now(), found = this.base.exploreOn(number), ms = performance.now() - start;
            check(found.answer);
            if (found.kind !== UNFINISHED) return found;
            if (found.states > 1) number = adapted(number, ms);
            this.more = Math.max(this.more, found.states - 1);
            this.tell({ states: this.more });
            await breathe();
        } while (this.isOn && performance.now() < until);
        return { kind: UNFINISHED };
    }
    // The same for some seconds. Where these are too few, a quarter of the states tells up to how many events nothing goes wrong.
    async exploreFor(output) {
        this.more = 0;
        let found = await this.states(MOST_STATES, output, performance.now() + EXPLORE_MS);
        if (found.kind === OPEN) this.more = MOST_STATES;
        if (found.kind === UNFINISHED && this.isOn) found = await this.states(Math.max(1, this.more >> 2), output, Infinity);
        return { ...found, more: this.more, asked: output !== null };
    }
    // What that says of the rules: what goes wrong; or that nothing does, of the rules that an exploration can judge; or that it is open, or
    // unfinished. A run that is stuck excuses its output there, so output is asked for once nothing is stuck, of so many states. null where a
    // run may be stuck.
    async explore() {
        if (!this.rules.stuck) return null;
        const isRight = ({ kind }) => kind === CLEAN || kind === HUNG && !this.rules.end;
        let found = await this.exploreFor(null);
        if (isRight(found) && this.output) found = { ...await this.exploreFor(this.output), unstuck: found.states };
        if (isRight(found)) return { ...found, kind: CLEAN, ends: found.kind === CLEAN };
        if (found.kind === FOUND || found.kind === HUNG) found.blocks = blocksNamed(this.base.read(), this.processors, this.keys);
        return found;
    }
    // A slice of the runs by turns with these delays.
    slice(lists, first, runs, hung, output) {
        const plan = { kind: TURNS, turns: DELAYED_TURNS, transfer: this.plan.transfer, gap: this.plan.gap };
        const found = this.base.slice(this.file, plan, lists, first, runs, this.limit, hung, this.keys, output);
        check(found.answer);
        return found;
    }
    // (A run that was cut isn't off. The search calls that wrong only where an output is asked for.)
    isWrongSlice({ verdict, cut }) { return verdict !== '' || cut > 0 && this.rules.end; }
    // The first run that goes wrong, of which there is one among so many from this list on. Where it was cut and isn't known to hang, its events
    // are told by asking for an output, whichever.
    firstWrong(lists, first, runs, output) {
        while (runs > 1) {
            const half = runs >> 1, found = this.slice(lists, first, half, 0, output);
            if (this.isWrongSlice(found)) runs = half; else { runs -= half; first = found.next; }
        }
        const found = this.slice(lists, first, 1, this.rules.end ? FEW_STATES : 0, output);
        const told = found.verdict ? found : this.slice(lists, first, 1, 0, new Uint8Array(0));
        return { ...told, blocks: blocksNamed(this.base.read(), this.processors, this.keys) };
    }
    // The runs with these delays, up to the first that goes wrong, or as long as there is time: then `next` is the first list that is left.
    async slices(lists, output, until) {
        const longest = Math.max(1, Math.trunc(SLICE_EVENTS / this.limit));
        let next = [], runs = 0, cut = 0;
        for (let most = 1; next && this.isOn && performance.now() < until; await breathe()) {
            const start = performance.now(), found = this.slice(lists, next, most, 0, output), ms = performance.now() - start;
            if (this.isWrongSlice(found)) return this.firstWrong(lists, next, most, output);
            next = found.next; runs += found.runs; cut += found.cut; this.delayedRuns += found.runs;
            this.tell({ runs: this.delayedRuns });
            most = Math.min(longest, adapted(most, ms));
        }
        return { ...lists, runs, cut, next };
    }
    // The same by all rules. A run that is stuck excuses its output, so output is asked for once none is.
    async delayedBy(lists, until) {
        const found = await this.slices(lists, null, until);
        return found.verdict || !this.output ? found : this.slices(lists, this.output, found.next ? 0 : until);
    }
    // Every run by turns with one delay at most; then with two, at all choices if that is likely to fit the time, else at twice as many first
    // ones each time. What goes wrong, or which runs don't. null where a run may be stuck, or has to send something and need not end: no such
    // search excuses that.
    async delays() {
        const { stuck, end } = this.rules, all = this.limit, start = performance.now(), until = start + DELAYS_MS;
        if (!stuck || !end && this.output) return null;
        const one = await this.delayedBy({ most: 1, from: 0, within: all }, until), ms = performance.now() - start;
        if (one.verdict) return one;
        if (one.next) return { right: one.runs ? [{ ...one, within: one.next[0] }] : [] };
        const fits = ms * one.runs / 2 < DELAYS_MS - ms; // (with two there are about half as many as the square of these)
        let right = [one];
        for (let within = fits ? all : Math.min(all, FIRST_CHOICES); ; within = Math.min(all, 2 * within)) {
            const two = await this.delayedBy({ most: 2, from: 0, within }, until);
            if (two.verdict) return two;
            if (two.next) return { right };
            right = within < all ? [one, two] : [two];
            if (within === all) return { right };
        }
    }
    async seeds() {
        while (this.isOn && this.seed < this.most && !this.bad) {
            for (const end = performance.now() + 25; performance.now() < end && this.seed < this.most && !this.bad; this.seed++)
                this.bad = this.try({ ...this.plan, seed: BigInt(this.seed) });
            this.tell({ tried: this.seed - this.from });
            await breathe();
        }
    }
    // Whether these blocks, and turns behind them, go wrong in the same way.
    isWrong(blocks, then) {
        let n = 0;
        this.again();
        for (const it of blocks) {
            if ((it.kind === 0 ? this.tried.steps(it.value, it.n) : this.tried.event(it.kind, it.value)).answer !== OK) return false;
            n += it.n;
        }
        return n <= this.limit && judged(this.rules, this.tried, this.tried.drive(then, new Uint8Array(0), this.limit - n).answer) === this.bad;
    }
    // Leaves out blocks while the run stays wrong, for four seconds at most.
    async shorten(blocks, then) {
        const until = performance.now() + 4000;
        let best = blocks;
        for (let size = 1; size < blocks.length; size *= 2) if (this.isWrong(blocks.slice(0, size), then)) { best = blocks.slice(0, size); break; }
        for (let size = Math.max(1, best.length >> 1); size >= 1; size >>= 1)
            for (let i = 0; i < best.length && performance.now() < until && this.isOn;) {
                const less = merged([...best.slice(0, i), ...best.slice(i + size)]);
                if (less.length < best.length && this.isWrong(less, then)) best = less; else i += size;
                if (i % 16 === 0) await breathe();
            }
        return best;
    }
    async go() {
        // A search that goes on has only more seeds to try.
        const explored = this.from ? null : await this.explore();
        if (explored && (explored.kind === FOUND || explored.kind === HUNG)) return this.first(explored);
        const right = explored && explored.kind === CLEAN;
        if (right && !this.rules.word) return { right: explored.states, ends: explored.ends, tried: 0 };
        const open = explored && !right ? explored : null, delayed = open && this.isOn ? await this.delays() : null;
        if (delayed && delayed.verdict) return this.delayed(delayed);
        await this.seeds();
        const answer = { tried: this.seed - this.from, stopped: !this.isOn, bad: this.bad, open, few: delayed ? delayed.right : [], states: right ? explored.states : 0 };
        if (!this.bad) return answer;
        // A run that is to be stuck goes on in turns of a million; one that isn't over in turns of 60, since it has to be fair: else a
        // processor would spin only because the other one makes no Step.
        const whole = blocksOf(this.tried), turns = this.bad === 'not off' ? 60 : 1000000;
        const then = { kind: TURNS, turns, transfer: this.plan.transfer, gap: null };
        const blocks = this.isWrong(whole, then) ? await this.shorten(whole, then) : whole;
        return { ...answer, stopped: false, seed: this.seed - 1, blocks, then: { turns }, before: whole.length };
    }
    // The first list of events that goes wrong, or has no end: that goes on in turns of 60, which is as fair as it gets.
    first({ kind, verdict, states, events, blocks }) {
        return { bad: kind === HUNG ? 'hung' : verdict === 'output' ? 'another output' : verdict, states, events, blocks, first: true, then: { turns: kind === HUNG ? 60 : 1000000 } };
    }
    // The run of the first list of delays that goes wrong, up to its verdict; it goes on as a list of an exploration does.
    delayed({ verdict, delays, events, blocks }) {
        const bad = verdict === 'output' ? 'another output' : verdict === 'end' ? 'not off' : verdict;
        return { bad, delays, events, blocks, then: { turns: bad === 'hung' || bad === 'not off' ? 60 : 1000000 } };
    }
    close() { if (!this.base.module.trapped) { this.base.close(); this.tried.close(); } }
}

// Why an event is refused where the machine stands; '' if it isn't.
function refusalOf(kind) {
    const { off, waiting, sending } = made.session.board();
    return off ? 'the machine is off' : kind === 1 && waiting >= 256 ? '256 bytes wait' : kind === 2 && !sending ? 'the console sends nothing'
        : made.at >= MOST ? `a run has at most ${MOST} events` : '';
}

function firstRun(blocks, plan, keys, limit) {
    const first = blocks ? follow(blocks, limit) : { bytes: new Uint8Array(0), stop: 'end' };
    if (!plan || first.stop !== 'end' || made.count >= limit) return first;
    const then = made.trace(plan, keys, limit - made.count);
    return { bytes: joined([first.bytes, then.bytes]), stop: then.stop };
}
// Each change of the run has a number, so that a question about another one isn't answered.
function versioned(answer) { made.version = ++versions; return { ...answer, version: made.version }; }
function there() { if (!made) throw new Refused('there is no machine any more: run again'); return made; }

// ---- The messages

const CALLS = {
    async load({ bytes }) { moduleBytes = bytes; engine = await Talusdish.load(bytes); },
    assemble({ text }) {
        const session = new Session(engine), bytes = new TextEncoder().encode(text), { answer, line, column } = session.assemble(bytes, true);
        const file = answer === OK ? session.read() : null;
        session.close();
        if (answer >= BAD) throw new Refused(REFUSALS[answer]);
        return file ? { file } : { fault: { name: FAULTS[answer], line, column: charactersOf(bytes, line, column) } };
    },
    // A run from the boot on: by a plan, or by blocks and then by a plan. Where it isn't made, the one before stays.
    run({ file, size, blocks, plan, keys, limit }) {
        const before = made;
        let fresh = null;
        try {
            made = fresh = new Made(file, size);
            const got = firstRun(blocks, plan, keys, limit);
            if (before) before.drop();
            return versioned(got);
        } catch (error) {
            if (fresh && !engine.trapped) fresh.drop();
            made = before;
            throw error;
        }
    },
    // The run goes on behind its end.
    more({ plan, keys, n }) { there().bringTo(made.count); return versioned(made.trace(plan, keys, n)); },
    // An event by hand behind event k: what came after it is dropped.
    hand({ k, kind, value }) {
        there().bringTo(k);
        const refusal = refusalOf(kind);
        if (refusal) return { refusal };
        made.cut(k);
        const out = [], got = kind === 0 ? { refusal: linesOfSteps(value, 1, out) } : lineOf(kind, value);
        const bytes = got.line ? new TextEncoder().encode(got.line) : joined(out);
        return versioned({ bytes, refusal: got.refusal ? REFUSALS[got.refusal] : '', stop: stopHere('hand') });
    },
    // The machine behind event k, if the run is still that of this version.
    view({ k, from, count, version }) {
        if (!made || made.version !== version || k > made.count) return null;
        made.bringTo(k);
        const it = made.session, processors = [], words = [];
        for (let p = 0; p < made.size.processors; p++) {
            const rows = [];
            for (let i = 0; i < 64; i++) { const row = it.row(p, i); if (row[1] & 0x300) rows.push([i, ...row]); }
            const control = Object.fromEntries(Object.entries(CONTROL).map(([name, number]) => [name, it.cop(p, number)]));
            processors.push({ ...it.processor(p), link: it.link(p), control, rows });
        }
        for (let i = 0; i < count; i++) words.push(it.word(from + 4 * i));
        return { processors, words, board: it.board() };
    },
    // (Not async: what is wrong with its arguments is said at once.)
    hunt(args, tell) {
        const hunt = new Hunt({ ...args }, tell);
        return hunt.go().finally(() => hunt.close());
    },
    stop() { hunting++; },
};

// The assembler counts columns in bytes; an editor has characters.
function charactersOf(bytes, line, column) {
    let start = 0;
    for (let left = line - 1; left > 0 && start < bytes.length; start++) if (bytes[start] === 10) left--;
    return new TextDecoder().decode(bytes.subarray(start, start + column - 1)).length + 1;
}

self.onmessage = async ({ data: { id, name, args } }) => {
    const tell = progress => postMessage({ id, progress });
    try {
        const result = await CALLS[name](args, tell);
        postMessage({ id, result }, result && result.bytes ? [result.bytes.buffer] : []);
    } catch (error) {
        // After a trap the instance is dropped, and the machines in it; the next call has a new one.
        if (engine && engine.trapped) {
            made = null; leaders.clear(); hunting++;
            engine = await Talusdish.load(moduleBytes);
            postMessage({ id, trap: String(error.message || error) });
        } else postMessage({ id, error: error.message });
    }
};
