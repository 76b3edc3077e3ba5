// The module's exports as calls of JavaScript; c/talusdish.h says what each one does. Addresses, lengths and numbers of 64 bits are
// BigInts at the border, and nowhere above it. This file is read by the page's worker, and by node in tests/web.
'use strict';
const OK = 0, OFF = 16, STUCK = 17, ALL_RIGHT = 21, MORE = 25, BAD = 253, NO_MEMORY = 254, NOTHING = 255;
const TURNS = 0, RANDOM = 1, PRIORITIES = 2, NEVER = 0xffffffff;
const CLEAN = 0, FOUND = 1, HUNG = 2, OPEN = 3, UNFINISHED = 4;
const VERDICTS = ['', 'stale', 'reached', 'conflict', 'stuck', 'output', 'end', 'hung'];
const REFUSALS = { 1: 'BadProcessor', 2: 'Off', 4: 'KeyFull', 5: 'NothingSent', 6: 'NoMemory', 8: 'Worn', 16: 'off', 17: 'stuck', 18: 'NoTurn',
    19: 'NoStretch', 20: 'TooManyChanges', 253: 'Bad', 254: 'out of memory', 255: 'no machine' };
const FAULTS = ['', 'BadToken', 'UnknownWord', 'BadOperand', 'OutOfRange', 'UnknownLabel', 'DoubleLabel', 'BranchTooFar', 'Overlap', 'NoMemory'];
const BOOT_FAULTS = ['', 'BadConf', 'Truncated', 'NotElf32Big', 'NotExecutable', 'NotMips', 'BadHeaderTable', 'SegmentOutsideFile', 'SegmentOutsideRam',
    'FileLargerThanMemory', 'BadEntry'];
// The registers of coprocessor 0 that have a meaning here, by their numbers.
const CONTROL = { index: 0, random: 1, entrylo: 2, context: 4, badvaddr: 8, count: 9, entryhi: 10, compare: 11, status: 12, cause: 13, epc: 14, prid: 15 };

// An instance of the module. After a trap of the engine its memory may be half written: no call goes through any more.
class Talusdish {
    static async load(bytes) { return new Talusdish((await WebAssembly.instantiate(bytes, {})).instance.exports); }
    constructor(exports) { this.exports = exports; this.trapped = null; this.seen = null; this.place = this.room(2048); }
    call(name, ...words) {
        if (this.trapped) throw this.trapped;
        try { return this.exports[name](...words); } catch (error) { this.trapped = error; throw error; }
    }
    // Room for so many bytes, zeros; null where there is none.
    room(length) {
        const at = Number(this.call('host_alloc', BigInt(length)));
        if (at) this.bytes(at, length).fill(0);
        return at || null;
    }
    free(at) { this.call('host_free', BigInt(at)); }
    bytes(at, length) { return new Uint8Array(this.exports.memory.buffer, at, length); }
    // What a call has told: its structs lie here. (The buffer is another one where the memory has grown.)
    told() {
        const { buffer } = this.exports.memory;
        if (!this.seen || this.seen.buffer !== buffer) this.seen = new DataView(buffer, this.place, 2048);
        return this.seen;
    }
    // Lends bytes to a call by their address and length.
    lend(bytes, use) {
        const at = this.room(Math.max(1, bytes.length));
        if (at === null) { this.told().setBigUint64(0, 0n, true); return NO_MEMORY; }
        this.bytes(at, bytes.length).set(bytes);
        const answer = use(BigInt(at), BigInt(bytes.length));
        this.free(at);
        return answer;
    }
}

// A slot and the session in it.
class Session {
    constructor(module) {
        this.module = module; this.slot = module.room(16);
        if (this.slot === null) throw new OutOfMemory();
        if (!(this.call('open') & 1)) { module.free(this.slot); throw new OutOfMemory(); }
    }
    call(name, ...words) { return this.module.call('talusdish_' + name, BigInt(this.slot), ...words); }
    // Calls that tell something get the address of the room for it.
    get place() { return BigInt(this.module.place); }
    close() { this.call('close'); this.module.free(this.slot); this.slot = null; }
    copyTo(other) { return this.call('copy', BigInt(other.slot)) & 255; }

    length() { return Number(this.call('length')); }
    // The session's bytes.
    read() {
        const length = this.length(), at = this.module.room(Math.max(1, length));
        if (at === null) throw new OutOfMemory();
        const got = Number(this.call('read', 0n, BigInt(at), BigInt(length))), bytes = this.module.bytes(at, got).slice();
        this.module.free(at);
        return bytes;
    }
    // 0 and the file is the session's bytes; or the fault's kind, its line and column.
    assemble(text, symbols) {
        this.module.bytes(this.module.place, 16).fill(0);
        const answer = this.module.lend(text, (at, n) => this.call('assemble', at, n, symbols ? 1 : 0, this.place) & 255), told = this.module.told();
        return { answer, line: Number(told.getBigUint64(0, true)), column: Number(told.getBigUint64(8, true)) };
    }
    boot(file, { ram, processors, log, line, strict }) {
        const v = this.module.told();
        v.setUint32(0, ram, true); v.setUint32(4, processors, true); v.setUint32(8, log, true); v.setUint8(12, line ? 1 : 0); v.setUint8(13, strict ? 1 : 0);
        return this.module.lend(file, (at, n) => this.call('boot', at, n, this.place) & 255);
    }
    event(kind, value) {
        const answer = this.call('event', kind, value, this.place) & 255, told = this.module.told();
        return { answer, kind: told.getUint32(0, true), first: told.getUint32(4, true), second: told.getUint32(8, true) };
    }
    steps(p, n) {
        const answer = this.call('steps', p, n, this.place) & 255;
        return { answer, made: this.module.told().getUint32(0, true) };
    }
    // Writes a plan behind the first 64 bytes of the room, and gives its address.
    plan({ kind, turns = 1, seed = 0n, changes = 0, within = 1, transfer, gap }) {
        const v = this.module.told(), at = 64;
        v.setUint32(at, kind, true); v.setUint32(at + 4, turns, true); v.setBigUint64(at + 8, BigInt.asUintN(64, BigInt(seed)), true);
        v.setUint32(at + 16, changes, true); v.setUint32(at + 20, within, true); v.setUint32(at + 24, transfer, true);
        v.setUint32(at + 28, gap === null ? 0 : gap, true); v.setUint8(at + 32, gap === null ? 0 : 1);
        return this.place + BigInt(at);
    }
    many() { return Number(this.module.told().getBigUint64(0, true)); }
    drive(plan, keys, n) {
        const answer = this.module.lend(keys, (at, size) => this.call('drive', this.plan(plan), at, size, BigInt(n), this.place) & 255);
        return { answer, made: this.many() };
    }
    trace(plan, keys, names, n) {
        const answer = this.module.lend(keys, (at, size) => this.call('trace', this.plan(plan), at, size, names ? 1 : 0, BigInt(n), this.place) & 255);
        return { answer, made: this.many() };
    }
    search(plan, keys, n, count, { address, word }) {
        const goal = this.module.place + 128, v = this.module.told();
        v.setUint32(128, address, true); v.setUint32(132, word, true);
        const answer = this.module.lend(keys, (at, size) =>
            this.call('search', this.plan(plan), at, size, BigInt(n), BigInt(count), BigInt(goal), this.place) & 255);
        return { answer, right: this.many() };
    }
    // Begins to look at every state from the boot on, as long as they are no more than the limit. Without an output null.
    beginToExplore(limit, keys, output) {
        return this.module.lend(keys, (at, n) => this.module.lend(output || new Uint8Array(0), (sent, m) =>
            this.call('explore_begin', limit, at, n, this.place, 0n, this.place, 0n, output ? 1 : 0, sent, m) & 255));
    }
    // Goes on with that: tries all events of so many states more. The events of a list that is found are the session's bytes.
    exploreOn(number) {
        const answer = this.call('explore_slice', number, this.place) & 255, v = this.module.told();
        return { answer, kind: v.getUint32(0, true), states: v.getUint32(4, true), events: Number(v.getBigUint64(8, true)), verdict: VERDICTS[v.getUint32(16, true)] };
    }
    // A slice of the runs by turns in which a ready processor is passed over at most `most` times, at choices of which none comes before `from`
    // and each before `within`, from the boot of this file: those of the lists of choices from `first` on, at most so many. `next` is the list
    // to go on from; null where none is left. Without an output null; the events that a wrong run's verdict needs are the session's bytes.
    slice(file, plan, { most, from, within }, first, runs, n, hung, keys, output) {
        const { module } = this, lists = 128, list = 192, slice = 512, at = offset => BigInt(module.place + offset), v = module.told();
        [most, from, within].forEach((it, i) => v.setUint32(lists + 4 * i, it, true));
        [first.length, ...first].forEach((it, i) => v.setUint32(list + 4 * i, it, true));
        const answer = module.lend(file, (image, size) => module.lend(keys, (typed, m) => module.lend(output || new Uint8Array(0), (sent, length) =>
            this.call('slice', image, size, this.plan(plan), at(lists), at(list), BigInt(runs), BigInt(n), hung, typed, m, this.place, 0n, this.place, 0n,
                output ? 1 : 0, sent, length, at(slice)) & 255)));
        const w = module.told(), long = offset => Number(w.getBigUint64(slice + offset, true));
        const listAt = offset => Array.from({ length: w.getUint32(slice + offset, true) }, (_, i) => w.getUint32(slice + offset + 4 + 4 * i, true));
        return { answer, verdict: VERDICTS[w.getUint32(slice, true)], runs: long(24), cut: long(32), events: long(40), delays: listAt(48),
            next: w.getUint8(slice + 312) ? listAt(316) : null };
    }
    made() { return Number(this.call('made')); }
    output() { return this.call('output') & 255; }
    log() { return this.call('log') & 255; }
    entries() { return Number(this.call('entries')); }

    // Views: null where there is no such thing.
    view(name, words, tell) { return this.call(name, ...words, this.place) & 1 ? tell(this.module.told()) : null; }
    word(address) { return this.view('word', [address | 0], v => v.getUint32(0, true)); }
    cop(p, number) { return this.view('cop', [p, number], v => v.getUint32(0, true)); }
    row(p, i) { return this.view('row', [p, i], v => [v.getUint32(0, true), v.getUint32(4, true)]); }
    link(p) { return this.view('link', [p], v => v.getUint32(0, true)); }
    conflict() { return this.view('conflict', [], v => [v.getUint32(0, true), v.getUint32(4, true), v.getUint32(8, true)]); }
    processor(p) {
        return this.view('processor', [p], v => ({ registers: Array.from({ length: 32 }, (_, r) => v.getUint32(4 * r, true)), hi: v.getUint32(128, true),
            lo: v.getUint32(132, true), pc: v.getUint32(136, true), state: ['stopped', 'running', 'waiting'][v.getUint32(140, true)],
            inSlot: v.getUint8(144) !== 0, count: Number(v.getBigUint64(152, true)) }));
    }
    board() {
        return this.view('board', [], v => ({ off: v.getUint8(0) !== 0, sending: v.getUint8(1) !== 0, latch: v.getUint8(2), waiting: v.getUint32(4, true),
            started: v.getUint32(8, true) }));
    }
    entry(i) {
        return this.view('entry', [BigInt(i)], v => ({ kind: v.getUint32(0, true), value: v.getUint32(4, true), outcome: v.getUint32(8, true),
            first: v.getUint32(12, true), second: v.getUint32(16, true) }));
    }
}

class OutOfMemory extends Error { constructor() { super('out of memory'); } }

if (typeof module !== 'undefined') module.exports = { Talusdish, Session, CONTROL, REFUSALS, FAULTS, VERDICTS };
