// ---- The machine: it stands in the worker. Assembling, running, events by hand.

let run = new Run(), sel = -1, watched = [], elf = null, turn = 0; // elf: an opened file in the place of a source
const machine = {
    worker: null, waiting: new Map(), last: 0, why: 'The machine isn\'t in this copy of the page: it can only open traces.',
    get isThere() { return !this.why; },
    // Starts the worker with the module of the page.
    async start() {
        const text = $('worker').textContent, bytes = $('module').textContent.trim();
        if (!bytes || bytes.startsWith('/*')) return;
        try {
            const url = URL.createObjectURL(new Blob([text], { type: 'text/javascript' }));
            this.worker = new Worker(url);
            this.worker.onmessage = ev => this.answer(ev.data);
            this.worker.onerror = ev => this.drop('The worker ended: ' + (ev.message || 'it could not be started'));
            await this.call('load', { bytes: await unpacked(bytes) });
            this.why = '';
        } catch (error) { this.why = 'This browser can\'t run the machine: ' + error.message; }
    },
    call(name, args = {}, tell) {
        if (!this.worker) return Promise.reject(new Error(this.why));
        const id = ++this.last;
        this.worker.postMessage({ id, name, args });
        return new Promise((go, fail) => this.waiting.set(id, { go, fail, tell }));
    },
    answer({ id, result, error, trap, progress }) {
        const call = this.waiting.get(id);
        if (!call) return;
        if (progress) { if (call.tell) call.tell(progress); return; }
        this.waiting.delete(id);
        if (trap !== undefined) {
            document.body.dataset.trap = trap; run.file = null; view = null;
            call.fail(new Error(`The browser's engine stopped the machine (${trap}). It was dropped, since its memory may be half written, and a new one is there: run again.`));
        } else if (error !== undefined) call.fail(new Error(error)); else call.go(result);
    },
    drop(why) { this.why = why; this.worker = null; for (const { fail } of this.waiting.values()) fail(new Error(why)); this.waiting.clear(); sayFault(why); },
};
// The module: base64 of its bytes, packed by deflate.
async function unpacked(text) { return through(new DecompressionStream('deflate-raw'), bytesOf(text)); }
async function through(stream, bytes) { return new Uint8Array(await new Response(new Blob([bytes]).stream().pipeThrough(stream)).arrayBuffer()); }

// Symbols and initial words of an ELF file (32 bits, big-endian).
function readElf(file) {
    const v = new DataView(file.buffer, file.byteOffset, file.byteLength), symbols = [], words = new Map();
    const at = v.getUint32(28), size = v.getUint16(42), heads = v.getUint32(32);
    for (let i = 0; i < v.getUint16(44); i++) {
        const h = at + i * size, from = v.getUint32(h + 4), to = v.getUint32(h + 8), n = v.getUint32(h + 16);
        if (v.getUint32(h) === 1) for (let o = 0; o + 4 <= n; o += 4) words.set((to + o) & 0x1fffffff, v.getUint32(from + o));
    }
    for (let i = 0; i < v.getUint16(48); i++) {
        const h = heads + i * v.getUint16(46);
        if (v.getUint32(h + 4) !== 2) continue;
        const names = v.getUint32(heads + v.getUint32(h + 24) * v.getUint16(46) + 16), from = v.getUint32(h + 16), n = v.getUint32(h + 20);
        for (let s = from + 16; s < from + n; s += 16) {
            let end = names + v.getUint32(s), name = '';
            while (v.getUint8(end)) name += String.fromCharCode(v.getUint8(end++));
            const kind = v.getUint8(s + 12) & 15; // what a section or a file is called is no place in the code
            if (name && kind < 3) symbols.push({ name, at: v.getUint32(s + 4) });
        }
    }
    return { symbols: symbols.sort((a, b) => a.at - b.at), words };
}
// The line of the source for each address, by the rules of the assembly language.
function linesOf(source) {
    const lines = new Map(); let at = 0x80000200;
    source.split('\n').forEach((raw, i) => {
        const s = raw.replace(/#.*/, '').replace(/^\s*[A-Za-z_]\w*\s*:/, '').trim(), [, word, rest] = /^(\.?\w+)?\s*(.*)$/.exec(s);
        if (!word) return;
        if (word === '.org') at = Number(rest) >>> 0;
        else if (word === '.space') at += Number(rest);
        else if (word === '.word') for (const _ of rest.split(',')) { lines.set(at, i); at += 4; }
        else if (word[0] !== '.') { lines.set(at, i); at += 4; }
    });
    return lines;
}

// ---- Settings

const whole = (id, least, most) => Math.min(most, Math.max(least, Math.trunc(+$(id).value) || 0));
const settings = () => ({ source: $('source').value, cpus: +$('cpus').value, ram: +$('ram').value, line: $('unit').value === 'line', strict: $('strict').checked,
    order: $('order').value, number: $('number').value, changes: whole('changes', 0, 64), within: whole('within', 1, 1 << 24), transfer: whole('transfer', 0, NEVER),
    gap: $('gap').value === 'none' ? null : whole('gap', 0, NEVER), keys: $('keys').value, limit: whole('limit', 1, MOST), schedule: $('schedule').value });
const NEVER = 0xffffffff;
const sizeOf = s => ({ ram: s.ram, processors: s.cpus, line: s.line, strict: s.strict });
const keysOf = s => new TextEncoder().encode(unescaped(s.keys));
function seedOf(s) { try { return BigInt.asUintN(64, BigInt(s.number.trim() || 0)); } catch { return 0n; } }
// The plan of these settings, as the exports take it; none for a schedule.
function planOf(s) {
    const rest = { transfer: s.transfer, gap: s.gap };
    if (s.order === 'turns') return { kind: 0, turns: Math.min(1000000, Math.max(1, Math.trunc(+s.number) || 1)), ...rest };
    if (s.order === 'random') return { kind: 1, seed: seedOf(s), ...rest };
    if (s.order === 'priorities') return { kind: 2, seed: seedOf(s), changes: s.changes, within: s.within, ...rest };
    return null;
}
// The words of s161 that make the same run.
function commandOf(s) {
    const order = { turns: `--turns ${planOf(s)?.turns}`, random: `--random ${seedOf(s)}`, priorities: `--random ${seedOf(s)} --changes ${s.changes} --within ${s.within}`,
        schedule: '< SCHEDULE' }[s.order];
    const more = [s.ram !== 1048576 && `--ram ${s.ram}`, s.line && '--link line', s.strict && '--strict', s.order !== 'schedule' && s.transfer !== 100 && `--transfer ${s.transfer}`,
        s.order !== 'schedule' && s.keys && '--keys FILE', s.order !== 'schedule' && s.gap !== 1000 && `--gap ${s.gap === null ? 'none' : s.gap}`, s.order !== 'schedule' && `--events ${s.limit}`];
    return ['s161 trace IMAGE', `--cpus ${s.cpus}`, ...more.filter(it => it), order].join(' ');
}
function parseSchedule(text) {
    const out = [];
    text.split('\n').forEach((line, i) => {
        const s = line.trim(); if (!s || s[0] === '#') return;
        const m = /^(?:s (\d+)(?: (\d+))?|k ([0-9a-f]{2})|(o))$/.exec(s); if (!m) throw new Error(`Line ${i + 1} of the schedule isn't an event.`);
        out.push(m[4] ? { kind: 2, value: 0, n: 1 } : m[3] ? { kind: 1, value: parseInt(m[3], 16), n: 1 } : { kind: 0, value: +m[1], n: +(m[2] || 1) });
    });
    return out;
}

// ---- Runs

// The file of the source, or the opened one; null where there is none, and the page says why.
async function assembled(s) {
    markFault(null);
    if (elf) return elf.file;
    const { file, fault } = await machine.call('assemble', { text: s.source });
    if (!fault) return file;
    const means = MEANS[fault.name] ? ', ' + MEANS[fault.name] : '';
    sayFault(`Line ${fault.line}, column ${fault.column}: ${fault.name}${means}`); markFault(fault);
    return null;
}
function newRun(s, file) {
    const { symbols, words } = readElf(file);
    words.get = a => Map.prototype.get.call(words, a) ?? 0; // RAM is zero where the file has nothing
    return Object.assign(new Run(), { base: { ...s }, file, symbols, image: words, lines: elf ? null : linesOf(s.source), processors: s.cpus });
}
// Reads lines of a trace into a run, some at a time; how many were none.
async function takeLines(fresh, text, most = MOST) {
    let bad = 0, until = performance.now() + 12;
    for (let from = 0; from < text.length;) {
        let end = text.indexOf('\n', from);
        if (end < 0) end = text.length;
        const line = text.slice(from, end);
        from = end + 1;
        if (line.startsWith('stop: ')) fresh.stop = line.slice(6).trim();
        else if (fresh.events.length >= most) { fresh.stop = `cut at ${count(most)} lines`; break; }
        else if (line && !fresh.append(line)) bad++;
        if (performance.now() > until) { say(`${count(fresh.events.length)} events`); await breathe(); until = performance.now() + 12; }
    }
    return bad;
}
const decoded = bytes => new TextDecoder().decode(bytes);
// Does what the user asked for, unless something else was asked meanwhile; a failure is said.
async function doing(work) {
    const mine = ++turn;
    document.body.dataset.busy = 'yes'; say('…');
    try { return await work(() => mine === turn) ?? true; } catch (error) { if (mine === turn) sayFault(error.message); return false; } finally {
        if (mine === turn) { document.body.dataset.busy = ''; if ($('said').textContent === '…') say(''); }
    }
}
// Runs the kernel; then k is selected. A search gives the blocks that it found; an example has a name for the address.
const assembleAndRun = (k, then, name) => doing(async isOn => {
    const s = settings(), file = await assembled(s);
    if (!file || !isOn()) return false;
    const schedule = s.order === 'schedule', blocks = then ? then.blocks : schedule ? parseSchedule(s.schedule) : null, plan = then ? then.plan : planOf(s);
    const got = await machine.call('run', { file, size: sizeOf(s), blocks, plan, keys: then ? new Uint8Array(0) : keysOf(s), limit: schedule && !then ? MOST : s.limit });
    const fresh = newRun(s, file);
    await takeLines(fresh, decoded(got.bytes));
    if (!isOn()) return false;
    fresh.stop = got.stop; fresh.version = got.version; say('');
    if (then) setSchedule(fresh);
    await show(fresh, k); keepInAddress(name);
});
function setSchedule(fresh) { $('order').value = 'schedule'; $('schedule').value = fresh.schedule(); fresh.base.order = 'schedule'; fresh.base.schedule = $('schedule').value; orderChanged(); }
// The events of this run up to k, as a run of its own.
function upTo(k) {
    const fresh = Object.assign(new Run(), { base: { ...run.base }, file: run.file, symbols: run.symbols, image: run.image, lines: run.lines, processors: run.base.cpus });
    for (let i = 0; i <= k; i++) fresh.append(run.events[i].line);
    return fresh;
}
// An event behind the selected one, by hand: what came after that is dropped, and the run is a schedule's from then on.
let handing = Promise.resolve();
const byHand = (kind, value) => handing = handing.then(() => doing(isOn => byHandNow(isOn, kind, value)));
async function byHandNow(isOn, kind, value) {
    if (!machine.isThere || !run.file || kind === 0 && value >= run.processors) return;
    const got = await machine.call('hand', { k: sel + 1, kind, value });
    if (got.refusal) throw new Error(`Refused: ${got.refusal}.`);
    const fresh = upTo(sel);
    await takeLines(fresh, decoded(got.bytes));
    if (!isOn()) return;
    fresh.stop = got.stop; fresh.version = got.version; setSchedule(fresh); say('');
    await show(fresh, fresh.last); keepInAddress();
}
// The run goes on: the same order makes more events from the start, so that it is the same run; a schedule goes on in turns of one Step.
function goOn() {
    if (!machine.isThere || !run.file || run.stop === 'off') return;
    const from = run.last;
    if (run.base.order !== 'schedule') { $('limit').value = Math.min(MOST, run.events.length + 2000); assembleAndRun(from + 1); return; }
    doing(async isOn => {
        const plan = { kind: 0, turns: 1, transfer: run.base.transfer, gap: null };
        const got = await machine.call('more', { plan, keys: new Uint8Array(0), n: Math.min(2000, MOST - run.events.length) }), fresh = upTo(from);
        await takeLines(fresh, decoded(got.bytes));
        if (!isOn()) return;
        fresh.stop = got.stop; fresh.version = got.version; setSchedule(fresh); say('');
        await show(fresh, Math.min(from + 1, fresh.last)); keepInAddress();
    });
}

// ---- What the machine itself has behind the selected event: the latest question alone is asked

let view = null, asking = false, memoryAt = 0x1000;
async function askView() {
    if (!machine.isThere || !run.file || asking) return;
    asking = true;
    const of = run;
    for (let k = NaN, at = NaN; k !== sel || at !== memoryAt;) {
        k = sel; at = memoryAt;
        try { const got = await machine.call('view', { k: k + 1, from: at, count: 64, version: run.version }); if (of === run) view = got && { ...got, k, at }; } catch (error) { sayFault(error.message); break; }
        if (of !== run) break;
    }
    asking = false;
    if (of !== run) { view = null; askView(); return; }
    if (isView()) checkView();
    showTab();
}
// What the page read from the lines has to be what the machine has: registers, rows of the TLB, and the words that the memory shows.
function checkView() {
    const differs = [];
    run.goTo(sel);
    for (const [p, it] of view.processors.entries()) {
        for (let r = 1; r < 32; r++) if ((run.get(`${p}.r${r}`) ?? it.registers[r]) !== it.registers[r]) differs.push(`processor ${p}, register ${r}`);
        for (const [i, high, low] of it.rows) { const row = run.get(`${p}.tlb${i}`); if (row && (row[0] !== high || row[1] !== low)) differs.push(`processor ${p}, row ${i} of the TLB`); }
    }
    view.words.forEach((w, i) => { if (w !== null && run.word(view.at + 4 * i) !== w) differs.push(`the word at ${hex(view.at + 4 * i)}`); });
    if (!differs.length) return;
    run.mismatches++; document.body.dataset.mismatches = run.mismatches;
    sayFault(`Behind event ${number(sel)} the picture isn't the machine's: ${differs[0]}.`);
}
