// ---- Small helpers

const $ = id => document.getElementById(id);
const hex = (x, n = 8) => x === undefined || x === null ? '?'.repeat(n) : (x >>> 0).toString(16).padStart(n, '0');
const short = x => x === undefined || x === null ? '?' : (x >>> 0) < 10 ? String(x) : (x >>> 0).toString(16);
const escape = s => String(s).replace(/[&<>"]/g, c => ({ '&': '&amp;', '<': '&lt;', '>': '&gt;', '"': '&quot;' })[c]);
const count = n => n.toLocaleString('en');
const number = k => (run.first || 0) + k;
const linkTo = k => `<a class="k" data-k="${k}">#${number(k)}</a>`;
const unescaped = s => s.replace(/\\(n|r|t|\\)/g, (_, c) => ({ n: '\n', r: '\r', t: '\t' })[c] || c);
const bytesOf = s => Uint8Array.from(atob(s), c => c.charCodeAt(0));
function base64Of(bytes) {
    let s = '';
    for (let i = 0; i < bytes.length; i += 8192) s += String.fromCharCode(...bytes.subarray(i, i + 8192));
    return btoa(s);
}
const TRAPS = ['interrupt', 'TLB modified', 'TLB miss, load', 'TLB miss, store', 'address error, load', 'address error, store', 'bus error, fetch',
    'bus error, data', 'system call', 'breakpoint', 'reserved instruction', 'coprocessor unusable', 'overflow'];
const MEANS = { BadToken: 'these bytes form no token', UnknownWord: 'neither a directive nor an instruction', BadOperand: 'another operand is expected here',
    OutOfRange: 'the number is outside its range', UnknownLabel: 'no line has this label', DoubleLabel: 'an earlier line has this label',
    BranchTooFar: 'the target is too far for a branch', Overlap: 'these addresses are filled already' };
const COLOURS = 6, LANES = 6, BUS = 0x1fe00000, MOST = 100000, RFE = 0x42000010;
// Lets the browser draw and take keys between two pieces of work.
const breathe = () => new Promise(go => { const { port1, port2 } = new MessageChannel(); port1.onmessage = () => { port1.close(); go(); }; port2.postMessage(0); });

// ---- A run: events read from lines of a trace, and what each changed

const STEP = /^(\d+) (\d+) ([0-9a-f]{8})(?: <([^>]*)>)? ([0-9a-f]{8}|-)(.*)$/;
const OTHER = /^(\d+) (?:k ([0-9a-f]{2})|(o))(?:  (.*))?$/;
const ITEM = /tlb \d+=\w+ \w+|(?:unlink|starts) \d+|(?:cirqe|cipi) \d+=\w+|cram \d+ \d+=\w+|trap \d+ \w+|conflict \d+ \d+|\[\w+(?: <[^>]*>)?\]=\w+|\(\w+(?: <[^>]*>)?\)=\w+|\w+=\w+|idle|off/g;
const LOADS = { 0x20: 'lb', 0x21: 'lh', 0x22: 'lwl', 0x23: 'lw', 0x24: 'lbu', 0x25: 'lhu', 0x26: 'lwr', 0x30: 'll' };

class Run {
    constructor() {
        Object.assign(this, { events: [], changes: [], now: new Map(), at: -1, symbols: [], lines: null, stop: '', processors: 1, mismatches: 0 });
        Object.assign(this, { image: new Map(), base: {}, file: null });
        Object.assign(this, { words: new Map(), shared: [], over: [], unseen: [], folds: [], arrows: [], own: [[]] });
        Object.assign(this, { states: [[{ k: -1, kind: 'run' }]], lanes: [], laneOf: new Map() });
    }
    get(key) { return this.now.get(key); }
    get last() { return this.events.length - 1; }
    put(key, value) {
        this.changes[this.at].push([key, this.now.get(key), value]);
        if (value === undefined) this.now.delete(key); else this.now.set(key, value);
    }
    // Moves `now` to the state after event k; -1 is the state at the start, and what a Step changed is undone in turn.
    goTo(k) {
        const set = (key, value) => { if (value === undefined) this.now.delete(key); else this.now.set(key, value); };
        while (this.at > k) {
            const back = this.changes[this.at--];
            for (let i = back.length - 1; i >= 0; i--) set(back[i][0], back[i][1]);
        }
        while (this.at < k) for (const [key, , value] of this.changes[++this.at]) set(key, value);
    }
    word(a) { return this.now.has('m' + a) ? this.now.get('m' + a) : this.image.get(a); }
    startProcessor(p, set) {
        for (let r = 0; r < 32; r++) set(p + '.r' + r, r === 29 && p ? (0xbfff8400 + p * 0x400) >>> 0 : r === 4 && p ? this.get(`cram ${p} 1`) || 0 : 0);
        set(p + '.state', 'running'); set(p + '.status', 0);
    }
    // Reads lines and appends their events; false for a line that is none.
    append(line) {
        this.goTo(this.last);
        const step = STEP.exec(line), other = step ? null : OTHER.exec(line);
        if (!step && !other) return false;
        if (!this.events.length) { this.first = +(step || other)[1]; if (this.first === 0) this.startProcessor(0, (k, v) => this.now.set(k, v)); }
        const k = this.events.length, e = { k, line, kind: other ? (other[3] || 'k') : 's', p: -1, text: '', loud: false, plain: true };
        this.events.push(e); this.changes.push([]); this.at = k;
        let items = '';
        if (other) { items = other[4] || ''; e.plain = false; if (e.kind === 'o') e.sent = this.get('latch'); else e.key = parseInt(other[2], 16); }
        else {
            e.p = +step[2]; e.pc = parseInt(step[3], 16); e.word = step[5] === '-' ? null : parseInt(step[5], 16);
            const cut = step[6].indexOf('  '); e.text = (cut < 0 ? step[6] : step[6].slice(0, cut)).trim(); items = cut < 0 ? '' : step[6].slice(cut + 2);
            if (step[4]) this.noteSymbol(step[4], e.pc);
            this.processors = Math.max(this.processors, e.p + 1); e.user = !!(this.get(e.p + '.status') & 2);
        }
        if (e.word === RFE) e.loud = true;
        const list = items.match(ITEM) || [], trapped = list.some(i => i.startsWith('trap')),
            access = e.word !== null && !trapped && e.kind === 's' ? this.accessOf(e) : null;
        for (const item of list) this.apply(e, item);
        if (access) this.finishAccess(e, access);
        return true;
    }
    noteSymbol(text, pc) {
        const [, name, off] = /^(.*?)(?:\+([0-9a-f]+))?$/.exec(text);
        this.named = this.named || new Map(); this.named.set((pc - (off ? parseInt(off, 16) : 0)) >>> 0, name);
    }
    physical(p, at) {
        if (at >>> 30 === 2) return at & 0x1fffffff;
        const mine = (this.get(p + '.entryhi') || 0) & 0xfc0;
        for (let i = 0; i < 64; i++) {
            const row = this.get(p + '.tlb' + i);
            if (row && row[0] >>> 12 === at >>> 12 && (row[1] & 0x100 || (row[0] & 0xfc0) === mine))
                return (row[1] & 0x200) ? ((row[1] & 0xfffff000) | (at & 0xfff)) >>> 0 : null;
        }
        return null;
    }
    accessOf(e) {
        const op = e.word >>> 26; if (!LOADS[op] && op !== 0x38) return null;
        const base = this.get(e.p + '.r' + (e.word >>> 21 & 31)); if (base === undefined) return null;
        const at = this.physical(e.p, (base + (e.word << 16 >> 16)) >>> 0);
        return at === null || at >= BUS ? null : { op, a: (at & ~3) >>> 0, rt: e.word >>> 16 & 31 };
    }
    finishAccess(e, { op, a, rt }) {
        if (op === 0x38) { if (!e.store) e.failed = a; return; }
        const known = this.word(a), whole = op === 0x23 || op === 0x30, value = whole && rt ? this.get(e.p + '.r' + rt) : known;
        if (whole && rt && known !== undefined && value !== known) this.mismatches++;
        if (!e.load) e.load = { a, v: value };
        if (!this.now.has('m' + a) && e.load.v !== undefined && this.image.get(a) === undefined) this.put('m' + a, e.load.v);
    }
    apply(e, item) {
        const p = e.p, eq = item.indexOf('='), name = eq < 0 ? item : item.slice(0, eq), text = item.slice(eq + 1),
            value = parseInt(text, 16), parts = name.split(' ');
        if (/^r\d+$/.test(name) || name === 'hi' || name === 'lo') return this.put(p + '.' + name, value);
        if (name === 'link') return this.put(p + '.link', value);
        if (parts[0] === 'unlink') return this.put(parts[1] + '.link', undefined);
        if (name[0] === '(') { e.load = { a: parseInt(name.slice(1), 16) & ~3, v: value }; return; }
        if (name === 'idle') { e.idle = true; return; }
        e.plain = false;
        if (name[0] === '[') { const a = parseInt(name.slice(1), 16); e.store = { a, v: value, was: this.word(a) }; return this.put('m' + a, value); }
        if (parts[0] === 'tlb') { e.loud = true; return this.put(p + '.tlb' + parts[1], text.split(' ').map(x => parseInt(x, 16))); }
        if (parts[0] === 'trap') { e.trap = { code: +parts[1], vector: parseInt(parts[2], 16) }; e.loud = true; return; }
        if (parts[0] === 'starts') {
            e.starts = [...(e.starts || []), +parts[1]]; e.loud = true;
            this.processors = Math.max(this.processors, +parts[1] + 1);
            return this.startProcessor(+parts[1], (k, v) => this.put(k, v));
        }
        if (parts[0] === 'cipi') { e.ipi = { to: +parts[1], up: value !== 0 }; e.loud = true; return this.put(name, value); }
        if (name === 'off') { e.off = e.loud = true; return; }
        if (parts[0] === 'conflict') { e.loud = true; return; }
        if (name === 'state') { e.state = text; e.loud = true; return this.put(p + '.state', text); }
        if (name === 'status') { if ((value ^ (this.get(p + '.status') || 0)) & 2) e.loud = true; return this.put(p + '.status', value); }
        if (name === 'latch') e.loud = true;
        this.put(/^(latch|waiting|wirq|rirq|irqe|cpue|cirqe|cram)$/.test(parts[0]) ? name : p + '.' + name, value);
    }
    label(at) {
        let lo = 0, hi = this.symbols.length; while (lo < hi) { const mid = lo + hi >> 1; if (this.symbols[mid].at <= at) lo = mid + 1; else hi = mid; }
        if (!lo || at - this.symbols[lo - 1].at > 0x10000) return hex(at);
        const s = this.symbols[lo - 1]; return s.name + (at > s.at ? '+' + (at - s.at).toString(16) : '');
    }
    addressOf(text) {
        const s = this.symbols.find(s => s.name === text); return s ? s.at : /^(0x)?[0-9a-f]{1,8}$/i.test(text) ? parseInt(text.replace(/^0x/i, ''), 16) : null;
    }
    output() { let s = ''; for (let k = 0; k <= this.at; k++) if (this.events[k].kind === 'o') s += String.fromCharCode(this.events[k].sent ?? 63); return s; }
    schedule(upTo = this.last) {
        const out = []; let p = -1, n = 0; const flush = () => { if (n) out.push(n > 1 ? `s ${p} ${n}` : `s ${p}`); n = 0; };
        for (let k = 0; k <= upTo; k++) {
            const e = this.events[k];
            if (e.kind === 's') { if (e.p !== p) { flush(); p = e.p; } n++; } else { flush(); p = -1; out.push(e.kind === 'o' ? 'o' : 'k ' + hex(e.key, 2)); }
        }
        flush(); return out.join('\n') + '\n';
    }
}
