// ---- What a run shows: shared words, spins, stale stores, arrows, states of the columns

async function analyse(run) {
    if (run.named) run.symbols = [...run.named].map(([at, name]) => ({ at, name })).sort((a, b) => a.at - b.at);
    Object.assign(run, { words: new Map(), over: [], unseen: [], folds: [], arrows: [], own: Array.from({ length: run.processors }, () => []),
        next: new Int32Array(run.events.length).fill(-1) });
    for (const e of run.events) if (e.kind === 's') {
        const mine = run.own[e.p]; if (mine.length) run.next[mine[mine.length - 1]] = e.k; mine.push(e.k); noteAccesses(run, e);
        if (e.k % 20000 === 19999) await breathe();
    }
    run.shared = [...run.words.values()].filter(w => w.by.size > 1 && w.stores).sort((a, b) => a.a - b.a);
    run.over = run.over.filter(o => run.words.get(o.a).by.size > 1);
    run.lostBy = new Set(run.over.map(o => o.lost));
    for (const pass of [findUnseen, findSpins, findArrows, findStates, chooseLanes]) { await breathe(); pass(run); }
}
function noteAccesses(run, e) {
    for (const [what, access] of [['load', e.load], ['store', e.store]]) {
        if (!access) continue;
        let w = run.words.get(access.a); if (!w) run.words.set(access.a, w = { a: access.a, by: new Map(), loads: 0, stores: 0, lastStore: -1, ks: [] });
        const mine = w.by.get(e.p); delete e.over;
        if (w.ks[w.ks.length - 1] !== e.k) w.ks.push(e.k);
        if (what === 'load') { access.from = w.lastStore; w.loads++; }
        // A stale store: its processor's last access is a load, and another one has stored since.
        else {
            if (mine !== undefined && !run.events[mine].store && w.lastStore > mine && run.events[w.lastStore].p !== e.p)
                run.over.push(e.over = { a: access.a, load: mine, lost: w.lastStore, k: e.k, p: e.p });
            access.before = w.lastStore; w.lastStore = e.k; w.stores++;
        }
        w.by.set(e.p, e.k);
    }
}
// In a run that isn't off: a processor's last access to a word is a load, and another one has stored another value since.
function findUnseen(run) {
    if (run.stop !== 'off' && run.stop !== 'hand') for (const w of run.shared) for (const [p, k] of w.by) {
        const e = run.events[k], s = run.events[w.lastStore];
        if (!e.store && w.lastStore > k && s.p !== p && s.store.v !== e.load.v) run.unseen.push({ a: w.a, p, load: k, lost: w.lastStore, k: run.last });
    }
    run.unseen.sort((a, b) => a.lost - b.lost);
}
// A lap repeats the lap before: the same instructions, the same loads with the same values, and nothing changed but registers and links.
function findSpins(run) {
    run.foldOf = new Int32Array(run.events.length).fill(-1);
    const same = (a, b) => a.plain && b.plain && a.pc === b.pc && a.word === b.word && a.idle === b.idle
        && (a.load ? b.load && a.load.a === b.load.a && a.load.v === b.load.v && a.load.from === b.load.from : !b.load);
    run.own.forEach((own, p) => {
        const event = i => run.events[own[i]];
        for (let i = 1; i < own.length; i++) {
            if (event(i).pc > event(i - 1).pc) continue;
            let from = i - 1; while (from >= 0 && i - from <= 64 && event(from).pc !== event(i).pc) from--;
            if (from < 0 || event(from).pc !== event(i).pc) continue;
            const length = i - from; let end = i; while (end < own.length && same(event(end), event(end - length))) end++;
            const times = Math.floor((end - i) / length); if (!times) continue;
            if (end < own.length) end = i + times * length;
            const fold = { id: run.folds.length, p, first: own[i], last: own[end - 1], times, length, steps: end - i, loads: [] };
            for (let j = i; j < i + length; j++) if (event(j).load) fold.loads.push(event(j).load);
            for (let j = i; j < end; j++) run.foldOf[own[j]] = fold.id;
            fold.until = end < own.length ? own[end] : -1; run.folds.push(fold); i = end - 1;
        }
    });
}
// From an interrupt of another processor to the trap or the wake that takes it; from a start to the first Step.
function findArrows(run) {
    const pending = new Map();
    for (const e of run.events) {
        if (e.ipi && e.ipi.up) { run.arrows.push({ from: e.k, to: -1, p: e.ipi.to, what: 'IPI' }); pending.set(e.ipi.to, run.arrows[run.arrows.length - 1]); }
        else if (e.ipi) pending.delete(e.ipi.to);
        if (e.kind === 's' && pending.has(e.p) && e.k !== pending.get(e.p).from && (e.trap && e.trap.code === 0 || e.state === 'running')) {
            pending.get(e.p).to = e.k; pending.delete(e.p);
        }
        for (const p of e.starts || []) run.arrows.push({ from: e.k, to: run.own[p] ? run.own[p].find(k => k > e.k) ?? -1 : -1, p, what: 'start' });
    }
}
// For each processor, from which event on it is none, run, wait or spin, in kernel or user mode, and whether in a trap's handler.
function findStates(run) {
    run.states = run.own.map((_, p) => [{ k: -1, kind: p === 0 || run.first ? 'run' : 'none', user: false, trap: false }]);
    const change = (p, k, kind, user, trap) => {
        const list = run.states[p], old = list[list.length - 1];
        if (kind !== old.kind || user !== old.user || trap !== old.trap) list.push({ k, kind, user, trap });
    };
    const last = p => run.states[p][run.states[p].length - 1];
    for (const e of run.events) {
        if (e.starts) for (const p of e.starts) change(p, e.k, 'run', last(p).user, last(p).trap);
        if (e.kind !== 's') continue;
        const waits = e.state ? e.state === 'waiting' : e.idle, kind = waits ? (last(e.p).kind === 'none' ? 'none' : 'wait') : run.foldOf[e.k] >= 0 ? 'spin' : 'run';
        change(e.p, e.k, kind, e.trap ? false : e.user, e.trap ? true : e.word === RFE ? false : last(e.p).trap);
    }
}
function stateAt(run, p, k) {
    const list = run.states[p]; let lo = 0, hi = list.length; while (lo < hi) { const mid = lo + hi >> 1; if (list[mid].k <= k) lo = mid + 1; else hi = mid; }
    return list[Math.max(0, lo - 1)];
}
// A lane for each of the six shared words with the most accesses, and for watched words, by address.
function chooseLanes(run) {
    const busy = [...run.shared].sort((a, b) => b.loads + b.stores - a.loads - a.stores).slice(0, LANES).map(w => w.a);
    const wanted = new Set([...busy, ...watched.map(w => physicalOf(run, w)).filter(a => a !== null && run.words.has(a))]);
    run.lanes = [...wanted].sort((a, b) => a - b).slice(0, LANES + 4).map((a, i) => ({ a, letter: String.fromCharCode(65 + i), colour: i % COLOURS }));
    run.laneOf = new Map(run.lanes.map(l => [l.a, l]));
}
const physicalOf = (run, text) => { const at = run.addressOf(text); return at === null ? null : (at >>> 30 === 2 ? at & 0x1ffffffc : at & ~3) >>> 0; };
const nameOf = (run, a) => {
    const l = run.laneOf.get(a), s = run.symbols.find(s => (s.at & 0x1fffffff) === a);
    return (l ? l.letter + ' ' : '') + `[${hex(a)}]` + (s ? ' ' + escape(s.name) : '');
};
// A ring of processors that spin at the end, each on a word that the next one stored last.
function deadlock(run) {
    const waitsFor = run.own.map((own, p) => {
        const fold = run.folds[run.foldOf[own[own.length - 1]]];
        const l = fold && fold.until < 0 ? fold.loads.find(l => l.from >= 0 && run.events[l.from].p !== p) : undefined;
        return l && [p, run.events[l.from].p, l.a];
    });
    for (let p = 0; p < waitsFor.length; p++) {
        const ring = [];
        for (let q = p; waitsFor[q] && ring.length <= waitsFor.length; q = waitsFor[q][1]) { if (q === p && ring.length) return ring; ring.push(waitsFor[q]); }
    }
    return null;
}
// What ended the run, and why: the text over the drawing.
function verdict(run) {
    if (!run.events.length) return { kind: '', html: 'No events. Assemble and run, or open a trace.' };
    const by = e => `processor ${e.p}`, wrong = run.stop !== 'off' && run.stop !== 'hand', out = [];
    if (run.stop === 'off') out.push(`<b class="ok">Off</b> at ${linkTo(run.last)}: the kernel switched the machine off.`);
    else if (run.stop === 'stuck') out.push(`<b class="warn">Stuck</b> after ${linkTo(run.last)}: no processor can go on, and nothing will wake one.`);
    else if (run.stop === 'hand') out.push(`<b>By hand</b>: ${count(run.events.length)} events. The digits step a processor, Go on goes on in turns.`);
    else out.push(`<b class="warn">Not over</b> after ${count(run.events.length)} events${run.stop && run.stop !== 'end' ? ` (${escape(run.stop)})` : ''}.`);
    for (const o of run.over.slice(0, 3))
        out.push(`<b class="warn">⚠ Stale store</b> ${linkTo(o.k)}: processor ${o.p} stores ${nameOf(run, o.a)} = ${short(run.events[o.k].store.v)}`
            + ` from its load ${linkTo(o.load)}, over ${by(run.events[o.lost])}'s store ${linkTo(o.lost)}, which it hasn't seen.`);
    if (run.over.length > 3) out.push(`and ${run.over.length - 3} more stale stores`);
    for (const u of run.unseen.slice(0, 2)) {
        const e = run.events[u.lost];
        out.push(`<b class="warn">⚠ Never seen</b> ${linkTo(e.k)}: ${by(e)} stores ${nameOf(run, u.a)} = ${short(e.store.v)};`
            + ` processor ${u.p}'s last load, ${linkTo(u.load)}, gave ${short(run.events[u.load].load.v)}.`);
    }
    const ring = wrong && deadlock(run), waits = ([p, q, a]) => `processor ${p} waits for ${nameOf(run, a)}, which processor ${q} has stored`;
    if (ring) out.push(`<b class="warn">⚠ Deadlock</b>: ${ring.map(waits).join('; ')}; each of them spins.`);
    if (wrong) run.own.forEach((own, p) => {
        const k = own[own.length - 1]; if (k === undefined) { out.push(`Processor ${p} was never started.`); return; }
        const s = stateAt(run, p, run.last), fold = run.folds[run.foldOf[k]];
        if (s.kind === 'wait') out.push(`Processor ${p} waits since ${linkTo(s.k)}, at ${escape(run.label(run.events[k].pc))}.`);
        else if (s.kind === 'spin' && fold)
            out.push(`Processor ${p} spins since ${linkTo(fold.first)} at ${escape(run.label(run.events[fold.first].pc))}, × ${count(fold.times)}`
                + fold.loads.slice(0, 2).map(l => `, where ${nameOf(run, l.a)} is ${short(l.v)}`
                + (l.from >= 0 ? `, stored by ${by(run.events[l.from])} at ${linkTo(l.from)}` : '')).join('') + '.');
        else out.push(`Processor ${p} is at ${escape(run.label(run.events[k].pc))}.`);
    });
    return { kind: wrong || run.over.length ? 'wrong' : run.stop === 'hand' ? '' : 'fine', html: out.map(x => `<div>${x}</div>`).join('') };
}
