// ---- The selected event, registers, words, TLB, watches, console

let related = new Set(), path = null, tab = 'regs';
// The events whose value the selected one sees, or that see its value; and that value's part of the lane.
function relate() {
    related = new Set(); path = null; const e = run.events[sel]; if (!e) return; related.add(sel);
    if (e.over) { related.add(e.over.load); related.add(e.over.lost); }
    if (e.store) {
        const w = run.words.get(e.store.a); let to = sel;
        for (const k of w.ks.slice(w.ks.indexOf(sel) + 1)) {
            if (run.events[k].load && run.events[k].load.from === sel) { related.add(k); to = k; }
            if (run.events[k].store) break;
        }
        path = { a: e.store.a, from: sel, to };
    } else if (e.load) { if (e.load.from >= 0) related.add(e.load.from); path = { a: e.load.a, from: e.load.from, to: sel }; }
}
function explain(e) {
    const by = k => `${linkTo(k)} (processor ${run.events[k].p})`, out = [];
    if (e.kind === 'k') return 'A byte is typed at the console.'; if (e.kind === 'o') return 'The console has sent the byte in its latch.';
    if (e.load) out.push(`Loads <b>${short(e.load.v)}</b> from ${nameOf(run, e.load.a)}, ` + (e.load.from < 0 ? 'which nobody has stored to.' : `stored at ${by(e.load.from)}.`));
    if (e.store) {
        const w = run.words.get(e.store.a), seen = w.ks.filter(k => run.events[k].load && run.events[k].load.from === e.k);
        out.push(`Stores <b>${short(e.store.v)}</b> to ${nameOf(run, e.store.a)}, which had ${short(e.store.was)}`
            + (e.store.before >= 0 ? ` from ${by(e.store.before)}` : '') + '. '
            + (seen.length ? `Seen by ${seen.slice(0, 4).map(by).join(', ')}${seen.length > 4 ? ` and ${seen.length - 4} more` : ''}.` : 'No load sees it.'));
    }
    if (e.over) out.push(`<span class="warn">⚠ Processor ${e.p} hadn't seen ${by(e.over.lost)}: its last load was ${linkTo(e.over.load)}.</span>`);
    if (e.failed !== undefined) out.push(`The <code>sc</code> stores nothing to ${nameOf(run, e.failed)}: the link has ended.`);
    if (e.trap) out.push(`Trap ${e.trap.code}, ${TRAPS[e.trap.code]}: goes on at ${hex(e.trap.vector)} in kernel mode, interrupts off.`);
    if (e.state) out.push(e.state === 'waiting' ? 'Waits until an interrupt is up.' : 'Wakes.');
    if (e.ipi) out.push(e.ipi.up ? `Interrupts processor ${e.ipi.to}.` : `Takes the interrupt of processor ${e.ipi.to} back.`);
    if (e.starts) out.push(`Starts processor ${e.starts.join(', ')}.`);
    if (e.off) out.push('Switches the machine off.');
    if (e.idle) out.push('Nothing to do: the processor waits.');
    const op = e.word === null ? 0 : e.word >>> 26, after = run.next[run.next[e.k]] ?? -1;
    if ((op === 1 || op >= 4 && op <= 7) && run.next[e.k] >= 0 && after >= 0 && !e.trap)
        out.push(run.events[after].pc === ((e.pc + 8) >>> 0) ? 'Not taken.' : `Taken, to ${escape(run.label(run.events[after].pc))}.`);
    const fold = run.folds[run.foldOf[e.k]];
    if (fold) out.push(`In a loop that repeats × ${count(fold.times)}, from ${linkTo(fold.first)} to ${linkTo(fold.last)}.`);
    return out.join(' ');
}
const SHOWN = { status: 'Status', cause: 'Cause', epc: 'EPC', badvaddr: 'BadVAddr', entryhi: 'EntryHi', entrylo: 'EntryLo', index: 'Index', context: 'Context' };
function nameOfKey(key) {
    if (key[0] === 'm' && /^m\d+$/.test(key)) return nameOf(run, +key.slice(1));
    const m = /^(\d+)\.(.*)$/.exec(key);
    return m ? (m[1] !== String(run.events[sel].p) ? `P${m[1]} ` : '') + (/^r\d+$/.test(m[2]) ? '$' + m[2].slice(1) : SHOWN[m[2]] || m[2]) : key;
}
const valueOf = v => Array.isArray(v) ? v.map(x => hex(x)).join(' ') : typeof v === 'string' ? v : v === undefined ? '–' : hex(v);
function showDetail() {
    const e = run.events[sel];
    if (!e) { $('detail').innerHTML = '<h2><b>Before the first event</b></h2>Click an event, or press the right arrow.'; return; }
    const line = run.lines ? run.lines.get(e.pc) : undefined;
    const source = line === undefined ? '' : $('source').value.split('\n')[line].trim().replace(/\s+/g, ' ');
    const place = e.p < 0 ? 'the console' : `processor ${e.p}, ${e.user ? 'user' : 'kernel'} mode, ${escape(run.label(e.pc))}`;
    let out = `<h2><b>#${number(e.k)}</b> ${place}</h2>`;
    if (e.p >= 0) out += `<pre>${hex(e.pc)} ${e.word === null ? '-' : hex(e.word)} <b>${escape(e.text)}</b>`
        + (source ? `\n<span class="soft">line ${line + 1}: ${escape(source)}</span>` : '') + '</pre>';
    out += `<div>${explain(e)}</div>`;
    const changed = run.changes[sel].filter(c => !(e.starts && /^\d+\.r/.test(c[0])));
    if (changed.length) out += '<table><tr><th>changed<th>before<th>after</tr>' + changed.map(([key, was, is]) =>
        `<tr><td>${nameOfKey(key)}<td>${valueOf(was ?? (e.store && key === 'm' + e.store.a ? e.store.was : was))}<td class="changed">${valueOf(is)}`).join('') + '</table>';
    $('detail').innerHTML = out;
}
function showWords() {
    const shown = run.lanes, more = run.shared.length > shown.length ? ` (${shown.length} of ${run.shared.length}; watch one to add it)` : '';
    let rest = '';
    for (const l of shown) {
        const w = run.words.get(l.a), before = w.ks.findLastIndex(k => k <= sel);
        const last = what => { for (let i = before; i >= 0; i--) { const it = run.events[w.ks[i]][what]; if (it && it.a === l.a) return w.ks[i]; } };
        const store = last('store'), load = last('load');
        const who = k => k === undefined ? '–' : `P${run.events[k].p} ${linkTo(k)}`, chip = `background:var(--w${l.colour});color:var(--t${l.colour})`;
        rest += `<tr class="${store !== undefined && store === sel ? 'hit' : ''}"><td><span class="chip" style="${chip}">${l.letter}</span> ${hex(l.a)}`
            + `<td>${valueOf(run.word(l.a))}<td>${who(store)}<td>${who(load)}`;
    }
    $('words').innerHTML = `<h2>Shared words, ${after()}${more}</h2>` + (shown.length
        ? '<table><tr><th>word<th>has<th>last store<th>last load</tr>' + rest + '</table>' : 'No word is loaded and stored by two processors.');
}
const after = () => sel < 0 ? 'after boot' : `after #${number(sel)}`;

// ---- The tabs: of the machine itself where it is there, and else what the lines tell

const CONTROLS = ['status', 'cause', 'epc', 'badvaddr', 'entryhi', 'entrylo', 'index', 'context', 'compare'];
const NARROW = { status: 'stat', cause: 'caus', badvaddr: 'badv', entryhi: 'ehi', entrylo: 'elo', index: 'idx', context: 'ctx', compare: 'cmp' };
const isView = () => view !== null && view.k === sel && run.file !== null;
const source = () => `<div class="soft">${isView() ? 'The machine’s own' : 'As the lines tell it'}, ${after()}.</div>`;
let zeros = false;
// A processor's registers by their names, 0 left out, unless they are wanted or have just changed.
function registersOf(p) {
    const it = isView() ? view.processors[p] : null, of = name => run.get(`${p}.${name}`);
    const list = Array.from({ length: 31 }, (_, r) => ['r' + (r + 1), it ? it.registers[r + 1] : of('r' + (r + 1))]);
    list.push(['hi', it ? it.hi : of('hi')], ['lo', it ? it.lo : of('lo')]);
    for (const name of CONTROLS) list.push([name, it ? it.control[name] : of(name)]);
    list.push(['link', it ? it.link ?? undefined : of('link')]);
    return list;
}
function headOf(p) {
    const it = isView() ? view.processors[p] : null, state = it ? it.state : run.get(p + '.state') || 'not started', next = nextOf(p, sel);
    const status = it ? it.control.status : run.get(p + '.status'), at = it ? it.pc : next < 0 ? undefined : run.events[next].pc;
    const mode = state === 'stopped' || status === undefined ? '' : `, ${status & 2 ? 'user' : 'kernel'}, interrupts ${status & 1 ? 'on' : 'off'}`;
    return `<h2><b>Processor ${p}</b> ${state}${state === 'stopped' || at === undefined ? '' : `, at ${escape(run.label(at))}`}${mode}${it ? `, ${count(it.count)} Steps` : ''}</h2>`;
}
function showRegisters() {
    const changed = new Set(sel < 0 ? [] : run.changes[sel].map(c => c[0])); let out = '<div id="regs">';
    for (let p = 0; p < run.processors; p++) {
        out += headOf(p);
        for (const [key, v] of registersOf(p)) {
            const hit = changed.has(p + '.' + key);
            if (v === undefined || v === 0 && !hit && !zeros) continue;
            out += `<code class="${hit ? 'changed' : ''}">${(/^r\d/.test(key) ? '$' + key.slice(1) : NARROW[key] || key).padEnd(5)}${hex(v)}</code>`;
        }
    }
    $('tabs').innerHTML = out + `</div><label class="soft"><input type="checkbox" id="zeros" ${zeros ? 'checked' : ''}> also registers with 0</label>` + source();
    $('zeros').onchange = ev => { zeros = ev.target.checked; showTab(); };
}
function rowsOf(p) {
    if (isView()) return view.processors[p].rows;
    return Array.from({ length: 64 }, (_, i) => [i, run.get(`${p}.tlb${i}`)]).filter(([, r]) => r).map(([i, r]) => [i, ...r]);
}
function showTlb() {
    const bits = low => [...'NDVG'].map((c, b) => low & (0x800 >> b) ? c : '-').join(''), touched = new Set(sel < 0 ? [] : run.changes[sel].map(c => c[0]));
    let out = '';
    for (let p = 0; p < run.processors; p++) for (const [i, high, low] of rowsOf(p))
        out += `<tr class="${touched.has(`${p}.tlb${i}`) ? 'hit' : ''}"><td>P${p}<td>${i}<td>${hex(high >>> 12, 5)}<td>${high >>> 6 & 63}<td>${hex(low >>> 12, 5)}<td>${bits(low)}`;
    $('tabs').innerHTML = (out ? '<table><tr><th><th>row<th>page<th>space<th>frame<th>bits</tr>' + out + '</table>' : 'No row of a TLB is in use.') + source();
}
// 16 lines of four words of RAM, with their letters.
function showMemory() {
    const own = isView() && view.at === memoryAt, e = run.events[sel] || {};
    let out = '';
    for (let line = 0; line < 16; line++) {
        let text = '', letters = '';
        for (let i = 0; i < 4; i++) {
            const a = memoryAt + 16 * line + 4 * i, v = own ? view.words[4 * line + i] ?? undefined : run.word(a), hit = e.store && e.store.a === a, lane = run.laneOf.get(a);
            const style = lane ? ` style="box-shadow:inset 0 -2px var(--w${lane.colour})" title="word ${lane.letter}"` : '';
            text += `<td class="${hit ? 'changed' : ''}"${style}>${v === undefined ? '········' : hex(v)}`;
            for (let b = 24; b >= 0; b -= 8) { const c = v === undefined ? 0 : v >>> b & 255; letters += c > 32 && c < 127 ? String.fromCharCode(c) : '·'; }
        }
        out += `<tr><th>${hex(memoryAt + 16 * line, 6)}${text}<td class="letters">${escape(letters)}`;
    }
    $('tabs').innerHTML = '<form class="row"><input id="address" class="grow mono" placeholder="address or label" aria-label="Memory from this address or label on"><button>Show</button>'
        + '<button type="button" data-page="-256" title="256 bytes before" aria-label="256 bytes before">▲</button><button type="button" data-page="256" title="256 bytes on" aria-label="256 bytes on">▼</button></form>'
        + '<table class="memory">' + out + '</table>' + source();
    $('tabs').querySelector('form').onsubmit = ev => {
        ev.preventDefault();
        const a = physicalOf(run, $('address').value.trim());
        if (a === null) { sayFault('There is no such label or address.'); return; }
        goToMemory(a); $('address').focus();
    };
}
function goToMemory(a) { memoryAt = Math.max(0, Math.min(0x1fffff00, (a & ~15) >>> 0)); setTab('memory'); askView(); }
function showWatch() {
    const touched = new Map((sel < 0 ? [] : run.changes[sel]).map(c => [c[0], c]));
    const list = watched.map((w, i) => {
        const a = physicalOf(run, w), c = touched.get('m' + a), was = c ? valueOf(c[1] ?? (run.events[sel].store || {}).was) + ' → ' : '';
        return `<tr class="${c ? 'hit' : ''}"><td>${escape(w)}<td>${a === null ? 'no such label' : was + valueOf(run.word(a))}`
            + `<td><button data-drop="${i}" title="Drop" aria-label="Drop ${escape(w)}">×</button>`;
    });
    $('tabs').innerHTML = '<form class="row"><input id="watch" class="grow mono" placeholder="label or address" aria-label="Watch a label or an address">'
        + '<button>Watch</button></form><table>' + list.join('') + '</table>' + (list.length ? '' : '<div class="soft">A watched word gets a lane of its own, if a Step loads or stores it.</div>');
    $('tabs').querySelector('form').onsubmit = ev => {
        ev.preventDefault();
        const w = $('watch').value.trim();
        if (w) { watched.push(w); refresh(); $('watch').focus(); }
    };
}
const TABS = { regs: showRegisters, memory: showMemory, tlb: showTlb, watch: showWatch };
function showTab() {
    const top = $('tabs').scrollTop, held = document.activeElement && $('tabs').contains(document.activeElement) && document.activeElement.id, typed = held && $(held).value;
    run.goTo(sel); TABS[tab](); $('tabs').scrollTop = top;
    if (held && $(held)) { $(held).focus(); if (typed) $(held).value = typed; }
    for (const b of document.querySelectorAll('[data-tab]')) b.setAttribute('aria-pressed', b.dataset.tab === tab);
}
function setTab(t) { tab = t; showTab(); }

// ---- Selecting, and showing a run

function showState() {
    run.goTo(sel); showDetail(); showWords();
    if (!run.file || !machine.isThere) showTab(); // else once the machine has answered
    $('console').textContent = run.output(); $('console').scrollTop = 1e6; markLines();
}
function select(k, follow = true) {
    sel = Math.max(-1, Math.min(run.last, k)); relate(); showState(); askView();
    if (follow) {
        const y = sel < 0 ? 0 : rowOf[sel] * ROW * zoom, s = $('scroll');
        if (y < s.scrollTop + ROW || y > s.scrollTop + s.clientHeight - 3 * ROW * zoom) s.scrollTop = Math.max(0, y - s.clientHeight / 2.5);
    }
    drawSoon();
}
function refresh() { chooseLanes(run); makeRows(); settle(); }
function settle() {
    search(); mapImage = null; select(sel);
    for (const b of document.querySelectorAll('[data-level]')) b.setAttribute('aria-pressed', +b.dataset.level === level);
}
// Shows a run, with event k selected, or what is suspicious in it.
async function show(fresh, k) {
    await analyse(fresh);
    run = fresh; opened = new Set(); view = null;
    const v = verdict(run);
    $('verdict').className = 'panel ' + v.kind; $('verdict').innerHTML = v.html;
    sel = k ?? (run.over.length ? run.over[0].k : run.unseen.length ? run.unseen[0].load : -1);
    if (run.lanes.length) memoryAt = run.lanes[0].a & ~15;
    Object.assign(document.body.dataset,
        { events: run.events.length, stop: run.stop, mismatches: run.mismatches, stale: run.over.length, folds: run.folds.length });
    if (k === undefined) $('scroll').scrollTop = 0;
    chooseLanes(run); makeRows();
    await breathe();
    if (run === fresh) { settle(); byMachine(); }
}
// What needs the machine, and a run that it has.
function byMachine() {
    const has = machine.isThere && run.file !== null;
    $('same').textContent = has ? 'The same run: ' + commandOf(run.base) : '';
    $('more').disabled = !has || run.stop === 'off' || run.stop === 'stuck' || run.events.length >= MOST;
    for (const id of ['assemble', 'hunt']) $(id).disabled = !machine.isThere;
    for (const id of ['put', 'key', 'sent']) $(id).disabled = !has;
}
