// ---- Search over the events

let matches = [], match = -1, found = new Set();
function search() {
    const q = $('find').value.trim(), low = q.toLowerCase(), at = run.addressOf(q), place = at === null ? null : physicalOf(run, q);
    const symbol = run.symbols.some(s => s.name === q);
    const touches = e => e.pc === at || e.load && e.load.a === place || e.store && e.store.a === place;
    const fits = e => symbol ? e.p >= 0 && run.label(e.pc).split('+')[0] === q
        : at !== null && touches(e) || e.line.toLowerCase().includes(low) || e.p >= 0 && run.label(e.pc).includes(q);
    matches = q ? run.events.filter(fits).map(e => e.k) : []; match = -1; found = new Set(matches);
    $('found').textContent = q ? `${count(matches.length)} found` : '';
}
function toMatch(d) {
    if (!matches.length) return; const i = d > 0 ? matches.findIndex(k => k > sel) : matches.findLastIndex(k => k < sel);
    match = i < 0 ? (d > 0 ? 0 : matches.length - 1) : i; $('found').textContent = `${match + 1} of ${count(matches.length)}`; select(matches[match]);
}

// ---- The editor

let fault = null; // { line, column }, both from 1, where a text can't be assembled
function markFault(it) {
    fault = it; markLines();
    if (!it) return;
    const lines = $('source').value.split('\n'), start = lines.slice(0, it.line - 1).reduce((n, s) => n + s.length + 1, 0) + it.column - 1;
    $('source').scrollTop = Math.max(0, (it.line - 5) * 16); $('source').focus(); $('source').setSelectionRange(start, start); scrollEditor();
}
// The column on the screen, where a tab goes to the next multiple of 8.
function screenColumn(text, column) {
    let at = 0;
    for (const c of text.slice(0, column - 1)) at = c === '\t' ? at - at % 8 + 8 : at + 1;
    return at;
}
const isItsSource = () => run.lines && $('source').value === run.base.source;
function markLines() {
    const lines = $('source').value.split('\n'), at = new Map(), its = isItsSource(), e = run.events[sel] || {};
    if (its) for (let p = 0; p < run.processors; p++) {
        const k = p === e.p ? sel : lastOf(p, sel), l = k < 0 ? undefined : run.lines.get(run.events[k].pc);
        if (l !== undefined) at.set(l, (at.get(l) || '') + p);
    }
    const kind = i => fault && fault.line === i + 1 ? 'bad' : at.has(i) ? 'at' : '';
    $('gutter').innerHTML = lines.map((_, i) => `<div class="${kind(i)}">${at.has(i) ? at.get(i) + '▸' : ''}${i + 1}</div>`).join('');
    const mine = its ? run.lines.get(e.pc) : undefined, band = mine === undefined ? '' : `<div style="top:${mine * 16}px"></div>`;
    const column = fault ? screenColumn(lines[fault.line - 1] || '', fault.column) : 0, top = fault ? (fault.line - 1) * 16 : 0;
    $('bands').innerHTML = band + (fault ? `<div class="bad" style="top:${top}px"></div><div class="caret" style="top:${top}px;left:calc(4px + ${column}ch)"></div>` : '');
    const s = $('source');
    if (mine !== undefined && document.activeElement !== s && (mine * 16 < s.scrollTop || mine * 16 > s.scrollTop + s.clientHeight - 32))
        s.scrollTop = mine * 16 - s.clientHeight / 2;
    scrollEditor();
}
// The last Step of a processor up to event k; -1 for none.
function lastOf(p, k) {
    const own = run.own[p] || []; let lo = 0, hi = own.length;
    while (lo < hi) { const mid = lo + hi >> 1; if (own[mid] <= k) lo = mid + 1; else hi = mid; }
    return lo ? own[lo - 1] : -1;
}
function nextOf(p, k) {
    const own = run.own[p] || []; let lo = 0, hi = own.length;
    while (lo < hi) { const mid = lo + hi >> 1; if (own[mid] <= k) lo = mid + 1; else hi = mid; }
    return lo < own.length ? own[lo] : -1;
}
function scrollEditor() { const s = $('source'); $('gutter').scrollTop = s.scrollTop; $('bands').style.transform = `translate(${-s.scrollLeft}px, ${-s.scrollTop}px)`; }
function orderChanged() {
    const o = $('order').value;
    $('schedule').hidden = o !== 'schedule'; $('number').hidden = o === 'schedule'; $('stretches').hidden = o !== 'priorities';
}
// A text in the editor is the kernel again, in the place of an opened file.
function setSource(text, note) {
    elf = null; fault = null; $('source').readOnly = false; $('source').value = text; $('note').textContent = note; watched = []; sayHunt(''); hunted = 0;
}
const firstExample = () => EXAMPLES.findIndex(x => x.name === 'lost-update');
function choose(i) {
    const x = EXAMPLES[i];
    if (!x) return;
    setSource(x.source, x.note); $('example').value = i;
    const set = { cpus: x.processors, order: 'turns', number: 1, keys: '', limit: 2000, ram: 65536, unit: 'word' };
    for (const [id, value] of Object.entries(set)) $(id).value = value;
    orderChanged(); return assembleAndRun(undefined, undefined, x.name);
}
