// ---- Rows: which events have one, and which are folded

let level = 2, rows = [], rowOf = new Int32Array(0), opened = new Set();
const isShared = e => e.load !== undefined && run.laneOf.has(e.load.a) || e.store !== undefined && run.laneOf.has(e.store.a)
    || e.failed !== undefined && run.laneOf.has(e.failed);
function makeRows() {
    rows = []; rowOf = new Int32Array(run.events.length); let quiet = [];
    const flush = () => {
        const folded = quiet.length > 1 && !(opened.size && opened.has('q' + quiet[0]));
        for (const k of quiet) { rowOf[k] = rows.length; if (!folded) rows.push({ kind: 'event', k, of: quiet.length > 1 ? 'q' + quiet[0] : '' }); }
        if (folded) rows.push({ kind: 'quiet', k: quiet[0], ks: quiet });
        quiet = [];
    };
    const foldRow = new Int32Array(run.folds.length).fill(-1);
    for (const e of run.events) {
        const fold = level && run.foldOf[e.k] >= 0 ? run.folds[run.foldOf[e.k]] : undefined;
        if (fold && !(opened.size && opened.has('f' + fold.first))) {
            if (foldRow[fold.id] < 0) { flush(); foldRow[fold.id] = rows.length; rows.push({ kind: 'fold', k: fold.first, fold }); }
            rowOf[e.k] = foldRow[fold.id];
        } else if (level === 2 && e.kind === 's' && !e.loud && !isShared(e)) quiet.push(e.k);
        else { flush(); rowOf[e.k] = rows.length; rows.push({ kind: 'event', k: e.k, of: fold ? 'f' + fold.first : '' }); }
    }
    flush(); $('tall').style.height = (rows.length + 2) * ROW * zoom + 'px';
}

// ---- The drawing

const ROW = 20, GUTTER = 46, LANE = 50, CHAR = 6.95;
let zoom = 1; // of the drawing: its coordinates are those of the screen over this
// Columns share the width; one without events is narrow. The lanes of the shared words stand in the middle.
function geometry() {
    const width = $('scroll').clientWidth / zoom, n = run.processors, lanes = run.lanes.length, half = Math.ceil(n / 2);
    const lane = lanes > 4 && n < 4 ? 42 : lanes * LANE > width / 3 ? width / 3 / lanes : LANE,
        empty = p => n > 2 && !run.own[p].length, busy = Math.max(1, [...Array(n).keys()].filter(p => !empty(p)).length);
    const wide = (width - GUTTER - lanes * lane - 4 - (n - busy) * 34) / busy, starts = []; let at = GUTTER;
    for (let p = 0; p < n; p++) { if (p === half) at += lanes * lane; starts.push(at); at += empty(p) ? 34 : wide; }
    const w = p => empty(p) ? 34 : wide, x = p => starts[p], left = half < 1 ? GUTTER : x(half - 1) + w(half - 1);
    return { width, lane, half, w, x, left, right: left + lanes * lane, laneX: i => left + (i + .5) * lane, chars: p => Math.floor((w(p) - 14) / CHAR) };
}
function textOf(e) {
    if (e.kind === 'k') return `key ${hex(e.key, 2)}`;
    if (e.kind === 'o') return `console sends ${e.sent === undefined ? 'a byte' : e.sent === 10 ? '\\n' : JSON.stringify(String.fromCharCode(e.sent))}`;
    if (e.trap && e.word === null) return `↯ ${TRAPS[e.trap.code] || 'trap ' + e.trap.code}`;
    // a branch or a jump goes to a label, where the kernel has one
    const text = e.text.replace(/0x([89][0-9a-f]{7})(?: <([^>]*)>)?$/, (all, at, name) => name || run.label(parseInt(at, 16)).replace(/^[0-9a-f]{8}$/, '0x$&'));
    return (e.idle ? 'idle' : text) + (e.trap ? ` ↯ ${TRAPS[e.trap.code]}` : '') + (e.failed !== undefined ? ' ✗ fails' : '') + (e.off ? ' → off' : '')
        + (e.ipi ? (e.ipi.up ? ` → IPI to ${e.ipi.to}` : ' → IPI back') : '') + (e.starts ? ' → starts ' + e.starts.join(', ') : '');
}
// What a Step that is no load leaves in its register, behind its text.
function resultOf(e) {
    if (e.load || e.trap || e.store) return '';
    const c = run.changes[e.k].find(c => /^\d+\.r\d/.test(c[0]) && !e.starts);
    return c && c[2] !== undefined ? ' → ' + short(c[2]) : '';
}
// Runs of rows with the same colour, for the shading of a column.
function shading(p, from, to, g) {
    let out = '', start = from;
    const kindOf = r => { const s = stateAt(run, p, rows[Math.min(r, rows.length - 1)].k); return s.kind + (s.user ? ' user' : '') + (s.trap ? ' trap' : ''); };
    for (let r = from + 1, kind = rows.length ? kindOf(from) : 'run'; r <= to; r++) {
        const now = r < to ? kindOf(r) : ''; if (now === kind) continue;
        const [name] = kind.split(' '), y = start * ROW - scrolled(), h = (r - start) * ROW;
        if (name !== 'run') out += `<rect x="${g.x(p)}" y="${y}" width="${g.w(p)}" height="${h}" fill="var(--${name})"/>`;
        if (kind.includes('user')) out += `<rect x="${g.x(p)}" y="${y}" width="4" height="${h}" fill="var(--user)"/>`;
        else if (kind.includes('trap')) out += `<rect x="${g.x(p)}" y="${y}" width="4" height="${h}" fill="var(--trap)"/>`;
        const word = { spin: 'spins', wait: 'waits', none: 'not started' }[name];
        if (word && h >= ROW * 2 && g.w(p) > 60)
            for (let yy = Math.max(y, 0) + 34; yy < y + h && yy < 4000; yy += 120)
                out += `<text class="dim small" x="${g.x(p) + g.w(p) - 8}" y="${yy}" text-anchor="end">${word}</text>`;
        start = r; kind = now;
    }
    return out;
}
const scrolled = () => $('scroll').scrollTop / zoom;
const yOf = k => k < 0 ? -40 : rowOf[k] * ROW + ROW / 2 - scrolled();
function drawCell(r, row, g) {
    const e = run.events[row.k], y = r * ROW - scrolled() + 14, cut = (s, n) => escape(s.length > n ? s.slice(0, Math.max(1, n - 1)) + '…' : s);
    if (row.kind === 'quiet') {
        let out = `<text class="dim small" x="${GUTTER - 6}" y="${y}" text-anchor="end">+${row.ks.length}</text>`;
        for (let p = 0; p < run.processors; p++) {
            const ks = row.ks.filter(k => run.events[k].p === p);
            if (!ks.length) continue;
            const alone = ks.length === 1, e = run.events[ks[0]], steps = `▸ ${ks.length} steps `;
            const text = alone ? textOf(e) + resultOf(e) : ks.slice(0, 12).map(k => run.events[k].text.split(' ')[0]).join(' ');
            const all = g.chars(p) >= 30 ? (alone ? run.label(e.pc).slice(0, 9) : steps).padEnd(10) + text : alone ? text : steps;
            out += `<text class="dim" x="${g.x(p) + 9}" y="${y}">${cut(all, g.chars(p))}</text>`;
        }
        return out;
    }
    let out = `<text class="dim" x="${GUTTER - 6}" y="${y}" text-anchor="end">${number(e.k)}</text>`;
    if (e.p < 0)
        return `<rect x="${GUTTER}" y="${y - 13}" width="${g.width}" height="${ROW - 2}" fill="var(--bg)"/>` + out
            + `<text class="sans" x="${GUTTER + 9}" y="${y}">■ ${escape(textOf(e))}</text>`;
    if (row.kind === 'fold') {
        const f = row.fold, what = f.length > 1 ? ` (${f.length} instructions)` : e.idle ? ' waits' : '';
        return out + `<text class="strong" x="${g.x(e.p) + 9}" y="${y}">${cut(`↻ × ${count(f.times)}  ${run.label(e.pc)}${what}`, g.chars(e.p))}</text>`;
    }
    const label = run.label(e.pc), wide = g.chars(e.p) >= 30, space = wide ? 10 : 0, text = textOf(e),
        kind = e.trap ? 'trap' : e.loud || isShared(e) ? '' : 'dim';
    if (row.of) out += `<rect x="${g.x(e.p) + 5}" y="${y - 14}" width="2" height="${ROW}" fill="var(--dim)"/>`;
    const mark = e.over ? '⚠ stale' : run.lostBy.has(e.k) ? '✗ lost' : run.unseen.some(u => u.lost === e.k) ? '⚠ unseen' : '',
        room = g.chars(e.p) - space - mark.length - (mark ? 1 : 0), result = resultOf(e),
        full = result && text.length + result.length <= room ? text + result : text;
    if (mark) out += `<text class="warn" x="${g.x(e.p) + g.w(e.p) - 6}" y="${y}" text-anchor="end">${mark}</text>`;
    if (wide) out += `<text class="dim" x="${g.x(e.p) + 9}" y="${y}">${cut(label, 9)}</text>`;
    return out + `<text class="${kind}" x="${g.x(e.p) + 9 + space * CHAR}" y="${y}">${cut(full, room)}</text>`;
}
// A store is a filled box in its word's lane, a load a round hollow one, each joined to its processor's column.
function drawNode(k, access, what, g) {
    const lane = run.laneOf.get(access.a); if (!lane) return '';
    const e = run.events[k], i = run.lanes.indexOf(lane), x = g.laneX(i), y = yOf(k), c = `var(--w${lane.colour})`, left = e.p < g.half,
        from = left ? g.left : g.right, chosen = related.has(k), store = what === 'store',
        value = what === 'failed' ? '✗' : short(access.v), w = Math.max(18, Math.min(g.lane - 6, value.length * CHAR + 10)),
        end = x + (left ? -w / 2 : w / 2), dir = left ? 1 : -1;
    const lost = store && run.lostBy.has(k), stale = store && e.over;
    let out = `<line x1="${from}" y1="${y}" x2="${end}" y2="${y}" stroke="${c}" stroke-width="${chosen ? 4 : 2}" ${store ? '' : 'stroke-dasharray="4 2"'}/>`;
    out += store ? `<path d="M${end - 6 * dir} ${y - 4} L${end} ${y} L${end - 6 * dir} ${y + 4}z" fill="${c}"/>` : what === 'failed' ? ''
        : `<path d="M${from + 6 * dir} ${y - 4} L${from} ${y} L${from + 6 * dir} ${y + 4}z" fill="${c}"/>`;
    out += `<rect x="${x - w / 2}" y="${y - 8}" width="${w}" height="16" rx="${store ? 2 : 8}" fill="${store ? c : 'var(--panel)'}"`
        + ` stroke="${stale ? 'var(--warn)' : c}" stroke-width="${stale || chosen ? 3 : 1.6}"/>`;
    out += `<text class="strong" x="${x}" y="${y + 4}" text-anchor="middle" style="fill:var(--${store ? 't' + lane.colour : 'ink'})">`
        + escape(value.length * CHAR > g.lane - 6 ? '…' + value.slice(-4) : value) + '</text>';
    if (lost) out += `<text class="warn halo" x="${x + dir * (w / 2 + 3)}" y="${y - 3}" text-anchor="middle">✗</text>`;
    return out;
}
// A word's lane: dotted before its first store, and from then on a line of its colour; thick where the selection's value is.
function drawLane(lane, i, g, height) {
    const x = g.laneX(i), w = run.words.get(lane.a),
        first = w ? w.ks.find(k => run.events[k].store && run.events[k].store.a === lane.a) : undefined,
        y = first === undefined ? height : Math.max(0, Math.min(height, yOf(first))), c = `var(--w${lane.colour})`;
    let out = `<line x1="${x}" y1="0" x2="${x}" y2="${y}" stroke="${c}" stroke-dasharray="2 4"/><line x1="${x}" y1="${y}" x2="${x}" y2="${height}" stroke="${c}" stroke-width="2"/>`;
    if (path && path.a === lane.a)
        out += `<line x1="${x}" y1="${Math.max(-9, yOf(path.from))}" x2="${x}" y2="${Math.min(height + 9, yOf(path.to))}" stroke="${c}" stroke-width="6"/>`;
    return out;
}
// The time in which a processor has an old value: from its load to its stale store, or to the end.
function drawStale(o, g, height) {
    const lane = run.laneOf.get(o.a); if (!lane) return ''; const y1 = yOf(o.load), y2 = yOf(o.k); if (y2 < 0 || y1 > height) return '';
    const side = o.p < g.half ? -1 : 1, x = g.laneX(run.lanes.indexOf(lane)) + side * (g.lane / 2 - 4);
    return `<path d="M${x - side * 6} ${y1 + 9} H${x} V${y2 - 9} H${x - side * 6}" fill="none" stroke="var(--warn)" stroke-width="2.5" stroke-dasharray="5 3"/>`;
}
function drawArrow(a, g, height) {
    const y1 = yOf(a.from), y2 = a.to < 0 ? y1 + 26 : yOf(a.to); if (Math.max(y1, y2) < 0 || Math.min(y1, y2) > height) return '';
    const p = run.events[a.from].p, right = a.p >= p, x1 = right ? g.x(p) + g.w(p) - 6 : g.x(p) + 8,
        x2 = right ? g.x(a.p) + 1 : g.x(a.p) + g.w(a.p) - 1, d = right ? 1 : -1,
        bend = Math.max(14, Math.min(50, Math.abs(x2 - x1) * .6)) * d;
    const line = `<path d="M${x1} ${y1} C${x1 + bend} ${y1} ${x2 - 7 * d - bend} ${y2} ${x2 - 7 * d} ${y2}" fill="none" stroke="var(--trap)"`
        + ` stroke-width="2" ${a.to < 0 ? 'stroke-dasharray="3 3"' : ''}/>`;
    const point = `<path d="M${x2 - 9 * d} ${y2 - 5} L${x2} ${y2} L${x2 - 9 * d} ${y2 + 5}z" fill="var(--trap)"/>`;
    const text = `<text class="trap small halo" x="${x1 + 8 * d}" y="${y1 - 4}" text-anchor="${right ? 'start' : 'end'}">`
        + `${a.what}${a.to < 0 ? ' not taken' : ''}</text>`;
    return line + point + (a.p === p ? '' : text);
}
function drawBody(height) {
    const g = geometry(), from = Math.max(0, Math.floor(scrolled() / ROW)), to = Math.min(rows.length, Math.ceil((scrolled() + height) / ROW) + 1);
    let out = '';
    if (!rows.length) return '';
    const upright = x => `<line x1="${x}" x2="${x}" y1="0" y2="${height}" stroke="var(--line)"/>`;
    for (let p = 0; p < run.processors; p++) out += shading(p, from, to, g) + upright(g.x(p)) + upright(g.x(p) + g.w(p));
    if (sel >= 0)
        out += `<rect id="chosen" x="0" y="${rowOf[sel] * ROW - scrolled()}" width="${g.width}" height="${ROW}" fill="var(--band)" stroke="var(--accent)" stroke-width="1.5"/>`;
    run.lanes.forEach((lane, i) => { out += drawLane(lane, i, g, height); });
    for (let r = from; r < to; r++) {
        const row = rows[r], e = run.events[row.k];
        out += `<g data-row="${r}">` + drawCell(r, row, g);
        if (found.size && (row.ks || [row.k]).some(k => found.has(k)))
            out += `<rect class="match" x="0" y="${r * ROW - scrolled() + 2}" width="5" height="${ROW - 4}" fill="var(--accent)"/>`;
        if (row.kind === 'fold') for (const l of row.fold.loads) out += drawNode(row.k, l, 'load', g);
        else if (row.kind === 'event') {
            if (e.load) out += drawNode(row.k, e.load, 'load', g);
            if (e.store) out += drawNode(row.k, e.store, 'store', g);
            if (e.failed !== undefined) out += drawNode(row.k, { a: e.failed }, 'failed', g);
        }
        out += '</g>';
    }
    const isSeen = (a, b) => rowOf[b] >= from && rowOf[a] <= to; // of what goes from event a to event b
    for (const a of run.arrows) if (isSeen(a.from, Math.max(a.from, a.to)) || isSeen(a.to, a.from)) out += drawArrow(a, g, height);
    for (const o of run.over) if (isSeen(o.load, o.k)) out += drawStale(o, g, height);
    run.unseen.forEach((o, i) => { if (i === 0 || sel === o.load || sel === o.lost) out += drawStale(o, g, height); });
    const end = { off: '■ off', stuck: '■ stuck: no processor can go on', hand: '▸ step on by a digit' }[run.stop]
        || `■ not over after ${count(run.events.length)} events`;
    out += `<text class="${run.stop === 'off' ? 'good' : 'warn'} sans" x="${GUTTER + 9}" y="${rows.length * ROW - scrolled() + 18}">${escape(end)}</text>`;
    return out;
}
function drawHead() {
    const g = geometry(); let out = `<text class="dim small" x="${GUTTER - 6}" y="16" text-anchor="end">event</text>`;
    for (let p = 0; p < run.processors; p++) {
        const s = run.states[p] ? stateAt(run, p, sel) : { kind: 'none' }, x = g.x(p) + 9, narrow = g.w(p) < 60, wide = g.w(p) > 190;
        const words = { none: 'not started', run: 'runs', wait: 'waits', spin: 'spins' }[s.kind]
            + (s.kind === 'none' ? '' : s.user ? ', user mode' : s.trap ? ', in a handler' : ', kernel mode');
        out += `<text class="sans strong" x="${x}" y="15">${wide ? 'Processor ' : 'P'}${p}</text>`;
        if (!narrow) out += `<text class="sans dim" x="${x}" y="31">${words}</text>`;
        if (machine.isThere && run.file && !narrow)
            out += `<text class="sans act" data-step="${p}" x="${x + g.w(p) - 17}" y="15" text-anchor="end">▸ step (${wide ? 'key ' : ''}${p})</text>`;
    }
    run.lanes.forEach((l, i) => {
        const x = g.laneX(i);
        out += `<rect x="${x - 10}" y="3" width="20" height="15" rx="3" fill="var(--w${l.colour})"/>`
            + `<text class="sans strong" x="${x}" y="15" text-anchor="middle" style="fill:var(--t${l.colour})">${l.letter}</text>`
            + `<text class="small" x="${x}" y="31" text-anchor="middle">${l.a.toString(16)}</text>`;
    });
    return out;
}
function draw() {
    const height = $('scroll').clientHeight / zoom, width = $('scroll').clientWidth / zoom;
    for (const [id, h] of [['view', height], ['head', 38]]) {
        $(id).setAttribute('width', width * zoom); $(id).setAttribute('height', h * zoom); $(id).setAttribute('viewBox', `0 0 ${width} ${h}`);
    }
    $('tall').style.marginTop = -height * zoom + 'px'; $('view').innerHTML = drawBody(height); $('head').innerHTML = drawHead(); drawMap();
}
let asked = false; function drawSoon() { if (!asked) { asked = true; requestAnimationFrame(() => { asked = false; draw(); }); } }

