// ---- The map: the whole run sideways, a lane for each processor, ticks for shared words

// The colours of these names as they are now, asked for at once.
function colours(names) {
    const dots = names.map(name => { const d = document.createElement('i'); d.style.color = `var(--${name})`; return d; });
    document.body.append(...dots);
    const out = Object.fromEntries(names.map((name, i) => [name, getComputedStyle(dots[i]).color]));
    for (const d of dots) d.remove();
    return out;
}
const colour = name => colours([name])[name];
let palette = {}, mapImage = null;
const WORDS = ['w0', 'w1', 'w2', 'w3', 'w4', 'w5'];
function paintMap() {
    const c = document.createElement('canvas'), n = Math.max(1, run.events.length), w = $('map').clientWidth * 2, h = 92;
    c.width = w; c.height = h;
    const x = c.getContext('2d'), lane = Math.min(26, 60 / run.processors), X = k => k / n * w;
    palette = colours('none wait spin accent warn trap user ink dim line w0 w1 w2 w3 w4 w5'.split(' '));
    run.own.forEach((own, p) => {
        const y = 4 + p * lane, drawn = new Int32Array(20).fill(-1);
        run.states[p].forEach((s, i) => {
            const to = run.states[p][i + 1] ? run.states[p][i + 1].k : n;
            if (s.kind !== 'run') { x.fillStyle = palette[s.kind]; x.fillRect(X(Math.max(0, s.k)), y, Math.max(1, X(to) - X(Math.max(0, s.k))), lane - 3); }
        });
        // of the events at one point of the map, one of each kind is drawn
        const tick = (k, kind, name, top, height, least) => {
            const at = Math.floor(X(k));
            if (drawn[kind] === at) return;
            drawn[kind] = at; x.fillStyle = palette[name]; x.fillRect(X(k), top, Math.max(least, w / n - 1), height);
        };
        for (const k of own) {
            const e = run.events[k], access = e.store || e.load, l = access && run.laneOf.get(access.a), alone = run.foldOf[k] < 0;
            if (alone && !e.idle) tick(k, 0, 'dim', y + lane / 2 - 3, 4, 1);
            if (l && alone) tick(k, (e.store ? 2 : 10) + l.colour, WORDS[l.colour], y, e.store ? lane - 3 : (lane - 3) / 2, 2);
            if (e.trap) tick(k, 1, 'trap', y, lane - 3, 2);
        }
    });
    x.fillStyle = palette.warn;
    let marked = -9;
    for (const o of run.over) {
        if (X(o.k) < marked + 2) continue;
        marked = X(o.k); x.beginPath(); x.moveTo(X(o.k) - 7, 92); x.lineTo(X(o.k) + 9, 92); x.lineTo(X(o.k) + 1, 76); x.fill();
    }
    x.fillStyle = palette.accent; for (const k of matches) x.fillRect(X(k), 66, 3, 10); mapImage = c;
}
function drawMap() {
    const c = $('map'), x = c.getContext('2d'); if (!mapImage || mapImage.width !== c.clientWidth * 2) paintMap();
    c.width = mapImage.width; c.height = mapImage.height; x.drawImage(mapImage, 0, 0);
    if (!rows.length) return;
    const n = Math.max(1, run.events.length), X = k => k / n * c.width;
    const from = Math.floor(scrolled() / ROW),
        to = Math.min(rows.length - 1, Math.ceil((scrolled() + $('scroll').clientHeight / zoom) / ROW)),
        a = X(rows[Math.min(from, rows.length - 1)].k), b = X(to + 1 < rows.length ? rows[to + 1].k : n);
    x.strokeStyle = palette.ink; x.lineWidth = 3;
    if (b - a < c.width - 4) x.strokeRect(a + 1, 1, Math.max(6, b - a - 2), 90);
    if (sel >= 0) { x.fillStyle = palette.accent; x.fillRect(X(sel), 0, 4, 92); }
}

