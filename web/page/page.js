// ---- Keys and wiring

const KEYS = {
    'Right, Left': 'next event, event before', 'Down, Up': 'next row, row before', 'Shift+Down, Up': 'next, last event of the same processor',
    'Page Down, Up; Home, End': 'far; start and end', 'Enter': 'opens or closes the fold of the selected row', 'w': 'next ⚠ stale store',
    's': 'from a load to the store it sees; from a store to its first load', '0 to 9': 'a Step of that processor behind the selected event, by hand',
    'g': 'the run goes on', 'e': 'essentials, spins folded, each step', '/; n, N': 'search; next match, match before', 'r, m, t, a': 'registers, memory, TLB, watches',
    'i': 'the memory of the selected load or store', 'Space': 'plays', 'f': 'the drawing alone, larger, for a projector', 'b': 'finds a bad interleaving, or stops that',
    'Ctrl+Enter': 'assembles and runs, also in the source', 'Escape': 'from a field back to the events', '?': 'this help' };
function toggleFold() {
    const row = rows[rowOf[sel]];
    if (!row) return;
    const key = row.of || (row.kind === 'fold' ? 'f' + row.k : row.kind === 'quiet' ? 'q' + row.k : '');
    if (!key) return;
    if (!opened.delete(key)) opened.add(key);
    makeRows(); select(sel);
}
function setLevel(n) { level = n; opened = new Set(); refresh(); }
function byRow(d) {
    if (!rows.length) return;
    const r = sel < 0 ? (d > 0 ? 0 : -1) : rowOf[sel] + d;
    select(r < 0 ? -1 : rows[Math.min(rows.length - 1, r)].k);
}
function byOwn(d) { const e = run.events[sel], own = e && run.own[e.p]; if (own) { const i = own.indexOf(sel) + d; if (own[i] !== undefined) select(own[i]); } }
function along() {
    const e = run.events[sel];
    if (!e) return;
    const seen = e.store ? run.words.get(e.store.a).ks.find(k => k > sel && run.events[k].load && run.events[k].load.from === sel) : e.load ? e.load.from : -1;
    if (seen >= 0) select(seen);
}
let playing = 0;
function play() {
    if (playing) { clearInterval(playing); playing = 0; }
    else { if (sel >= run.last) select(-1); playing = setInterval(() => { if (sel >= run.last) play(); else byRow(1); }, 450); }
    $('play').textContent = playing ? '❚❚ stop' : '▸ play';
}
function nextStale() { if (run.over.length) select((run.over.find(o => o.k > sel) || run.over[0]).k); }
const page = () => Math.max(1, Math.floor($('scroll').clientHeight / zoom / ROW) - 2);
function showAccess() { const e = run.events[sel] || {}, it = e.store || e.load; if (it) goToMemory(it.a); }
const COMMANDS = {
    ArrowRight: () => select(sel + 1), ArrowLeft: () => select(sel - 1), ArrowDown: () => byRow(1), ArrowUp: () => byRow(-1),
    PageDown: () => byRow(page()), PageUp: () => byRow(-Math.min(page(), sel < 0 ? 1 : Math.max(1, rowOf[sel]))),
    Home: () => select(-1), End: () => select(run.last), Enter: toggleFold, s: along, w: nextStale, e: () => setLevel((level + 2) % 3),
    '/': () => $('find').focus(), n: () => toMatch(1), N: () => toMatch(-1), ' ': play, b: () => hunt(), '?': () => $('keysheet').showModal(),
    r: () => setTab('regs'), t: () => setTab('tlb'), m: () => setTab('memory'), a: () => setTab('watch'), i: showAccess, g: goOn, f: setWide };
function setWide() {
    const on = document.body.classList.toggle('wide');
    zoom = on ? 1.4 : 1; $('wide').setAttribute('aria-pressed', on); mapImage = null; makeRows(); select(sel);
}
function onKey(ev) {
    const tag = ev.target.tagName, typing = /^(INPUT|TEXTAREA|SELECT)$/.test(tag), pressing = /^(BUTTON|SUMMARY)$/.test(tag) && /^( |Enter)$/.test(ev.key);
    if (ev.ctrlKey && ev.key === 'Enter') { assembleAndRun(); ev.preventDefault(); return; }
    if (typing && ev.key === 'Escape') { $('scroll').focus(); return; }
    if (typing || pressing || ev.ctrlKey || ev.metaKey || ev.altKey || document.querySelector('dialog[open]')) return;
    if (ev.shiftKey && /^Arrow(Down|Up)$/.test(ev.key)) byOwn(ev.key === 'ArrowDown' ? 1 : -1);
    else if (/^\d$/.test(ev.key)) byHand(0, +ev.key);
    else if (COMMANDS[ev.key]) COMMANDS[ev.key]();
    else return;
    ev.preventDefault();
}
const DATA = {
    k: it => select(+it.k), go: it => COMMANDS[it.go](), level: it => setLevel(+it.level), tab: it => setTab(it.tab), step: it => byHand(0, +it.step),
    drop: it => { watched.splice(+it.drop, 1); refresh(); }, page: it => goToMemory(memoryAt + +it.page), hunt: it => hunt(+it.hunt), found: it => asFound(it.found, it.order) };
function setTheme() {
    const root = document.documentElement, dark = root.style.colorScheme ? root.style.colorScheme === 'dark' : matchMedia('(prefers-color-scheme: dark)').matches;
    root.style.colorScheme = dark ? 'light' : 'dark'; mapImage = null; draw();
}
function wireButtons() {
    const click = (id, f) => { $(id).onclick = f; };
    click('assemble', () => assembleAndRun()); click('more', goOn); click('hunt', () => hunt()); click('play', play); click('link', makeLink);
    click('wide', setWide); click('theme', setTheme); click('help', COMMANDS['?']); click('about', () => $('aboutsheet').showModal()); click('open', () => $('file').click());
    $('export').onchange = ev => { EXPORTS[ev.target.value](); ev.target.value = ''; };
    $('file').onchange = async ev => { const f = ev.target.files[0]; ev.target.value = ''; if (f) openFile(new Uint8Array(await f.arrayBuffer()), f.name); };
    $('type').onsubmit = ev => { ev.preventDefault(); const [byte] = new TextEncoder().encode(unescaped($('key').value)); if (byte !== undefined) byHand(1, byte); };
    click('sent', () => byHand(2, 0));
    for (const sheet of document.querySelectorAll('dialog')) sheet.querySelector('button').onclick = () => sheet.close();
    document.addEventListener('click', ev => {
        for (const name of Object.keys(DATA)) { const hit = ev.target.closest(`[data-${name}]`); if (hit && hit !== document.body) { DATA[name](hit.dataset); return; } }
    });
}
function wireDrawing() {
    $('view').onclick = ev => {
        const r = Math.floor(((ev.clientY - $('view').getBoundingClientRect().top) / zoom + scrolled()) / ROW);
        if (rows[r]) { const again = sel >= 0 && rowOf[sel] === r; select(rows[r].k, false); if (again && rows[r].kind !== 'event') toggleFold(); }
        $('scroll').focus({ preventScroll: true });
    };
    $('scroll').onscroll = drawSoon; new ResizeObserver(() => { mapImage = null; drawSoon(); }).observe($('stage'));
    matchMedia('(prefers-color-scheme: dark)').onchange = () => { mapImage = null; drawSoon(); };
    const seek = ev => {
        const r = $('map').getBoundingClientRect(); if (run.events.length) select(Math.floor((ev.clientX - r.left) / r.width * run.events.length));
    };
    $('map').onpointerdown = ev => { seek(ev); $('map').setPointerCapture(ev.pointerId); };
    $('map').onpointermove = ev => { if (ev.buttons) seek(ev); };
}
function wireFields() {
    $('source').onscroll = scrollEditor; $('source').oninput = () => { fault = null; hunted = 0; markLines(); };
    $('order').onchange = orderChanged; $('example').onchange = ev => choose(+ev.target.value);
    $('find').oninput = () => { search(); mapImage = null; drawSoon(); };
    $('find').onkeydown = ev => { if (ev.key === 'Enter') toMatch(ev.shiftKey ? -1 : 1); };
    for (const id of ['ifstuck', 'ifend', 'ifoutput', 'output', 'ifword', 'ifvalue']) $(id).oninput = () => { hunted = 0; sayRules(); };
    document.addEventListener('keydown', onKey);
    document.addEventListener('dragover', ev => { ev.preventDefault(); document.body.classList.add('drop'); });
    document.addEventListener('dragleave', () => document.body.classList.remove('drop'));
    document.addEventListener('drop', async ev => {
        ev.preventDefault(); document.body.classList.remove('drop'); const f = ev.dataTransfer.files[0]; if (f) openFile(new Uint8Array(await f.arrayBuffer()), f.name);
    });
    window.addEventListener('hashchange', () => { if (location.hash && location.hash !== inAddress) openLink(); });
}
function fillIn() {
    $('keysheet').querySelector('table').innerHTML = Object.entries(KEYS).map(([k, v]) => `<tr><td>${k}<td>${v}`).join('');
    const groups = new Map();
    EXAMPLES.forEach((x, i) => groups.set(x.group, (groups.get(x.group) || '') + `<option value="${i}">${escape(x.name)}`));
    $('example').innerHTML = [...groups].map(([name, options]) => `<optgroup label="${escape(name)}">${options}</optgroup>`).join('');
    $('example').value = '';
    $('cpus').innerHTML = Array.from({ length: 32 }, (_, i) => `<option${i === 1 ? ' selected' : ''}>${i + 1}`).join('');
}
async function start() {
    fillIn(); wireButtons(); wireDrawing(); wireFields(); sayRules(); orderChanged();
    await machine.start(); byMachine();
    if (!machine.isThere) { await show(new Run()); sayFault(machine.why); } else if (!await openLink()) await choose(firstExample());
    $('scroll').focus(); document.body.dataset.ready = 'yes';
}
start();
