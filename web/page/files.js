// ---- In and out: traces, kernels, saved runs, links, pictures

const say = text => { $('said').textContent = text; $('said').className = ''; };
const sayFault = text => { $('said').textContent = text; $('said').className = 'fault'; };

// Opens what a file has: a saved run, an ELF file, the lines of a trace, or else a kernel in assembly.
async function openFile(bytes, name) {
    if (bytes[0] === 0x7f && bytes[1] === 0x45 && bytes[2] === 0x4c && bytes[3] === 0x46) return openElf(bytes, name);
    const text = decoded(bytes);
    if (text.trimStart()[0] === '{') { try { return await restore(JSON.parse(text)); } catch { return sayFault('This file has no saved run.'); } }
    if (text.slice(0, 4000).split('\n').some(line => STEP.test(line) || OTHER.test(line))) return openTrace(text, name);
    setSource(text, name); $('example').value = ''; return assembleAndRun();
}
function openElf(bytes, name) {
    setSource(`# The kernel is the file ${name}, of ${count(bytes.length)} bytes: it has no source here.\n`, `The ELF file ${name}.`);
    elf = { file: bytes, name }; $('source').readOnly = true; $('example').value = ''; $('order').value = 'turns'; $('number').value = 1; $('ram').value = 1048576; orderChanged();
    return assembleAndRun();
}
const openTrace = (text, name = '') => doing(async isOn => {
    const fresh = new Run(), bad = await takeLines(fresh, text);
    if (!isOn()) return;
    fault = null; say(''); sayHunt(''); watched = [];
    await show(fresh);
    $('note').innerHTML = fresh.events.length
        ? `<b>Trace ${escape(name)}</b>: ${count(fresh.events.length)} events${bad ? `, ${bad} lines left out` : ''}. The source below isn't its own.`
        : '<span class="fault">No line of this text is an event.</span>';
});
// What makes the run again: the source or the file, and all settings.
function saved() {
    const { order, ...s } = settings(), keep = elf ? { elf: base64Of(elf.file), name: elf.name, source: undefined } : {};
    return { page: 'talusdish', version: 1, ...s, order, schedule: order === 'schedule' ? s.schedule : undefined, ...keep, sel,
        rules: { stuck: $('ifstuck').checked, end: $('ifend').checked, output: $('ifoutput').checked ? $('output').value : undefined, word: $('ifword').value, value: $('ifvalue').value } };
}
async function restore(s) {
    if (s.page !== 'talusdish') throw new Error('no saved run');
    setSource(s.source || '', 'A saved run.'); $('example').value = '';
    if (s.elf) { elf = { file: bytesOf(s.elf), name: s.name }; $('source').value = `# The kernel is the file ${s.name}.\n`; $('source').readOnly = true; }
    const set = { cpus: s.cpus, ram: s.ram, unit: s.line ? 'line' : 'word', order: s.order, number: s.number, changes: s.changes, within: s.within, transfer: s.transfer,
        gap: s.gap === null ? 'none' : s.gap, keys: s.keys, limit: s.limit, schedule: s.schedule || '' };
    for (const [id, value] of Object.entries(set)) $(id).value = value;
    const r = s.rules || {};
    $('strict').checked = !!s.strict; $('ifstuck').checked = !!r.stuck; $('ifend').checked = !!r.end; $('ifoutput').checked = r.output !== undefined;
    $('output').value = r.output || ''; $('ifword').value = r.word || ''; $('ifvalue').value = r.value || '';
    orderChanged(); sayRules();
    return assembleAndRun(s.sel);
}
// The run in the address: packed, and in letters that an address may have. A run of an opened file is too long for that.
async function packed() {
    const bytes = await through(new CompressionStream('deflate-raw'), new TextEncoder().encode(JSON.stringify(saved())));
    return '#run=' + base64Of(bytes).replace(/\+/g, '-').replace(/\//g, '_').replace(/=+$/, '');
}
let inAddress = '';
// (An example that is as it was has its name there.)
async function keepInAddress(name) {
    if (elf) return;
    const hash = name ? '#kernel=' + name : await packed();
    if (hash.length > 60000) return;
    inAddress = hash; location.replace(hash);
}
async function makeLink() {
    if (elf) { sayFault('A link can\'t have an opened file: save the run instead.'); return; }
    await keepInAddress(); say('The run is in the address.');
    try { await navigator.clipboard.writeText(location.href); say('The run is in the address, which is in the clipboard.'); } catch { /* the address is enough */ }
}
async function openLink() {
    const kernel = /^#kernel=([\w-]+)$/.exec(location.hash), i = kernel ? EXAMPLES.findIndex(x => x.name === kernel[1]) : -1;
    if (i >= 0) { await choose(i); return true; }
    const m = /^#run=([\w-]+)$/.exec(location.hash); if (!m) return false;
    try {
        const bytes = await through(new DecompressionStream('deflate-raw'), bytesOf(m[1].replace(/-/g, '+').replace(/_/g, '/')));
        await restore(JSON.parse(decoded(bytes)));
    } catch { await choose(firstExample()); sayFault('The address has no run that can be read.'); }
    return true;
}
function download(name, type, content) {
    const a = document.createElement('a');
    a.href = URL.createObjectURL(new Blob([content], { type })); a.download = name; a.click();
    setTimeout(() => URL.revokeObjectURL(a.href), 10000);
}
const headOfSchedule = () => `# ${count(run.events.length)} events: ${run.file ? commandOf({ ...run.base, order: 'schedule' }) : `s161 trace IMAGE --cpus ${run.processors} < SCHEDULE`}\n`;
const traceText = () => run.events.map(e => e.line + '\n').join('') + `stop: ${run.stop}\n`;
function pictureText() {
    const w = $('scroll').clientWidth / zoom, h = $('scroll').clientHeight / zoom, size = `width="${w}" height="${h + 40}"`;
    const head = drawHead().replace(/<text class="sans act".*?<\/text>/g, '');
    const all = `<svg xmlns="http://www.w3.org/2000/svg" ${size} viewBox="0 0 ${w} ${h + 40}"><style>${$('drawing').textContent}</style>`
        + `<clipPath id="c"><rect width="${w}" height="${h}"/></clipPath><rect ${size} fill="var(--panel)"/>${head}`
        + `<g transform="translate(0 40)" clip-path="url(#c)">${drawBody(h)}</g></svg>`;
    return all.replace(/var\(--(\w+)\)/g, (_, name) => colour(name));
}
function savePng() {
    const img = new Image(), url = URL.createObjectURL(new Blob([pictureText()], { type: 'image/svg+xml' }));
    img.onload = () => {
        const c = document.createElement('canvas');
        c.width = img.width * 2; c.height = img.height * 2;
        const x = c.getContext('2d');
        x.scale(2, 2); x.drawImage(img, 0, 0); URL.revokeObjectURL(url);
        c.toBlob(b => download('interleaving.png', 'image/png', b));
    };
    img.src = url;
}
const EXPORTS = {
    save: () => download('run.json', 'application/json', JSON.stringify(saved(), null, 1)),
    schedule: () => download('run.schedule', 'text/plain', headOfSchedule() + run.schedule()),
    trace: () => download('run.trace', 'text/plain', traceText()),
    source: () => download('kernel.s', 'text/plain', $('source').value),
    elf: () => run.file ? download(elf ? elf.name : 'kernel.elf', 'application/octet-stream', run.file) : sayFault('There is no kernel: assemble one.'),
    svg: () => download('interleaving.svg', 'image/svg+xml', pictureText()), png: savePng,
};
