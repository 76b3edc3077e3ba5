// node compare.js MODULE FILE..: what compare.c prints of the native library, of a module.
'use strict';
const fs = require('fs'), { Talusdish, Session, VERDICTS } = require('../../web/page/machine.js');
let first, second;
const begin = () => { first = 2166136261; second = 40503; };
const byte = b => { first = Math.imul(first ^ b, 16777619) >>> 0; second = (Math.imul(second + b, 2654435761) ^ second >>> 15) >>> 0; };
const word = w => { for (let k = 0; k < 4; k++) byte(w >>> 8 * k & 255); };
const many = n => { word(n % 4294967296); word(Math.floor(n / 4294967296)); };
const words = it => { if (it === null) return false; for (const w of it) word(w); return true; };
const hex = w => w.toString(16).padStart(8, '0');
const say = what => console.log(`${what} ${hex(first)}${hex(second)}`);

function seeBytes(it) { many(it.length()); for (const b of it.read()) byte(b); }
function seeProcessor(it, p) {
    const shown = it.processor(p);
    if (!shown) { byte(7); return; }
    for (const r of shown.registers) word(r);
    word(shown.hi); word(shown.lo); word(shown.pc); word(['stopped', 'running', 'waiting'].indexOf(shown.state)); byte(shown.inSlot ? 1 : 0); many(shown.count);
    for (let n = 0; n < 32; n++) { const w = it.cop(p, n); if (w === null) byte(3); else word(w); }
    for (let i = 0; i < 65; i++) if (!words(it.row(p, i))) byte(4);
    const link = it.link(p);
    if (link === null) byte(5); else word(link);
}
function see(it) {
    many(it.made()); many(it.entries());
    for (let p = 0; p < 6; p++) seeProcessor(it, p);
    const board = it.board();
    if (board) { byte(board.off ? 1 : 0); byte(board.sending ? 1 : 0); byte(board.latch); word(board.waiting); word(board.started); } else byte(6);
    if (!words(it.conflict())) byte(8);
    for (let i = 0; i < 101; i++) { const e = it.entry(i); if (!words(e && [e.kind, e.value, e.outcome, e.first, e.second])) byte(9); }
    for (let at = 0; at < 65540; at += 4) { const w = it.word(at); if (w === null) byte(1); else word(w); }
    byte(it.output()); seeBytes(it); byte(it.log()); seeBytes(it);
}

const PLANS = [
    { kind: 0, turns: 1, seed: 0n, transfer: 100, gap: null }, { kind: 0, turns: 3, seed: 0n, transfer: 10, gap: 50 },
    { kind: 1, turns: 0, seed: 7n, within: 0, transfer: 100, gap: 1000 }, { kind: 1, turns: 0, seed: 123456789012345678n, within: 0, transfer: 0, gap: null },
    { kind: 2, turns: 0, seed: 5n, changes: 3, within: 100, transfer: 100, gap: 1000 },
];
const TYPED = Uint8Array.from([...Buffer.from('help\nstart\n'), 0, 255]);
const sizeOf = (text, processors, other) => ({ ram: text ? 65536 : 1048576, processors, log: 100, line: other, strict: other });
let engine, image = new Uint8Array(0), file;

function runs(text) {
    for (const cpus of [1, 2, 5]) for (const [k, plan] of PLANS.entries()) {
        begin();
        const it = new Session(engine), booted = it.boot(image, sizeOf(text, cpus, k === 3)), traced = it.trace(plan, TYPED, (k & 1) === 1, 3000);
        seeBytes(it);
        const driven = it.drive(plan, TYPED, 20000);
        see(it); it.close();
        say(`run ${cpus} ${k} boot ${booted} trace ${traced.answer} ${traced.made} drive ${driven.answer} ${driven.made}`);
    }
}
function events(text) {
    begin();
    const it = new Session(engine), copy = new Session(engine);
    let g = 1, answers = 0;
    it.boot(image, sizeOf(text, 3, false));
    for (let k = 0; k < 600; k++) {
        g = (Math.imul(g, 1664525) + 1013904223) >>> 0;
        const kind = g >>> 30 === 3 ? g >>> 28 & 3 : 0;
        engine.bytes(engine.place, 12).fill(0);
        const told = it.event(kind, g >>> 8 & (kind === 1 ? 255 : 3));
        byte(told.answer); word(told.kind); word(told.first); word(told.second); answers += told.answer;
        if (k === 300) byte(it.copyTo(copy));
        if (k > 300) { const got = copy.steps(k % 3, 7); byte(got.answer); word(got.made); }
    }
    see(it); see(copy); it.close(); copy.close();
    say(`events ${answers}`);
}
function searches(text) {
    const it = new Session(engine);
    it.boot(image, sizeOf(text, 2, false));
    for (let k = 2; k < 5; k++) {
        const { answer, right } = it.search(PLANS[k], TYPED, 2000, 40, { address: 0x1000, word: 2 });
        console.log(`search ${k} answer ${answer} right ${right}`);
    }
    it.close();
}

function explorations(text) {
    for (const [k, limit] of [1, 40, 300].entries()) {
        begin();
        const it = new Session(engine);
        it.boot(image, sizeOf(text, 2, false));
        const answer = engine.lend(Buffer.from('ab'), (at, n) => engine.lend(Buffer.from('hi'), (sent, m) =>
            it.call('explore', limit, at, n, it.place, 0n, it.place, 0n, k === 2 ? 1 : 0, sent, m, it.place) & 255)), v = engine.told();
        const said = `kind ${v.getUint32(0, true)} states ${v.getUint32(4, true)} events ${v.getBigUint64(8, true)} verdict ${v.getUint32(16, true)}`;
        seeBytes(it);
        say(`explore ${limit} answer ${answer} ${said}`);
        it.close();
    }
}

function slices(text) {
    begin();
    const it = new Session(engine);
    it.boot(image, sizeOf(text, 2, false));
    byte(it.beginToExplore(300, Buffer.from('ab'), null));
    let found;
    while ((found = it.exploreOn(7)).answer === 25) { word(found.kind); word(found.states); }
    seeBytes(it); byte(it.exploreOn(7).answer);
    say(`slices answer ${found.answer} kind ${found.kind} states ${found.states} events ${found.events} verdict ${VERDICTS.indexOf(found.verdict)}`);
    it.close();
}

// A slot that may stay empty: the session of `new Session` is closed, and opened again by hand.
function slotOf() { const it = new Session(engine); it.call('close'); return it; }
function refuse(at) {
    begin();
    const it = slotOf(), copy = slotOf(), answers = [];
    engine.call('host_refuse', BigInt(at));
    answers.push(it.call('open') & 1, copy.call('open') & 1);
    answers.push(it.assemble(file, true).answer); seeBytes(it);
    answers.push(it.boot(image, { ram: 4096, processors: 2, log: 50, line: false, strict: false }));
    const traced = it.trace(PLANS[0], TYPED, true, 60); answers.push(traced.answer); many(traced.made); seeBytes(it);
    const driven = it.drive(PLANS[2], TYPED, 3000); answers.push(driven.answer); many(driven.made);
    answers.push(it.copyTo(copy));
    const found = it.search(PLANS[2], TYPED, 500, 3, { address: 0x1000, word: 2 }); answers.push(found.answer); many(found.right);
    const requests = Number(engine.call('host_requests'));
    engine.call('host_refuse', 0n);
    see(it); see(copy); it.close(); copy.close();
    say(`refused ${at} of ${requests}: ${answers.join(' ')}`);
    return requests;
}

function assemble(text, what) {
    for (const symbols of [false, true]) {
        begin();
        const it = new Session(engine);
        const told = it.assemble(text, symbols);
        seeBytes(it);
        say(`${what} answer ${told.answer} at ${told.line} ${told.column}`);
        if (told.answer === 0) image = it.read();
        it.close();
    }
}
const TEXTS = [[0xff], 'main: bogus $1', ' addiu $8, $0, 99999', ' j nowhere', 'a:\na: nop', ' lw $8, 4($9', ' .org 0x80000300\n nop\n .org 0x80000300\n nop',
    ' beq $0, $0, far\n .org 0x80100000\nfar: nop', ' @', ''];
function faults() {
    for (const text of TEXTS) assemble(typeof text === 'string' ? Buffer.from(text) : Uint8Array.from(text), 'text');
    for (let n = 0; n < 200; n += 9) {
        const it = new Session(engine), size = { ram: n === 9 ? 4095 : 8192, processors: n === 18 ? 33 : 1, log: n === 27 ? 0 : 1, line: false, strict: false };
        console.log(`boot ${n} answer ${it.boot(n > 100 ? image : image.subarray(0, n), size)}`);
        if (n < image.length) image[n] ^= 1;
        it.close();
    }
}

async function main([wasm, ...names]) {
    engine = await Talusdish.load(fs.readFileSync(wasm));
    for (const [k, name] of names.entries()) {
        const text = name.endsWith('.s');
        file = new Uint8Array(fs.readFileSync(name));
        console.log(`${name} ${file.length}`);
        if (text) assemble(file, 'file'); else image = file;
        runs(text); events(text); searches(text); explorations(text); slices(text);
        if (k === 0) for (let at = 1, requests = 0; at === 1 || requests >= at - 1; at++) requests = refuse(at);
    }
    faults();
}
main(process.argv.slice(2)).catch(error => { console.log(error.stack); process.exit(2); });
