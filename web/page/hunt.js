// ---- Find a bad interleaving

const SEEDS = 20000; // of one search
let hunting = false, hunted = 0; // hunted: the first seed that wasn't tried
// What a run's end is judged by.
function rules() {
    const address = $('ifword').value.trim() ? physicalOf(run, $('ifword').value.trim()) : null;
    if ($('ifword').value.trim() && (address === null || !/^(0x)?[0-9a-f]{1,8}$/i.test($('ifvalue').value.trim()))) throw new Error('The word needs an address, or a label, and a value in hexadecimal.');
    return { stuck: $('ifstuck').checked, end: $('ifend').checked, output: $('ifoutput').checked ? unescaped($('output').value) : null,
        word: address === null ? null : { address, value: parseInt($('ifvalue').value.replace(/^0x/i, ''), 16) >>> 0 } };
}
function sayRules() {
    const parts = [$('ifstuck').checked && 'stuck', $('ifend').checked && 'not off', $('ifoutput').checked && `console isn't ${JSON.stringify(unescaped($('output').value))}`,
        $('ifword').value && `[${$('ifword').value}] isn't ${$('ifvalue').value}`];
    $('rules').textContent = parts.filter(x => x).join(', or ') || 'nothing yet';
}
const sayHunt = html => { $('hunted').innerHTML = html; };
const orderOf = s => s.order === 'priorities' ? 'priorities' : 'random';
async function hunt(from = 0) {
    if (hunting) { machine.call('stop'); return; }
    if (!machine.isThere) return;
    hunting = true; sayHunt(''); $('hunt').textContent = 'Stop the search'; document.body.dataset.hunt = 'on';
    try {
        const s = settings(), file = await assembled(s);
        if (file) {
            if (!run.file || run.base.source !== s.source) run.symbols = readElf(file).symbols;
            const plan = { ...planOf({ ...s, order: orderOf(s) }) }, asked = rules();
            const got = await machine.call('hunt', { file, size: sizeOf(s), plan, keys: keysOf(s), limit: s.limit, rules: asked, from, most: from + SEEDS },
                ({ tried, states, runs }) => sayHunt(states !== undefined ? `more than ${count(states)} states` : runs ? `${count(runs)} runs with few delays` : `${count(from + tried)} seeds tried`));
            hunted = from + (got.tried || 0);
            if (got.first) await showFirst(s, got); else if (got.delays) await showDelayed(s, got); else if (got.bad) await showFound(s, got); else if (got.right) sayRight(got); else sayNone(s, asked, got);
        }
    } catch (error) { sayHunt(''); sayFault(error.message); }
    hunting = false; $('hunt').textContent = 'Find a bad interleaving'; document.body.dataset.hunt = '';
}
function sayRight({ right, ends }) {
    sayHunt(`<b>Right in every order: ${count(right)} states.</b> In whatever order and for however long, nothing goes wrong${ends ? ', and it can always come to its end' : ''}.`);
    document.body.dataset.states = right;
}
// Shows the first list of events that goes wrong: no shorter one does.
async function showFirst(s, { bad, states, events, blocks, then }) {
    if (!await assembleAndRun(undefined, { blocks, plan: { kind: 0, turns: then.turns, transfer: s.transfer, gap: null } })) return;
    sayHunt(`<b class="warn">After ${count(events)} events: ${WRONG[bad]}.</b> No shorter run is so; ${count(states)} states ${bad === 'hung' ? 'in all' : 'come before it'}.`);
    document.body.dataset.found = bad;
}
const WRONG = { hung: 'no order comes to an end any more', stuck: 'stuck', conflict: 'two rows of a TLB would overlap', 'another output': 'the console has sent something else', 'not off': 'not off' };
// Shows the run of the first list of delays that goes wrong: turns in which a ready processor is passed over at these choices.
async function showDelayed(s, { bad, delays, events, blocks, then }) {
    if (!await assembleAndRun(undefined, { blocks, plan: { kind: 0, turns: then.turns, transfer: s.transfer, gap: null } })) return;
    const passed = delays.length ? `Turns with ${delays.length > 1 ? `delays at the choices ${delays.join(' and ')}` : `one delay, at choice ${delays[0]}`}` : 'Turns';
    sayHunt(`<b class="warn">${passed}: ${WRONG[bad]} after ${count(events)} events.</b>${delays.length ? ' No run with fewer delays is so.' : ''}`);
    document.body.dataset.found = bad; document.body.dataset.delays = delays.join(' ');
}
// The runs with so many delays at most, none of which goes wrong.
function sayRuns({ most, within, runs, cut }, limit) {
    return `${count(runs)} run${runs === 1 ? '' : 's'} by turns with at most ${most === 1 ? 'one delay' : 'two delays'}${within < limit ? ` at the first ${count(within)} choices` : ''}`
        + (cut ? ` (${count(cut)} of them cut after ${count(limit)} events)` : '');
}
// What is known of the states, where not all were looked at; `unstuck`: how many there are where no output is asked for, none of them stuck.
function sayStates({ more, events, unstuck }, nothing) {
    if (events !== undefined) return `There are more than ${count(more)} states, too many to look at all here; up to ${count(events)} events ${nothing}. `;
    return unstuck ? `${count(unstuck)} states: nothing is stuck. ` : `There are more than ${count(more)} states. `;
}
function sayNone({ limit }, asked, { stopped, open, few, states }) {
    const more = hunted ? ` <button data-hunt="${hunted}">Try ${count(SEEDS)} more</button>` : '';
    const nothing = asked.output !== null && open && !open.asked ? 'nothing is stuck' : asked.word ? 'nothing but the word can go wrong' : 'nothing goes wrong';
    const [one, two] = few.map(it => sayRuns(it, limit));
    const runs = one ? `${asked.word ? 'The word aside, none' : 'None'} of ${one} goes wrong${two ? `, and none of ${two}` : ''}. ` : '';
    const closed = open ? sayStates(open, nothing) + runs : states ? `${count(states)} states: nothing but the word can go wrong. ` : '';
    sayHunt(`${closed}<b>${count(hunted)} seeds tried, none went wrong</b>${stopped ? ' (stopped)' : ''}. That is no proof: another order may.${more}`);
}
// Shows the run of these blocks, which goes on in turns, and puts its schedule in place.
async function showFound(s, { seed, bad, blocks, before, then }) {
    const plan = { kind: 0, turns: then.turns, transfer: s.transfer, gap: null };
    if (!await assembleAndRun(undefined, { blocks, plan })) return;
    const turns = blocks.length, words = { stuck: 'stuck', 'not off': `not off after ${count(s.limit)} events`, 'another output': 'the console has sent something else', 'another word': 'the word has another value' }[bad];
    const fair = bad === 'not off' ? `turns of ${then.turns}` : '', shorter = before > turns ? `Shortened from ${count(before)} turns to ${count(turns)}` : `${count(turns)} turns`;
    sayHunt(`<b class="warn">Seed ${seed} goes wrong: ${words}.</b> ${turns ? shorter + (fair && `, then ${fair}`) : `So do ${fair || 'long turns'} alone, which are shown`}. `
        + `<button data-found="${seed}" data-order="${orderOf(s)}">As it was found</button>`);
    document.body.dataset.found = seed;
}
function asFound(seed, order) { $('order').value = order; $('number').value = seed; orderChanged(); assembleAndRun(); }
