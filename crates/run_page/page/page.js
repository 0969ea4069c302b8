'use strict';
// Draws a run of bench, from the JSON in #data. Names and bytes come into the page as text nodes alone, never as HTML. Everything
// follows from the step that is shown: no card has a state of its own, but for which outcomes of a crash stand open.

// ---- nodes ----

const SVG = 'http://www.w3.org/2000/svg';

function filled(node, attributes, children) {
  for (const [key, value] of Object.entries(attributes || {})) {
    if (value === null || value === undefined || value === false) continue;
    if (key.startsWith('on')) node.addEventListener(key.slice(2), value);
    else if (key === 'css') for (const [name, to] of Object.entries(value)) node.style.setProperty(name, to);
    else node.setAttribute(key, value === true ? '' : value);
  }
  node.append(...children.flat(9).filter(child => child !== null && child !== undefined && child !== ''));
  return node;
}

const el = (tag, attributes, ...children) => filled(document.createElement(tag), attributes, children);
const svg = (tag, attributes, ...children) => filled(document.createElementNS(SVG, tag), attributes, children);
const mark = (kind, ...text) => el('span', { class: `mark ${kind}` }, text);
const empty = text => el('p', { class: 'empty' }, text);

// ---- words ----

const upper = text => text.slice(0, 1).toUpperCase() + text.slice(1);

function plural(count, thing) {
  const many = thing.endsWith('s') ? `${thing}es` : `${thing}s`;
  return `${count === 0 ? 'no' : count} ${count === 1 ? thing : many}`;
}

function listed(words, last = 'and') {
  return words.length < 2 ? words.join('') : `${words.slice(0, -1).join(', ')} ${last} ${words[words.length - 1]}`;
}

// The changes from one number to another.
function changesFrom(first, last) {
  if (first > last) return 'no change';
  return first === last ? `change ${first}` : `changes ${first} to ${last}`;
}

// Changes by their numbers, which rise.
function changesOf(numbers) {
  if (!numbers.length) return 'no change';
  const first = numbers[0], last = numbers[numbers.length - 1];
  if (last - first === numbers.length - 1) return changesFrom(first, last);
  return numbers.length > 8 ? `${numbers.length} changes up to ${last}` : `changes ${listed(numbers.map(String))}`;
}

// Bytes as nodes: printable ASCII as it is, any other byte in a box of its own.
function bytesOf(hex, breaks) {
  const nodes = [];
  let text = '';
  for (let i = 0; i + 1 < hex.length; i += 2) {
    const byte = parseInt(hex.slice(i, i + 2), 16);
    if (byte >= 32 && byte < 127) {
      text += String.fromCharCode(byte);
      continue;
    }
    const name = { 9: '\\t', 10: '\\n' }[byte] || `\\x${byte.toString(16).padStart(2, '0')}`;
    nodes.push(text, el('span', { class: 'ctl' }, name), byte === 10 && breaks ? '\n' : '');
    text = '';
  }
  return [...nodes, text];
}

// The same as text, for a sentence.
const bytesText = hex => bytesOf(hex).map(part => (typeof part === 'string' ? part : part.textContent)).join('');

// ---- the run ----

const run = JSON.parse(document.getElementById('data').textContent);
const many = run.boots.length > 1;
const steps = [];

// Notes of each change by which event it was committed, and of each step which cut was the last.
function prepareEvents(boot) {
  let kept = 0, cuts = 0;
  boot.cuts = [];
  boot.cutsAt = [0];
  for (const event of boot.events) {
    while (kept < event.committed) boot.changes[kept++].kept = event.n;
    if (event.does === 'cut') cuts = boot.cuts.push({ first: event.committed + 1, last: event.committed + event.takes });
    boot.cutsAt[event.n] = cuts;
  }
}

run.boots.forEach((boot, b) => {
  boot.changes.forEach((change, i) => { change.number = i + 1; change.kept = Infinity; });
  boot.outputs.forEach(output => { output.shown = output.shown || Infinity; });
  boot.writes.forEach(write => { write.to = write.to || Infinity; });
  boot.before = b ? run.boots[b - 1].ends : null;
  boot.first = steps.length;
  prepareEvents(boot);
  steps.push({ b, boot, n: 0, event: null });
  for (const event of boot.events) steps.push({ b, boot, n: event.n, event });
});

const changesAt = step => (step.event ? step.event.changes : 0);
const committedAt = step => (step.event ? step.event.committed : 0);
const filesAfter = (boot, changes) => boot.versions[changes].map(place => boot.states[place]);
const flies = (write, n) => write.from <= n && write.to > n;
const addressOf = step => (many ? `#b${step.b + 1}e${step.n}` : `#e${step.n}`);

// The step that an address names: `#e6` is event 6 of the first boot, `#b2e3` event 3 of the second.
function stepAt(address) {
  const found = /^#(?:b(\d+))?e(\d+)$/.exec(address);
  const boot = found && run.boots[(found[1] || 1) - 1];
  return boot && Number(found[2]) <= boot.events.length ? boot.first + Number(found[2]) : null;
}

// The last event of a process up to a step.
function lastOf(step, p) {
  for (let n = step.n; n > 0; n--) if (step.boot.events[n - 1].p === p) return step.boot.events[n - 1];
  return null;
}

// The numbers of the events on which one rests, and its own: of each process those up to the last one, but for those that waited.
function coneOf(step) {
  if (!step.event || !step.event.p) return null;
  const last = step.event.cone;
  const within = event => event.n <= last[event.p] && (event.does !== 'waits' || event.n === step.n);
  return new Set(step.boot.events.filter(within).map(event => event.n));
}

// ---- what an event did, in a sentence ----

const ERRORS = {
  2: 'ENOENT, no such file', 8: 'ENOEXEC, no image', 9: 'EBADF, the descriptor may not be used so', 10: 'ECHILD, no child is left',
  14: 'EFAULT, bytes that may not be read or written', 22: 'EINVAL, an argument is out of its bounds', 23: 'ENFILE, a table is full',
  24: 'EMFILE, no descriptor is free', 27: 'EFBIG, the file would be too long', 32: 'EPIPE, nobody can read the pipe', 38: 'ENOSYS, no such call',
};
const WRITES = {
  record: 'record', gate: 'gate', closing: 'byte that closes the first gate of the other half', switch: 'byte that says which half is in use',
};
const WAITS = {
  bytes: { why: wait => `for bytes in pipe ${wait.pipe + 1}; it is empty`, could: 'write to it' },
  room: { why: wait => `for room in pipe ${wait.pipe + 1}; it is full`, could: 'read from it' },
  child: { why: () => 'for a child to end', could: 'end' },
};

function changeText(change) {
  switch (change.does) {
    case 'make': return `makes ${change.file}`;
    case 'write': return `writes ${plural(change.bytes, 'byte')} to ${change.file} at ${change.at}`;
    case 'empty': return `empties ${change.file}`;
    case 'remove': return `removes ${change.file}`;
    case 'rename': return `renames ${change.file} to ${change.to}`;
    default: return 'changes a file';
  }
}

function waitText(event) {
  const wait = event.waits;
  if (!wait) return 'waits';
  const others = wait.by.filter(p => p !== event.p).map(String);
  const form = WAITS[wait.for];
  const who = others.length ? `Only process ${listed(others, 'or')} could ${form.could}` : `No other process can ${form.could}`;
  return `waits ${form.why(wait)}. ${who}`;
}

function bootSentence(boot) {
  const files = filesAfter(boot, 0).map(file => `${file.name} (${plural(file.length, 'byte')})`);
  const end = boot.before;
  const lost = end ? `A crash cuts off ${plural(end.changes, 'change')} and ${plural(end.outputs, 'output')}. ` : '';
  return `${lost}All programs are booted${end ? ' again' : ''}, on a disk with ${files.length ? listed(files) : 'no file'}.`;
}

function turnSentence(event) {
  const end = { call: `and comes to the call ${event.call}`, trap: `and traps (${event.call})`, limit: 'and its time is up' }[event.stop];
  return `Process ${event.p} runs ${plural(event.ran, 'instruction')}, ${end}.`;
}

function outputSentence(step, output) {
  const { boot, event } = step;
  const says = `Process ${event.p} writes to terminal ${output.t}.`;
  if (output.shown <= event.n) return `${says} The output is shown at once: all that it rests on is on the disk.`;
  const cone = coneOf(step);
  const open = boot.changes.filter(change => cone.has(change.e) && change.number > event.committed).map(change => change.number);
  return `${says} The output is held back: ${open.length ? `it rests on ${changesOf(open)}, not yet on the disk` : 'so is an output before it'}.`;
}

function callSentence(step) {
  const { boot, event } = step;
  const change = boot.changes.find(made => made.e === event.n);
  const output = boot.outputs.find(written => written.e === event.n);
  const child = boot.processes.find(made => made.e === event.n);
  if (change) return `Process ${event.p} ${changeText(change)}. This is change ${change.number}, and not on the disk yet; the call is replied to at once.`;
  if (output) return outputSentence(step, output);
  if (child) return `Process ${event.p} makes process ${child.p}.`;
  if (event.reply < 0) return `The kernel refuses the call of process ${event.p}: ${event.reply}, ${ERRORS[-event.reply] || 'an error'}.`;
  if (event.got) return `Process ${event.p} reads ${plural(event.reply, 'byte')}: ${bytesText(event.got)}${event.got.length / 2 < event.reply ? '..' : ''}`;
  return `The kernel replies to process ${event.p}.`;
}

function cutSentence({ boot, event, n }) {
  const group = changesFrom(event.committed + 1, event.committed + event.takes);
  const first = boot.writes.find(write => write.from === n);
  const rest = first && first.what !== 'record'
    ? `The log is full, so it is a checkpoint: all files go to the other half. First the ${WRITES[first.what]} is in flight.` : 'First its record is in flight.';
  return `${upper(group)} go${event.takes === 1 ? 'es' : ''} to the disk, as one group. ${rest}`;
}

function completeSentence(step) {
  const { boot, event, n } = step;
  const before = n > 1 ? boot.events[n - 2].committed : 0;
  if (event.committed > before) {
    const on = [...new Set(boot.outputs.filter(output => output.shown === n).map(output => output.t))].sort().map(String);
    const seen = on.length ? ` Terminal${on.length > 1 ? 's' : ''} ${listed(on)} show${on.length > 1 ? '' : 's'} what was held back.` : '';
    const last = boot.writes.find(write => write.to === n);
    const open = last && last.what === 'switch' ? 'The other half is in use' : 'The gate is open';
    return `${open}: ${changesFrom(before + 1, event.committed)} ${event.committed - before > 1 ? 'are' : 'is'} committed.${seen}`;
  }
  const next = boot.writes.find(write => write.from === n);
  return `${upper(event.line.replace('complete', 'the write at'))} is complete.${next ? ` Now the ${WRITES[next.what]} is in flight; until it is complete nothing is committed.` : ''}`;
}

function sentence(step) {
  const { boot, event } = step;
  if (!event) return bootSentence(boot);
  switch (event.does) {
    case 'turn': return turnSentence(event);
    case 'call': return callSentence(step);
    case 'waits': return `Process ${event.p} ${waitText(event)}.`;
    case 'ends': return `Process ${event.p} ends${event.status === null ? '' : ` with status ${event.status}`}.`;
    case 'cut': return cutSentence(step);
    case 'complete': return completeSentence(step);
    default: return `${upper(event.line.replace('fail', 'the write at'))} fails. Nothing more is committed in this run.`;
  }
}

// ---- the cards: what is so after a step ----

const MOST = { bytes: 2000, changes: 40, writes: 16 };

function outputPart(outputs, kind, words) {
  const hex = outputs.map(output => output.hex).join('');
  const over = Math.max(0, hex.length / 2 - MOST.bytes);
  if (!hex) return null;
  return el('span', { class: `out ${kind}` }, el('span', { class: 'sr' }, ` ${words}: `), over ? `(${over} bytes before) ` : '', bytesOf(hex.slice(over * 2), true));
}

function drawTerminal(step, t) {
  const written = step.boot.outputs.filter(output => output.t === t && output.e <= step.n);
  const held = written.filter(output => output.shown > step.n);
  const shown = written.filter(output => output.shown <= step.n);
  const parts = [outputPart(shown, 'safe', 'shown'), outputPart(held, 'held', 'held back')].filter(Boolean);
  const note = held.length
    ? mark('held', `held back until change ${held[0].needs}`, el('span', { class: 'long' }, ' is on the disk'))
    : written.length ? mark('safe', 'shown') : mark('none', 'nothing written');
  return el('div', { class: 'terminal', role: 'group', 'aria-label': `Terminal ${t}` },
    el('div', { class: 'row' }, el('h4', {}, `Terminal ${t}`), note), el('pre', {}, parts.length ? parts : el('span', { class: 'empty' }, ' ')));
}

function processState(step, made) {
  const last = lastOf(step, made.p);
  if (!last) return { kind: 'ready', state: made.parent ? `made by process ${made.parent}` : 'at its start', call: '' };
  const call = last.call || '';
  if (last.does === 'turn') {
    const [kind, state] = { call: ['stands', 'stands at a call'], trap: ['over', 'traps'], limit: ['ready', 'may run on'] }[last.stop];
    return { kind, state, call };
  }
  if (last.does === 'call') return { kind: 'ready', state: 'may run on', call: `${call} = ${last.reply}` };
  if (last.does === 'waits') return { kind: 'waits', state: 'waits', call, more: `${upper(waitText(last).replace('waits ', ''))}.` };
  return { kind: 'over', state: last.status === null ? 'ended' : `ended, ${last.status}`, call };
}

function drawProcesses(step) {
  return step.boot.processes.filter(made => made.e <= step.n).map(made => {
    const { kind, state, call, more } = processState(step, made);
    const active = step.event && step.event.p === made.p;
    return el('div', { class: `process ${kind}${active ? ' active' : ''}` },
      el('div', { class: 'row' }, el('h4', {}, `Process ${made.p}`), mark(kind, state)),
      el('code', {}, call || '\u00a0'), more ? el('p', {}, more) : null);
  });
}

const REGISTERS = ['zero', 'ra', 'sp', 'gp', 'tp', 't0', 't1', 't2', 's0', 's1', 'a0', 'a1', 'a2', 'a3', 'a4', 'a5', 'a6', 'a7',
  's2', 's3', 's4', 's5', 's6', 's7', 's8', 's9', 's10', 's11', 't3', 't4', 't5', 't6'];

// The process of a step: that of its event, or of the last event of one before it, or the first one.
function processOf(step) {
  for (let n = step.n; n > 0; n--) if (step.boot.events[n - 1].p) return step.boot.events[n - 1].p;
  return 1;
}

// What the registers of a process hold after a step: those of its begin, and what its events changed since.
function registersAt(step, made) {
  const held = Object.assign({}, made.at && made.at.regs);
  for (const event of step.boot.events.slice(0, step.n)) if (event.p === made.p && event.at) Object.assign(held, event.at.regs);
  return held;
}

function drawRegisters(step) {
  const made = step.boot.processes[processOf(step) - 1];
  if (!made || made.e > step.n) return empty('There is no process.');
  const at = (lastOf(step, made.p) || made).at, held = registersAt(step, made);
  if (!at) return empty('It has none any more.');
  const changed = step.event && step.event.p === made.p ? at.regs : {};
  const cells = REGISTERS.map((name, i) => el('tr', { class: i in changed ? 'changed' : null },
    el('th', { scope: 'row' }, name), el('td', {}, held[i] || '00000000', i in changed ? el('span', { class: 'sr' }, ', changed') : null)));
  return [el('h4', {}, `Process ${made.p}`), el('p', {}, 'Next is ', el('code', {}, at.pc, at.next.replace(',', ''))),
    el('div', { class: 'bank' }, [0, 8, 16, 24].map(i => el('table', {}, el('tbody', {}, cells.slice(i, i + 8)))))];
}

function drawChanges(step) {
  const made = step.boot.changes.slice(0, changesAt(step));
  if (!made.length) return empty('None yet.');
  const cut = step.boot.cuts[step.boot.cutsAt[step.n] - 1];
  const rows = made.slice(-MOST.changes).map(change => {
    const group = cut && change.number >= cut.first && change.number <= cut.last;
    const state = change.kept <= step.n ? mark('safe', 'on the disk') : group ? mark('flying', 'in flight') : mark('held', 'in memory');
    const link = el('a', { href: addressOf({ b: step.b, n: change.e }) }, `event ${change.e}`);
    return el('li', {}, el('span', { class: 'n' }, String(change.number)), el('span', { class: 'what' }, changeText(change), ' ', link), state);
  });
  const over = made.length - rows.length;
  return el('ol', { class: 'changes', tabindex: made.length > 8 ? 0 : null, 'aria-label': 'Changes of files' },
    over ? el('li', {}, '', `and ${over} before`) : null, rows);
}

function fileCell(file) {
  if (!file) return el('span', { class: 'empty' }, 'no such file');
  const more = file.head.length / 2 < file.length ? '..' : '';
  return [el('b', {}, plural(file.length, 'byte')), ' ', file.length ? el('code', {}, bytesOf(file.head), more) : ''];
}

function drawFiles(step) {
  const memory = filesAfter(step.boot, changesAt(step)), disk = filesAfter(step.boot, committedAt(step));
  const names = [...new Set([...memory, ...disk].map(file => file.name))];
  if (!names.length) return empty('None yet.');
  const rows = names.map(name => {
    const seen = memory.find(file => file.name === name), kept = disk.find(file => file.name === name);
    const differs = [mark('held', kept ? 'other' : 'not there'), ' ', kept ? fileCell(kept) : ''];
    return el('tr', {}, el('th', { scope: 'row' }, name), el('td', {}, fileCell(seen)), el('td', {}, seen === kept ? mark('safe', 'the same') : differs));
  });
  const head = ['File', 'Programs see', 'On the disk'].map(text => el('th', { scope: 'col' }, text));
  return el('table', {}, el('thead', {}, el('tr', {}, head)), el('tbody', {}, rows));
}

function writeState(step, write) {
  if (write.from > step.n) return ['blank', 'not yet'];
  if (flies(write, step.n)) return ['flying', 'in flight'];
  if (write.failed) return ['failed', 'failed'];
  return step.boot.cuts[write.group - 1].last <= committedAt(step) ? ['safe', 'committed'] : ['done', 'complete'];
}

function drawDisk(step) {
  const group = Math.max(1, step.boot.cutsAt[step.n]);
  const near = step.boot.writes.filter(write => Math.abs(write.group - group) < 3);
  const writes = near.sort((a, b) => a.at - b.at || a.from - b.from).slice(0, MOST.writes);
  if (!writes.length) return empty('No write in this boot.');
  return el('ol', { class: 'strip', tabindex: writes.length > 8 ? 0 : null, 'aria-label': 'Places on the disk' }, writes.map(write => {
    const [kind, state] = writeState(step, write);
    return el('li', { class: kind, css: { 'flex-grow': Math.sqrt(write.bytes).toFixed(2) } }, el('span', { class: 'at' }, String(write.at)),
      el('span', { class: 'size' }, `${write.what}, ${plural(write.bytes, 'byte')}`), el('span', { class: 'state' }, state));
  }), near.length > writes.length ? el('li', { class: 'blank' }, `and ${near.length - writes.length} more`) : null);
}

const open = new Set();      // the outcomes that stand open, by their numbers of changes

function drawOutcome(step, j, fills, one) {
  const files = j === null ? [] : filesAfter(step.boot, j);
  const names = files.length ? listed(files.map(file => `${file.name}, ${plural(file.length, 'byte')}`)) : 'no file';
  const torn = step.boot.writes.some(write => flies(write, step.n) || (write.failed && write.from <= step.n));
  const when = !one ? `torn bytes ${listed(fills.map(fill => (fill === '-' ? 'as before' : fill)), 'or')}` : torn ? 'all torn bytes that were tried' : 'nothing is in flight';
  const lost = changesAt(step) > j ? `Lost: ${changesFrom(j + 1, changesAt(step))}. ` : 'Nothing is lost. ';
  return el('details', { open: open.has(j), ontoggle: event => open[event.target.open ? 'add' : 'delete'](j) },
    el('summary', {}, el('span', { class: 'names' }, names), el('span', { class: 'note' }, when)),
    el('p', {}, `The next boot finds the files after ${j ? changesFrom(1, j) : 'none of the changes'}. ${lost}All that was shown rests on what is kept.`),
    files.length ? el('table', {}, el('tbody', {}, files.map(file => el('tr', {}, el('th', { scope: 'row' }, file.name), el('td', {}, fileCell(file)))))) : null);
}

function drawCrash(step) {
  const outcomes = step.event ? step.event.crash : step.boot.crash;
  const kinds = [...new Set(outcomes)].sort((a, b) => a - b);
  return kinds.map(j => drawOutcome(step, j, run.fills.filter((_, i) => outcomes[i] === j), kinds.length === 1));
}

const CARDS = {
  terminals: { title: 'Terminals', draw: step => run.terminals.map(t => drawTerminal(step, t)) },
  processes: { title: 'Processes', draw: drawProcesses },
  changes: { title: 'Changes of files', draw: drawChanges },
  files: { title: 'Files', draw: drawFiles },
  disk: { title: 'Disk', note: 'writes of this boot, by place', draw: drawDisk },
  crash: { title: 'If it crashed here', draw: drawCrash },
  registers: { title: 'Registers', draw: drawRegisters },
};

// ---- the score: a column for each step, from left to right ----

class Score {
  constructor(width) {
    this.width = width;
    this.narrow = width < 600;
    this.left = this.narrow ? 46 : 96;
    this.column = (width - this.left) / steps.length;
    this.parts = [];
    this.y = 6;
  }

  x(place) {
    return this.left + place * this.column;
  }

  label(text, short, height) {
    this.parts.push(svg('text', { x: 0, y: this.y + height / 2 + 4 }, this.narrow ? short : text));
  }

  // A bar from one step to another; that of an event is kept with its step, for the cone.
  bar(from, to, top, height, kind, step) {
    const width = Math.max(1, (to - from) * this.column - 1);
    const node = svg('rect', { x: this.x(from) + 0.5, y: top, width, height, rx: Math.min(2, this.column / 4), class: kind });
    if (step) step.bars.push(node);
    this.parts.push(node);
  }

  process(p) {
    this.label(`process ${p}`, `P${p}`, 16);
    steps.forEach((step, i) => {
      if (!step.event || step.event.p !== p) return;
      const turn = step.event.does === 'turn';
      this.bar(i, i + 1, turn ? this.y + 5 : this.y, turn ? 6 : 16, step.event.does, step);
      if (step.event.does === 'waits' && this.column > 9) {
        this.parts.push(svg('path', { d: `M${this.x(i) + this.column / 2 - 2},${this.y + 4}v8m4,0v-8`, class: 'pause' }));
      }
    });
    this.y += 22;
  }

  // What is held for a time and then safe: a lane for each, which a later one takes again. A thin bar is held, so that grey tells it too.
  track(text, short, most, itemsOf) {
    const count = Math.max(0, ...run.boots.map(boot => itemsOf(boot).length));
    if (!count) return;
    const lanes = Math.min(count, most), lane = lanes > 4 ? 7 : 10, height = Math.max(14, lanes * lane);
    this.label(text, short, height);
    for (const boot of run.boots) {
      const items = itemsOf(boot), end = boot.first + boot.events.length + 1;
      items.forEach(([from, safe], k) => {
        const next = items[k + lanes];
        const stop = next ? boot.first + next[0] : end, turn = Math.min(stop, boot.first + safe), top = this.y + k % lanes * lane;
        if (turn > boot.first + from) this.bar(boot.first + from, turn, top + lane * 0.2, lane * 0.45, 'held');
        if (turn < stop) this.bar(turn, stop, top, lane - 1.5, 'safe');
      });
    }
    this.y += height + 8;
  }

  disk() {
    if (!run.boots.some(boot => boot.writes.length)) return;
    this.label('disk', 'disk', 12);
    for (const boot of run.boots) {
      for (const write of boot.writes) this.bar(boot.first + write.from, boot.first + Math.min(write.to, boot.events.length + 1), this.y + 1, 10, 'flying');
    }
    this.y += 22;
  }

  crashes() {
    for (const boot of run.boots.slice(1)) {
      this.parts.push(svg('rect', { x: this.x(boot.first), y: 0, width: Math.max(1, this.column), height: this.y, class: 'break' }));
      const place = `translate(${this.x(boot.first) + this.column / 2 + 4},${this.y / 2}) rotate(-90)`;
      if (this.column > 13) this.parts.push(svg('text', { transform: place, class: 'word' }, 'crash'));
    }
  }

  draw() {
    const processes = Math.min(16, Math.max(...run.boots.map(boot => boot.processes.length)));
    for (let p = 1; p <= processes; p++) this.process(p);
    this.track('changes', 'chg', 6, boot => boot.changes.map(change => [change.e, change.kept]));
    this.disk();
    for (const t of run.terminals) {
      this.track(`terminal ${t}`, `T${t}`, 4, boot => boot.outputs.filter(output => output.t === t).map(output => [output.e, output.shown]));
    }
    this.crashes();
    this.cursor = svg('rect', { y: 1, width: Math.max(2, this.column), height: this.y - 2, rx: 3, class: 'cursor' });
    const hatch = svg('pattern', { id: 'hatch', width: 5, height: 5, patternUnits: 'userSpaceOnUse', patternTransform: 'rotate(45)' },
      svg('rect', { width: 5, height: 5, class: 'hatch-ground' }), svg('rect', { width: 2, height: 5, class: 'hatch-line' }));
    const chart = svg('svg', { width: this.width, height: this.y, viewBox: `0 0 ${this.width} ${this.y}` }, svg('defs', {}, hatch), this.cursor, this.parts);
    const goTo = event => {
      const place = Math.floor((event.clientX - chart.getBoundingClientRect().left - this.left) / this.column);
      if (place >= 0) go(place);
    };
    chart.addEventListener('pointerdown', goTo);
    chart.addEventListener('pointermove', event => { if (event.buttons & 1) goTo(event); });
    return chart;
  }
}

// ---- the list of events ----

function shortAnswer(event) {
  if (event.does === 'complete') return `${event.committed} committed`;
  if (event.does === 'cut') return plural(event.takes, 'change');
  return event.call && event.does !== 'turn' ? event.call : event.answer;
}

function row(place, step) {
  const { event, boot } = step;
  const line = event ? event.line : boot.before ? boot.before.line : 'boot';
  const answer = event ? shortAnswer(event) : boot.before ? `boot ${step.b + 1}` : '';
  const click = () => {
    setCone(now !== place || !coneOn);
    go(place);
  };
  step.bars = [];
  step.row = el('button', { type: 'button', class: `event${!event && boot.before ? ' crashed' : ''}`, tabindex: -1, onclick: click },
    el('span', { class: 'n' }, event ? String(event.n) : ''), el('span', { class: 'l' }, line), el('span', { class: 'a' }, answer), el('span', { class: 'sr' }));
  const refused = boot.refused.filter(other => other.after === step.n);
  return [el('li', {}, step.row),
    refused.map(other => el('li', { class: 'refused' }, el('span', { class: 'l' }, other.line), el('span', { class: 'a' }, other.answer)))];
}

// ---- the page ----

const $ = {};      // the parts that change
let now = 0, coneOn = false, addressing = 0, resizing = 0;

function card(name, { title, note }) {
  $[name] = el('div', { class: 'body' });
  return el('section', { class: `card ${name}`, 'aria-labelledby': `h-${name}` },
    el('h3', { id: `h-${name}` }, title, note ? el('span', { class: 'note' }, note) : null), $[name]);
}

function header(events) {
  const counts = [plural(events, 'event'), plural(run.boots[0].processes.length, 'process'), many ? plural(run.boots.length, 'boot') : ''];
  return el('header', {}, el('h1', {}, run.name), el('p', { class: 'counts' }, counts.filter(Boolean).join(' · ')),
    el('p', { class: 'legend' }, mark('held', 'held back, not on the disk'), mark('flying', 'a write in flight'), mark('safe', 'shown, on the disk')));
}

function bar() {
  const button = (label, text, by) => el('button', { type: 'button', 'aria-label': label, title: label, onclick: () => go(now + by) }, text);
  $.slider = el('input', {
    type: 'range', min: 0, max: steps.length - 1, value: 0, step: 1, 'aria-label': 'Event', oninput: () => go(Number($.slider.value)),
  });
  $.where = el('span', { class: 'where' });
  $.cone = el('button', { type: 'button', class: 'toggle', 'aria-pressed': 'false', title: 'What this event rests on (c)', onclick: () => setCone(!coneOn) }, 'Cone');
  return el('div', { class: 'bar', role: 'group', 'aria-label': 'Walk through the run' },
    button('Event before (left arrow)', '←', -1), $.slider, button('Next event (right arrow)', '→', 1), $.where, $.cone);
}

function nowPart() {
  $.title = el('h2', { class: 'line' });
  $.says = el('p', { class: 'says' });
  $.rests = el('p', { class: 'rests' });
  $.now = el('div', { class: 'now', id: 'now', tabindex: -1, role: 'status', 'aria-live': 'polite', 'aria-atomic': 'true' }, $.title, $.says, $.rests);
  return $.now;
}

function footer() {
  const keys = [['←', ' '], ['→', ' event by event, '], ['Home', ' '], ['End', ' first and last, '], ['c', ' cone. ']];
  return el('footer', {}, run.left ? el('p', {}, `${plural(run.left, 'event')} of the run after these ${run.left === 1 ? 'is' : 'are'} not on this page.`) : null,
    el('p', {}, keys.map(([key, text]) => [el('kbd', {}, key), text]),
      'Above, a thin bar is a Turn, a box a call, and a hollow box with two strokes a call that waits. The address names the event. ', run.made));
}

function build() {
  const events = steps.filter(step => step.event).length;
  $.score = el('div', { class: 'score', 'aria-hidden': 'true' });
  $.events = el('ol', { class: 'events', css: { '--digits': String(String(events).length) } }, steps.map((step, i) => row(i, step)));
  document.body.append(
    el('a', { class: 'skip', href: '#now', onclick: event => { event.preventDefault(); $.now.focus(); } }, 'To the event'),
    header(events), bar(), $.score,
    el('main', {}, nowPart(),
      el('nav', { class: 'card list', 'aria-label': 'Events' }, el('h3', {}, 'Events', el('span', { class: 'note' }, 'a click shows the cone')), $.events),
      el('div', { class: 'cards' }, Object.entries(CARDS).map(([name, of]) => card(name, of)))),
    footer());
}

function drawCards(step) {
  for (const [name, { draw }] of Object.entries(CARDS)) $[name].replaceChildren(...[draw(step)].flat());
}

// Gives each card the greatest height that it needs, so that nothing moves from event to event. Of a long run some steps are tried.
function steady() {
  const most = {};
  for (const name in CARDS) $[name].style.minHeight = '';
  for (let i = 0; i < steps.length; i += Math.ceil(steps.length / 60)) {
    drawCards(steps[i]);
    for (const name in CARDS) most[name] = Math.max(most[name] || 0, $[name].scrollHeight);
  }
  for (const name in CARDS) $[name].style.minHeight = `${Math.min(most[name], 460)}px`;
}

function layOut() {
  for (const step of steps) Object.assign(step, { bars: [], within: null, coned: null });
  const score = new Score($.score.clientWidth || 1000);
  $.score.replaceChildren(score.draw());
  $.columns = score;
  steady();
}

// ---- the cone of the event that is shown ----

function drawCone(step) {
  const cone = coneOn ? coneOf(step) : null;
  const coned = cone !== null;
  document.body.classList.toggle('coned', coned);
  for (const other of steps) {
    const within = coned && other.boot === step.boot && cone.has(other.n);
    if (other.within === within && other.coned === coned) continue;
    Object.assign(other, { within, coned });
    other.row.classList.toggle('within', within);
    other.row.lastChild.textContent = within ? ', in the cone' : '';
    for (const node of other.bars) node.classList.toggle('within', within);
  }
  if (!coned) return coneOn && step.event ? 'An event of the disk has no cone.' : '';
  const count = cone.size - 1, who = Object.keys(step.event.cone);
  const changes = step.boot.changes.filter(change => cone.has(change.e)).map(change => change.number);
  return `Event ${step.n} rests on ${plural(count, 'earlier event')}${count ? `, of process${who.length > 1 ? 'es' : ''} ${listed(who)}` : ''}. `
    + `In its cone: ${changesOf(changes)}.`;
}

function setCone(on) {
  coneOn = on;
  $.cone.setAttribute('aria-pressed', String(on));
  $.rests.textContent = drawCone(steps[now]);
}

// ---- going from step to step ----

function drawTitle({ boot, event }) {
  const call = event && event.does !== 'turn' && event.call;
  $.title.replaceChildren(el('span', { class: 'n' }, event ? String(event.n) : ''),
    el('code', {}, event ? event.line : boot.before ? boot.before.line : 'boot'),
    call ? el('code', { class: 'call' }, call + (event.does === 'call' ? ` = ${event.reply}` : '')) : '',
    event ? el('span', { class: 'answer' }, event.answer) : '');
}

function drawPlace(step) {
  const name = step.event ? `event ${step.n}` : step.b ? `crash, boot ${step.b + 1}` : 'boot';
  $.slider.value = now;
  $.slider.setAttribute('aria-valuetext', `${name}${many && step.event ? ` of boot ${step.b + 1}` : ''}`);
  $.where.textContent = `${step.n} of ${step.boot.events.length}${many ? ` · boot ${step.b + 1}` : ''}`;
  $.columns.cursor.setAttribute('x', $.columns.x(now));
  step.row.setAttribute('aria-current', 'step');
  step.row.tabIndex = 0;
  const box = $.events.getBoundingClientRect(), place = step.row.getBoundingClientRect();
  if (place.top < box.top || place.bottom > box.bottom) $.events.scrollTop += place.top - box.top - box.height / 2;
}

// Shows a step. The address follows a little later, since browsers throttle how often it may change.
function go(to, addressed) {
  steps[now].row.removeAttribute('aria-current');
  steps[now].row.tabIndex = -1;
  now = Math.max(0, Math.min(steps.length - 1, to));
  const step = steps[now];
  drawTitle(step);
  $.says.textContent = sentence(step);
  drawCards(step);
  $.rests.textContent = drawCone(step);
  drawPlace(step);
  clearTimeout(addressing);
  if (!addressed) addressing = setTimeout(() => history.replaceState(null, '', addressOf(steps[now])), 120);
}

function press(event) {
  if (event.altKey || event.ctrlKey || event.metaKey) return;
  const inList = $.events.contains(document.activeElement);
  const to = { ArrowLeft: now - 1, ArrowRight: now + 1, Home: 0, End: steps.length - 1, ...(inList ? { ArrowUp: now - 1, ArrowDown: now + 1 } : {}) };
  if (event.key === 'c') setCone(!coneOn);
  else if (event.key === 'Escape') setCone(false);
  else if (event.key in to && document.activeElement !== $.slider) {
    go(to[event.key]);
    if (inList) steps[now].row.focus({ preventScroll: true });
    event.preventDefault();
  }
}

document.title = `${run.name}: a run`;
build();
layOut();
go(stepAt(location.hash) || 0, true);
document.addEventListener('keydown', press);
addEventListener('hashchange', () => { const to = stepAt(location.hash); if (to !== null) go(to, true); });
addEventListener('resize', () => {
  clearTimeout(resizing);
  resizing = setTimeout(() => { layOut(); go(now, true); }, 100);
});
