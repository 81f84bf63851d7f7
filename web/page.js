'use strict';
// The page only shows: what is worked out is worked out by the modules.
const PAGE = 65536, COUNT = {}, MOST_ROOM = 2 ** 29;
const byId = id => document.getElementById(id);
const bytesOf = text => new TextEncoder().encode(text);
const textOf = bytes => new TextDecoder('utf-8', { ignoreBOM: true }).decode(bytes);
const modules = {};

function moduleOf(name) {
  modules[name] ??= WebAssembly.compile(Uint8Array.from(atob(byId('module-' + name).textContent.trim()), c => c.charCodeAt(0)));
  return modules[name];
}

// Calls an export of a module in a new instance. Bytes, and rooms for what it writes, are passed by their address and length; COUNT
// by the address of a number that it writes: of how many bytes of the first room it filled, then of the second. Gives its answer,
// and what it wrote.
async function call(name, what, ...given) {
  const { exports } = await WebAssembly.instantiate(await moduleOf(name), {});
  const { memory } = exports;
  const sizeOf = it => it instanceof Uint8Array ? it.length : it === COUNT ? 8 : typeof it === 'object' ? it.room : 0;
  const needed = given.reduce((sum, it) => sum + Math.ceil(sizeOf(it) / 16) * 16, 0);
  let next = Number(memory.grow(BigInt(Math.ceil(needed / PAGE)))) * PAGE;
  const words = [], rooms = [], counts = [];
  for (const it of given) {
    if (typeof it === 'number') {
      words.push(it);
      continue;
    }
    words.push(BigInt(next));
    if (it === COUNT) counts.push(next);
    else {
      words.push(BigInt(sizeOf(it)));
      if (it instanceof Uint8Array) new Uint8Array(memory.buffer).set(it, next);
      else rooms.push(next);
    }
    next += Math.ceil(sizeOf(it) / 16) * 16;
  }
  const status = exports[what](...words);
  const filled = counts.map(at => Number(new DataView(memory.buffer).getBigUint64(at, true)));
  return { status, wrote: filled.map((count, i) => textOf(new Uint8Array(memory.buffer, rooms[i], count))) };
}

// Calls with more and more room, until what is written fits.
async function fitting(bytes, asked) {
  for (let room = 2 ** 20 + 4 * bytes.length; ; room *= 4) {
    const answer = await asked(room);
    if (answer.status !== 4 || room > MOST_ROOM) return answer;
  }
}

const audit = bytes => fitting(bytes, room => call('audit', 'cct_audit', bytes, { room }, COUNT));
const captured = (bytes, devices) => fitting(bytes, room =>
  call('show', 'cct_capture', bytes, devices, { room }, { room }, { room }, COUNT, COUNT));
const inWords = bytes => fitting(bytes, room => call('show', 'cct_bench_words', bytes, { room }, COUNT));
const played = bytes => fitting(bytes, room => call('bench', 'cct_play', bytes, { room }, COUNT));
const drawn = bytes => fitting(bytes, room => call('draw', 'cct_picture', bytes, { room }, COUNT));
const paged = bytes => fitting(bytes, room => call('draw', 'cct_html', bytes, { room }, COUNT));

// What the last line of an audit or a transcript means; of a refused line it wants the text up to that line.
async function advice(text, isAudit, last) {
  const refused = /^refused (\d+) /.exec(last);
  const front = refused ? text.split('\n').slice(0, Number(refused[1])).join('\n') + '\n' : '';
  const answer = await call('show', 'cct_advise', isAudit ? 1 : 0, bytesOf(front), bytesOf(last), { room: PAGE }, COUNT);
  return answer.wrote[0].trim() || last.trim();
}

const lastLine = text => text.slice(text.lastIndexOf('\n', text.length - 2) + 1);
const refusedIn = text => Number((/^refused (\d+) /.exec(lastLine(text)) ?? [])[1] ?? 0);

// A text area with the numbers of its lines, one of which may be marked.
class Editor {
  constructor(area) {
    this.area = area;
    [this.gutter, this.bar] = [area.parentNode.querySelector('.gutter'), area.parentNode.querySelector('.bar')];
    area.addEventListener('input', () => this.changed());
    area.addEventListener('scroll', () => this.scrolled());
    this.changed();
  }
  get text() { return this.area.value; }
  set text(value) { this.area.value = value; this.area.scrollTop = 0; this.changed(); }
  changed() {
    this.mark(0);
    const lines = this.text.split('\n').length;
    if (lines !== this.lines) {
      this.lines = lines;
      this.gutter.textContent = Array.from({ length: lines }, (_, i) => i + 1).join('\n') + '\n';
    }
    this.scrolled();
  }
  mark(number) {
    this.marked = number;
    this.bar.hidden = number === 0;
    this.area.toggleAttribute('aria-invalid', number !== 0);
    if (number) {
      const height = parseFloat(getComputedStyle(this.area).lineHeight);
      this.area.scrollTop = Math.max(0, (number - 4) * height);
    }
    this.scrolled();
  }
  scrolled() {
    this.gutter.scrollTop = this.area.scrollTop;
    const style = getComputedStyle(this.area);
    this.bar.style.top = `${parseFloat(style.paddingTop) + (this.marked - 1) * parseFloat(style.lineHeight) - this.area.scrollTop}px`;
  }
}

// Shows lines, each of some kinds in its colour.
function show(out, text) {
  const parts = document.createDocumentFragment();
  let plain = '';
  for (const line of text.split(/(?<=\n)/)) {
    const kind = /^(sure|quiet|doubt|fell|broken|refused)\b/.exec(line);
    if (!kind) {
      plain += line;
      continue;
    }
    if (plain) parts.append(plain);
    plain = '';
    const span = document.createElement('span');
    span.className = kind[1];
    span.textContent = line;
    parts.append(span);
  }
  if (plain) parts.append(plain);
  out.replaceChildren(parts);
}

function say(out, kind, ...words) {
  out.className = 'said ' + kind;
  out.textContent = words.filter(Boolean).join('\n');
}

// Does a piece of work, one after the other, and says so where it fails.
let working = Promise.resolve();
function work(said, done) {
  document.body.dataset.state = 'busy';
  working = working.then(done).catch(error => say(said, 'bad', error instanceof WebAssembly.CompileError
    ? 'This browser has no WebAssembly with 64-bit memory: take Chromium 133, Firefox 134 or later.' : `The module stopped: ${error}`))
    .finally(() => { document.body.dataset.state = 'done'; });
}

// Why no capture was made of a log.
const MADE_ENDS = { 2: 'The devices are refused.', 4: 'It says more than this page keeps.' };
const ENDS = { 0: 'Read to its end.', 1: 'A line is refused.', 4: 'It says more than this page keeps.', 8: 'There was no memory.' };

// The audit.
const log = new Editor(byId('log'));
let audited = '';
const isCapture = text => /^(?:[ \t]*(?:#.*)?\r?\n)*(?:watch |begin\r?\n)/.test(text);
const isTold = line => !/^(sure|quiet) .* -$|^fell .* 0$/.test(line);

function addWatch(addr, check, kind) {
  const row = document.createElement('div');
  row.className = 'watch';
  row.innerHTML = `<label>address <input type="number" min="2" max="255" aria-label="address"></label>
<select aria-label="check"><option value="simple">simple checksum</option><option value="crc">CRC</option></select>
<select aria-label="kind"><option value="acceptor">acceptor</option><option value="hopper">hopper</option>
<option value="bills">bill acceptor</option></select> <button class="link" type="button">remove</button>`;
  const [number, first, second] = row.querySelectorAll('input, select');
  [number.value, first.value, second.value] = [addr, check, kind];
  row.querySelector('button').onclick = () => row.remove();
  byId('watches').append(row);
}

const devices = () => [...byId('watches').querySelectorAll('input, select')].map(it => it.value || '-').join(' ');

async function showAudit() {
  const lines = audited.split(/(?<=\n)/);
  const kept = byId('coins-only').checked ? lines.filter(line => isTold(line.trimEnd())).join('') : audited;
  byId('audit-out').classList.toggle('words', byId('audit-words').checked);
  show(byId('audit-out'), byId('audit-words').checked ? (await inWords(bytesOf(kept))).wrote[0] : kept);
}

// What was given as a capture: with notes on it, where it is a log.
async function captureOf(given) {
  if (isCapture(given)) return { status: 0, capture: given, notes: '' };
  const { status, wrote: [capture, notes] } = await captured(bytesOf(given), bytesOf(devices()));
  return { status, capture, notes: notes.replace(/^cct_show: /gm, '') };
}

async function goAudit() {
  const given = log.text, made = await captureOf(given), isLog = made.capture !== given;
  byId('made').hidden = !isLog;
  byId('made').open = made.status !== 0;
  byId('made-notes').textContent = made.notes;
  byId('made-out').textContent = made.capture;
  const answer = MADE_ENDS[made.status] ? { status: made.status, wrote: [''] } : await audit(bytesOf(made.capture));
  audited = answer.wrote[0];
  const kind = answer.status ? 'bad' : made.status ? 'warn' : 'good';
  say(byId('audit-said'), kind, MADE_ENDS[made.status] ?? ENDS[answer.status] ?? `It ended with status ${answer.status}.`,
    isLog && !MADE_ENDS[made.status] ? 'It was read as a log: below stands the capture that was made of it.' : '',
    made.status === 5 ? "A tenth of its lines, or more, wasn't understood." : made.notes.trim().split('\n').pop(),
    answer.status === 1 ? await advice(made.capture, true, lastLine(audited)) : '');
  log.mark(isLog ? 0 : refusedIn(audited));
  await showAudit();
}

// The bench.
const script = new Editor(byId('script'));
const examples = JSON.parse(byId('examples').textContent);
let transcript = '', picture = '';

async function showPlay() {
  const form = document.querySelector('input[name=form]:checked').value;
  byId('bench-out').hidden = form === 'picture';
  byId('picture').hidden = form !== 'picture';
  byId('bench').classList.toggle('wide', form === 'picture');
  byId('to-page').hidden = !transcript;
  byId('bench-out').classList.toggle('words', form === 'words');
  if (form === 'lines') show(byId('bench-out'), transcript);
  if (form === 'words') show(byId('bench-out'), (await inWords(bytesOf(transcript))).wrote[0]);
  if (form === 'picture') {
    URL.revokeObjectURL(picture);
    picture = URL.createObjectURL(new Blob([(await drawn(bytesOf(transcript))).wrote[0]], { type: 'image/svg+xml' }));
    const image = new Image();
    image.alt = 'The transcript as a sequence picture';
    image.src = picture;
    await image.decode().catch(() => {});
    byId('picture').replaceChildren(image);
  }
}

async function goBench() {
  const given = script.text, answer = await played(bytesOf(given));
  transcript = answer.wrote[0];
  const last = lastLine(transcript);
  say(byId('bench-said'), answer.status ? 'bad' : 'good', ENDS[answer.status] ?? `It ended with status ${answer.status}: ${last}`,
    answer.status && answer.status !== 8 ? await advice(given, false, last) : '');
  script.mark(refusedIn(transcript));
  await showPlay();
}

// Opens the page of the transcript, in a tab of its own.
async function openPage() {
  const address = URL.createObjectURL(new Blob([(await paged(bytesOf(transcript))).wrote[0]], { type: 'text/html' }));
  byId('page').href = address;
  byId('page').click();
}

// What can be pressed, chosen and dropped.
const tabs = [byId('to-audit'), byId('to-bench')];
function open(tab) {
  for (const it of tabs) {
    const isOpen = it === tab;
    it.setAttribute('aria-selected', isOpen);
    it.tabIndex = isOpen ? 0 : -1;
    byId(it.getAttribute('aria-controls')).hidden = !isOpen;
  }
  log.changed();
  script.scrolled();
}
for (const tab of tabs) {
  tab.onclick = () => open(tab);
  tab.onkeydown = event => {
    if (!/^Arrow(Left|Right)$/.test(event.key)) return;
    const other = tabs[1 - tabs.indexOf(tab)];
    open(other);
    other.focus();
  };
}
const startAudit = () => work(byId('audit-said'), goAudit), startBench = () => work(byId('bench-said'), goBench);
byId('go-audit').onclick = startAudit;
byId('go-bench').onclick = startBench;
for (const [area, start] of [[log.area, startAudit], [script.area, startBench]])
  area.addEventListener('keydown', event => {
    if (event.key === 'Enter' && (event.ctrlKey || event.metaKey)) start();
  });
byId('to-page').onclick = () => work(byId('bench-said'), openPage);
byId('coins-only').onchange = byId('audit-words').onchange = () => work(byId('audit-said'), showAudit);
for (const form of document.getElementsByName('form')) form.onchange = () => work(byId('bench-said'), showPlay);

// Takes a file into the half that is shown.
async function take(file) {
  if (!file) return;
  const isScript = byId('audit').hidden, text = await file.text();
  (isScript ? script : log).text = text;
  (isScript ? startBench : startAudit)();
}
byId('choose').onclick = () => byId('file').click();
byId('file').onchange = event => take(event.target.files[0]);
for (const [kind, isOver] of [['dragover', true], ['dragleave', false], ['drop', false]])
  document.addEventListener(kind, event => {
    event.preventDefault();
    for (const { area } of [log, script]) area.parentNode.classList.toggle('over', isOver);
    if (kind === 'drop') take(event.dataTransfer.files[0]);
  });
byId('add').onclick = () => addWatch('3', 'simple', 'hopper');
addWatch('2', 'simple', 'acceptor');

for (const { name, text } of examples.scripts) byId('example').append(new Option(name.replaceAll('_', ' '), text));
byId('example').onchange = event => {
  if (!event.target.value) return;
  script.text = event.target.value;
  startBench();
};
for (const { name, log: bus, watches } of examples.hosts) {
  const button = document.createElement('button');
  [button.className, button.type, button.textContent] = ['link', 'button', name];
  button.onclick = () => {
    byId('watches').replaceChildren();
    for (const watch of watches) addWatch(...watch);
    log.text = bus;
    startAudit();
  };
  byId('samples').append(byId('samples').childNodes.length ? ', ' : 'Or try ', button);
}
if (!byId('module-bench').textContent.trim()) tabs[1].hidden = true;
script.text = examples.scripts.find(it => it.name === 'one_coin')?.text ?? '';
document.body.dataset.state = 'done';
