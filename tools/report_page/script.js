'use strict';
// Shows the report that stands in the page. Whatever the report says becomes text, never markup.

// The states of a mutant, those that ask for a test first.
const STATES = {
  Survived: {
    symbol: '\u2717', word: 'survived', isOpen: true, says: 'tests reach its line, none detects',
  },
  NoCoverage: {
    symbol: '\u25cb', word: 'not covered', isOpen: true, says: 'no test reaches its line',
  },
  Killed: { symbol: '\u2713', word: 'killed', isDetected: true, says: 'a test fails on it' },
  Timeout: {
    symbol: '\u221e', word: 'timed out', isDetected: true, says: 'a test takes too many steps',
  },
  RuntimeError: { symbol: '!', word: 'error', says: 'a run of it passed a limit' },
  CompileError: {
    symbol: '\u2013', word: 'not viable', says: 'its class is refused, so it was not run',
  },
  Ignored: { symbol: '~', word: 'ignored', says: 'it was left out' },
  Pending: { symbol: '\u2026', word: 'pending', says: 'it was not run yet' },
};
const BAR = ['Killed', 'Timeout', 'RuntimeError', 'CompileError', 'NoCoverage', 'Survived'];
const FIRST_SHOWN = 100;
const FIRST_TESTS = 8;
const OPENED_AT_ONCE = 200;
const LINES_OF_BLOCK = 50; // what is not in view is laid out by blocks, once it comes there

const KEYWORDS = new Set(`abstract assert boolean break byte case catch char class const continue
  default do double else enum extends final finally float for goto if implements import instanceof
  int interface long native new package private protected public return short static strictfp super
  switch synchronized this throw throws transient try void volatile while true false null`
  .split(/\s+/));
const TOKEN = new RegExp([
  /\/\/[^\n\r]*|\/\*[^]*?(?:\*\/|$)/, /"(?:\\.|[^"\\\n\r])*"?|'(?:\\.|[^'\\\n\r])*'?/,
  /\b\d[\w.]*|[A-Za-z_$][\w$]*/].map(({ source }) => source).join('|'), 'g');
const LINE_END = /\r\n|\r|\n/;
const UNSEEN = /([\p{Cc}\p{Cf}\p{Cs}\p{Zl}\p{Zp}])/u;
const PRIMITIVES = {
  B: 'byte', C: 'char', D: 'double', F: 'float', I: 'int', J: 'long', S: 'short', Z: 'boolean',
};
const ID = /^(.*)\.([^.(]+)\(([^)]*)\).+@\d+:\w+$/s;

const byId = (id) => document.getElementById(id);
const data = JSON.parse(byId('data').textContent);
const { report } = data;

// Elements

function element(tag, attributes, ...children) {
  const made = document.createElement(tag);
  for (const [name, value] of Object.entries(attributes)) {
    if (typeof value === 'function') made.addEventListener(name, value);
    else if (value !== null) made.setAttribute(name, value);
  }
  made.append(...children.flat(Infinity).filter((child) => child !== null));
  return made;
}

// A text in which each character that one does not see stands as U+ and its number.
function shown(text) {
  return text.split(UNSEEN).map((piece) => (piece !== '\t' && UNSEEN.test(piece)
    ? element('span', { class: 'control' }, `U+${hexOf(piece)}`) : piece));
}

function hexOf(character) {
  return character.codePointAt(0).toString(16).toUpperCase().padStart(4, '0');
}

function symbolOf(state) {
  const { symbol } = stateOf(state);
  return element('span', { class: `symbol ${state}`, 'aria-hidden': 'true' }, symbol);
}

const grouped = (number) => number.toLocaleString('en');
const counted = (number, thing) => `${grouped(number)} ${thing}${number === 1 ? '' : 's'}`;

// Puts the first of many items into the parent, and a button that shows more of them.
function putFirst(items, make, parent, size = FIRST_SHOWN) {
  const putFrom = (start) => {
    parent.append(...items.slice(start, start + size).map(make));
    const left = items.length - start - size;
    if (left <= 0) return;
    const button = element('button', { click: () => { more.remove(); putFrom(start + size); } },
      `${grouped(Math.min(left, size))} more of ${grouped(left)}`);
    const more = parent.matches('tbody') ? element('tr', {}, element('td', {}, button))
      : element(parent.matches('ul') ? 'li' : 'div', { class: 'more' }, button);
    parent.append(more);
  };
  putFrom(0);
  return parent;
}

// What the report holds

function stateOf(status) {
  return Object.hasOwn(STATES, status) ? STATES[status] : { symbol: '?', word: status, says: '' };
}

class Counts {
  constructor(list) {
    this.all = list.length;
    this.byState = new Map();
    for (const { status } of list) this.byState.set(status, this.of(status) + 1);
  }

  of(status) { return this.byState.get(status) ?? 0; }

  sum(property) {
    return [...this.byState].reduce((sum, [status, count]) => (
      stateOf(status)[property] ? sum + count : sum), 0);
  }

  get detected() { return this.sum('isDetected'); }

  get open() { return this.sum('isOpen'); }

  // Rounded down, so that 100 % are all.
  get percent() {
    const asked = this.detected + this.open;
    return asked === 0 ? '\u2013' : `${Math.floor((this.detected * 100) / asked)} %`;
  }
}

class SourceFile {
  constructor(name, { language, source, mutants: listed }, changed) {
    this.name = name;
    this.address = wellFormed(name);
    const end = name.lastIndexOf('/');
    this.folder = name.slice(0, Math.max(end, 0));
    this.shortName = name.slice(end + 1);
    this.isJava = language === 'java';
    this.source = source;
    this.lines = source === '' ? [] : source.split(LINE_END);
    this.mutants = listed
      .map((mutant, index) => ({
        ...mutant, index, file: this, line: mutant.location.start.line, newLine: changed[index],
      }))
      .sort((one, other) => one.line - other.line || one.index - other.index);
    this.counts = new Counts(this.mutants);
    this.byLine = new Map();
    for (const mutant of this.mutants) {
      if (!this.byLine.has(mutant.line)) this.byLine.set(mutant.line, []);
      this.byLine.get(mutant.line).push(mutant);
    }
  }

  shownOn(line) { return (this.byLine.get(line) ?? []).filter(isShown); }
}

// A text as it comes back from an address.
function wellFormed(text) {
  return new URLSearchParams({ text }).get('text');
}

const files = Object.entries(report.files)
  .map(([name, file]) => new SourceFile(name, file, data.changed[name]));
const mutants = files.flatMap((file) => file.mutants);
const allCounts = new Counts(mutants);
const states = [...new Set([...Object.keys(STATES), ...allCounts.byState.keys()])]
  .filter((state) => allCounts.of(state) > 0);
const tests = testsOf();

// Each test that the report names, with what it kills and reaches, those with most kills first.
function testsOf() {
  const found = new Map();
  const testOf = (id) => {
    if (!found.has(id)) found.set(id, { id, address: wellFormed(id), kills: [], reaches: [] });
    return found.get(id);
  };
  for (const file of Object.values(report.testFiles ?? {})) {
    for (const { id } of file.tests) testOf(id);
  }
  for (const mutant of mutants) {
    for (const id of mutant.coveredBy ?? []) testOf(id).reaches.push(mutant);
    for (const id of mutant.killedBy ?? []) testOf(id).kills.push(mutant);
  }
  return [...found.values()].sort((one, other) => (
    other.kills.length - one.kills.length || (one.id < other.id ? -1 : 1)));
}

// The method of a mutant's identifier as `name(String, int[])`.
function methodOf(mutant) {
  const match = ID.exec(mutant.id);
  if (!match) return '';
  const [, owner, name, kinds] = match;
  if (name === '<clinit>') return 'static { }';
  const parameters = (kinds.match(/\[*(?:L[^;]*;|[A-Z])/g) ?? []).map(typeOf);
  return `${name === '<init>' ? `new ${owner.split('/').pop()}` : name}(${parameters.join(', ')})`;
}

function typeOf(descriptor) {
  const kind = descriptor.replace(/^\[+/, '');
  const name = kind.startsWith('L') ? kind.slice(1, -1).split('/').pop() : PRIMITIVES[kind] ?? kind;
  return name + '[]'.repeat(descriptor.length - kind.length);
}

// What the reader has chosen

const shownStates = new Set(states);
let here = null; // the mutant that was gone to

const isShown = (mutant) => shownStates.has(mutant.status);
const isOpen = (mutant) => stateOf(mutant.status).isOpen;
const openMutants = () => mutants.filter((mutant) => isOpen(mutant) && isShown(mutant));

// The address of a place in this page: what stands behind `#`.
const addressOf = (names) => `#${new URLSearchParams(names)}`;
const addressOfMutant = ({ file, index }) => addressOf({ file: file.name, mutant: index });

// Source lines

// The lines of a source as lists of nodes, with keywords, texts, numbers and comments in classes.
function markedLines(file) {
  const lines = [[]];
  const add = (text, kind) => text.split(LINE_END).forEach((piece, number) => {
    if (number > 0) lines.push([]);
    if (piece === '') return;
    lines.at(-1).push(kind ? element('span', { class: kind }, shown(piece)) : shown(piece));
  });
  let end = 0;
  for (const match of file.isJava ? file.source.matchAll(TOKEN) : []) {
    const kind = kindOf(match[0]);
    if (kind !== null) {
      add(file.source.slice(end, match.index), null);
      add(match[0], kind);
      end = match.index + match[0].length;
    }
  }
  add(file.source.slice(end), null);
  return lines;
}

function kindOf(token) {
  if (token.startsWith('/')) return 'comment';
  if (/^["']/.test(token)) return 'string';
  if (/^\d/.test(token)) return 'literal';
  return KEYWORDS.has(token) ? 'keyword' : null;
}

// A mutant's source line and what the mutant makes of it, with the part that differs marked.
function diffOf(mutant) {
  const line = mutant.file.lines[mutant.line - 1];
  if (line === undefined) return null;
  const indent = /^\s*/.exec(line)[0].length;
  const old = line.slice(indent);
  if (mutant.newLine === null) return element('div', { class: 'diff' }, shown(old));
  if (mutant.newLine === line) {
    return [element('div', { class: 'diff' }, shown(old)),
      element('p', { class: 'faint' }, 'The line says that already: no test can detect it.')];
  }
  const changed = mutant.newLine.slice(indent);
  const { start, end } = differing(old, changed);
  const partsOf = (text) => [
    shown(text.slice(0, start)),
    element('mark', {}, shown(text.slice(start, text.length - end))),
    shown(text.slice(text.length - end))];
  return element('div', { class: 'diff' },
    element('div', { class: 'old' }, partsOf(old)),
    changed === '' ? null : element('div', { class: 'new' }, partsOf(changed)));
}

// How much two texts have in common at their start and at their end, in whole words and operators.
function differing(one, other) {
  let start = 0;
  const most = Math.min(one.length, other.length);
  while (start < most && one[start] === other[start]) start += 1;
  let end = 0;
  while (end < most - start && one.at(-1 - end) === other.at(-1 - end)) end += 1;
  const isInside = (text, at) => (
    at > 0 && /^(?:\w\w|[^\w\s();]{2})$/.test(text.slice(at - 1, at + 1)));
  while (isInside(one, start) || isInside(other, start)) start -= 1;
  while (isInside(one, one.length - end) || isInside(other, other.length - end)) end -= 1;
  return { start, end };
}

// Parts of views

function barOf(counts) {
  const bar = element('span', { class: 'bar', 'aria-hidden': 'true' });
  for (const state of BAR.filter((each) => counts.of(each) > 0)) {
    const part = element('span', { class: state });
    part.style.width = `${(counts.of(state) * 100) / counts.all}%`;
    bar.append(part);
  }
  return bar;
}

// What a mutator does, in a few words and in full.
const words = new Map(Object.entries(data.words));
const wordsOf = ({ mutatorName }) => words.get(mutatorName) ?? [mutatorName, ''];

function headOf(mutant, place) {
  const { word, says } = stateOf(mutant.status);
  const reason = mutant.statusReason ? `: ${mutant.statusReason}` : '';
  const [few, inFull] = wordsOf(mutant);
  return element('div', { class: 'head' },
    element('span', { class: `state ${mutant.status}`, title: says },
      symbolOf(mutant.status), ` ${word}${reason}`),
    place,
    element('strong', { title: inFull }, shown(mutant.description ?? few)),
    element('code', { class: 'faint' }, shown(methodOf(mutant))));
}

function testList(ids) {
  return putFirst(ids, (id) => element('li', {}, testLink(id)),
    element('ul', { class: 'tests' }), FIRST_TESTS);
}

function testLink(id) {
  return element('a', { href: addressOf({ test: id }) }, shown(id));
}

function testsOfMutant(mutant) {
  const killers = mutant.killedBy ?? [];
  const others = (mutant.coveredBy ?? []).filter((id) => !killers.includes(id));
  if (killers.length === 0) {
    return others.length === 0 ? element('p', {}, 'No test reaches this line.')
      : [element('p', {}, `Reached by ${counted(others.length, 'test')}:`), testList(others)];
  }
  const further = element('details', {
    toggle: () => { if (!further.querySelector('ul')) further.append(testList(others)); },
  }, element('summary', {}, `Reached by ${counted(others.length, 'further test')}`));
  return [element('p', {}, 'Detected by:'), testList(killers), others.length > 0 ? further : null];
}

function mutantCard(mutant) {
  const inFull = wordsOf(mutant)[1];
  return element('div', { class: 'mutant', id: `mutant-${mutant.index}` },
    headOf(mutant, null),
    diffOf(mutant),
    mutant.newLine === null && inFull
      ? element('p', { class: 'faint meaning' }, `${inFull}.`) : null,
    mutant.replacement
      ? element('p', {}, 'Becomes ', element('code', {}, shown(mutant.replacement))) : null,
    testsOfMutant(mutant),
    element('p', {}, element('a', { class: 'mono ident', href: addressOfMutant(mutant) },
      shown(mutant.id))));
}

function mutantList(list) {
  const itemOf = (mutant) => element('li', {},
    headOf(mutant, element('a', { href: addressOfMutant(mutant) },
      shown(`${mutant.file.name}:${mutant.line}`))),
    diffOf(mutant));
  return putFirst(list, itemOf, element('ul', { class: 'cards' }));
}

function tableOf(headings, rows) {
  return element('div', { class: 'wide' }, element('table', {},
    element('thead', {}, element('tr', {},
      headings.map((heading) => element('th', { scope: 'col' }, heading)))),
    putFirst(rows, (row) => element('tr', {}, row()), element('tbody', {}))));
}

function numberCell(number) {
  return element('td', { class: number === 0 ? 'faint' : null }, grouped(number));
}

// Views

function overview() {
  const open = openMutants();
  return [
    element('h1', {}, `${grouped(allCounts.detected)} of ${
      counted(allCounts.detected + allCounts.open, 'mutant')} detected`),
    element('p', { class: 'faint' }, `A mutant is the code with one small change. Survived: ${
      grouped(allCounts.of('Survived'))}, which tests reach and none detects. Not covered: ${
      grouped(allCounts.of('NoCoverage'))}, on lines that no test reaches.`),
    fileTable(),
    element('h2', {}, open.length > 0 ? 'What no test detects' : 'No survivors are shown'),
    mutantList(open)];
}

function fileTable() {
  const headings = ['File', 'detected', '',
    ...states.map((state) => [symbolOf(state), ` ${stateOf(state).word}`]), 'all'];
  return tableOf(headings, files.map((file) => () => [
    element('td', {}, element('a', { href: addressOf({ file: file.name }) }, shown(file.name))),
    element('td', {}, file.counts.percent),
    element('td', { class: 'bars' }, barOf(file.counts)),
    states.map((state) => numberCell(file.counts.of(state))),
    numberCell(file.counts.all)]));
}

function fileView(file) {
  const heading = element('div', { class: 'heading' },
    element('h1', {}, shown(file.name)),
    element('span', { class: 'faint' },
      `${file.counts.percent} detected of ${counted(file.counts.all, 'mutant')}`),
    element('span', { class: 'tools' },
      element('button', { title: 'All its mutants (e)', click: () => openAll(file) }, 'Open all'),
      element('button', { title: 'Close them (Escape)', click: closeAll }, 'Close')));
  const notes = [
    file.source === '' ? [
      'There is no source of this file: only its lines with mutants are shown. ',
      element('code', {}, 'tools/report-page REPORT --sources DIR'), ' adds sources.'] : null,
    file.mutants.some(isShown) ? null : 'No mutant of this file is in a state that is shown.']
    .filter((note) => note !== null).map((note) => element('p', { class: 'faint' }, note));
  return [heading, ...notes, sourceOf(file)];
}

function sourceOf(file) {
  const marked = file.source === '' ? [] : markedLines(file);
  const beyond = [...file.byLine.keys()].filter((line) => line > marked.length);
  const gap = element('div', { class: 'gap' },
    'The source ends here. The class files name further lines: are they of this source?');
  const lines = [
    ...marked.map((nodes, index) => lineOf(file, index + 1, nodes)),
    ...marked.length > 0 && beyond.length > 0 ? [gap] : [],
    ...beyond.map((line) => lineOf(file, line, []))];
  const source = element('div', { class: 'source' });
  while (lines.length > 0) {
    source.append(element('div', { class: 'block' }, lines.splice(0, LINES_OF_BLOCK)));
  }
  return source;
}

function lineOf(file, number, nodes) {
  const there = file.shownOn(number);
  const worst = states.find((state) => (
    stateOf(state).isOpen && there.some(({ status }) => status === state)));
  return element('div', { class: worst ? `line open-${worst}` : 'line', id: `line-${number}` },
    there.length > 0 ? marksOf(file, number, there) : element('span', {}),
    element('span', { class: 'number' }, `${number}`),
    element('code', {}, nodes));
}

function marksOf(file, number, there) {
  const counts = new Counts(there);
  const present = states.filter((state) => counts.of(state) > 0);
  const label = present.map((state) => `${counts.of(state)} ${stateOf(state).word}`).join(', ');
  const toggle = () => (panelOf(number) ? closePanel(number) : openPanel(file, number));
  return element('button', {
    class: 'marks', 'aria-expanded': 'false', 'aria-label': `Line ${number}: ${label}`,
    title: label, click: toggle,
  }, present.map((state) => [symbolOf(state), counts.of(state) > 1 ? counts.of(state) : '', ' ']));
}

function testsView() {
  return [
    element('h1', {}, counted(tests.length, 'test')),
    element('p', { class: 'faint' }, 'A mutant counts for the tests that the report names as its '
      + 'killers. Mostly that is the first that detects it: a test that detects nothing here may '
      + 'only come behind others.'),
    tableOf(['Test', 'detects', 'reaches'], tests.map((test) => () => [
      element('td', {}, testLink(test.id)),
      numberCell(test.kills.length), numberCell(test.reaches.length)]))];
}

function testView(test) {
  const kills = test.kills.filter(isShown);
  const missed = test.reaches.filter((mutant) => isOpen(mutant) && isShown(mutant));
  return [
    element('h1', {}, shown(test.id)),
    element('p', { class: 'faint' }, `It reaches ${counted(test.reaches.length, 'mutant')}, and is `
      + `named as the killer of ${test.kills.length}.`),
    element('h2', {}, `Detects: ${grouped(kills.length)}`), mutantList(kills),
    element('h2', {}, `Reaches, and no test detects: ${grouped(missed.length)}`),
    mutantList(missed)];
}

// Panels below lines

function panelOf(number) {
  const below = byId(`line-${number}`).nextElementSibling;
  return below?.matches('.panel') ? below : null;
}

function openPanel(file, number) {
  const there = file.shownOn(number);
  if (there.length === 0 || panelOf(number)) return;
  const line = byId(`line-${number}`);
  line.querySelector('.marks').setAttribute('aria-expanded', 'true');
  line.after(putFirst(there, mutantCard, element('div', { class: 'panel' })));
}

function closePanel(number) {
  panelOf(number).remove();
  byId(`line-${number}`).querySelector('.marks').setAttribute('aria-expanded', 'false');
}

// Opens the panels of all lines, some at a time, as long as it isn't told otherwise.
let opening = 0;

function openAll(file) {
  opening += 1;
  const mine = opening;
  const lines = [...file?.byLine.keys() ?? []];
  const openNext = () => {
    if (opening !== mine) return;
    for (const number of lines.splice(0, OPENED_AT_ONCE)) openPanel(file, number);
    if (lines.length > 0) setTimeout(openNext);
  };
  openNext();
}

function closeAll() {
  opening += 1;
  for (const panel of document.querySelectorAll('.panel')) {
    panel.previousElementSibling.querySelector('.marks').setAttribute('aria-expanded', 'false');
    panel.remove();
  }
}

// Going about

let shownName = null; // of the view: a step within a file doesn't make it anew

// What the address of the page names.
function place() {
  const named = new URLSearchParams(location.hash.slice(1));
  const found = (list, word) => (named.has(word)
    ? list.find(({ address }) => address === named.get(word)) : undefined);
  const file = found(files, 'file');
  return {
    file,
    test: found(tests, 'test'),
    mutant: file?.mutants.find(({ index }) => `${index}` === named.get('mutant')),
    line: Number(named.get('line')),
    isTests: named.has('tests'),
  };
}

function viewOf({ file, test, isTests }) {
  if (file) return fileView(file);
  if (test) return testView(test);
  return isTests ? testsView() : overview();
}

function show(isAnew) {
  const at = place();
  const { file, test, mutant, line, isTests } = at;
  const name = JSON.stringify([file?.name, test?.id, isTests]);
  if (isAnew || shownName !== name) {
    opening += 1;
    byId('view').replaceChildren(...viewOf(at));
    if (shownName !== name) scrollTo(0, 0);
    shownName = name;
    tellCurrent();
  }
  here = mutant ?? (here?.file === file ? here : null);
  if (mutant) goTo(file, mutant.line, mutant);
  else if (file && line) goTo(file, line, null);
  tellPosition();
}

function goTo(file, number, mutant) {
  for (const old of document.querySelectorAll('.chosen')) old.classList.remove('chosen');
  const line = byId(`line-${number}`);
  if (!line) return;
  openPanel(file, number);
  const card = mutant && byId(`mutant-${mutant.index}`);
  line.classList.add('chosen');
  card?.classList.add('chosen');
  line.scrollIntoView({ block: 'center' });
  card?.scrollIntoView({ block: 'nearest' });
}

// Marks in the column of files the one that is shown.
function tellCurrent() {
  const { file, test, isTests } = place();
  const name = isTests || test ? 'tests' : 'overview';
  for (const link of document.querySelectorAll('nav a')) {
    if (file ? link.dataset.file === file.name : link.dataset.place === name) {
      link.setAttribute('aria-current', 'page');
      link.scrollIntoView({ block: 'nearest' });
    } else {
      link.removeAttribute('aria-current');
    }
  }
}

function tellPosition() {
  const open = openMutants();
  const number = here ? open.indexOf(here) + 1 : 0;
  const all = counted(open.length, 'survivor');
  byId('position').textContent = number > 0 ? `${grouped(number)} of ${all}` : all;
  byId('previous').disabled = open.length === 0;
  byId('next').disabled = open.length === 0;
}

// To the next survivor from where the reader is, or the one before; behind the last is the first.
function step(by) {
  const open = openMutants();
  if (open.length === 0) return;
  const { file } = place();
  const at = open.indexOf(here);
  const first = open.findIndex((mutant) => files.indexOf(mutant.file) >= files.indexOf(file));
  const before = first < 0 ? open.length - 1 : first - 1;
  const index = at >= 0 ? at + by : by > 0 ? before + 1 : before;
  location.hash = addressOfMutant(open.at(index % open.length));
}

function stepFile(by) {
  if (files.length === 0) return;
  const { file } = place();
  const index = file ? files.indexOf(file) + by : Math.min(by, 0);
  location.hash = addressOf({ file: files.at(index % files.length).name });
}

// What stands around the views

function makeHeader() {
  document.title = `${allCounts.percent} of mutants detected`;
  byId('score').append(element('strong', {}, allCounts.percent), element('span', { class: 'faint' },
    ` ${grouped(allCounts.detected)} of ${grouped(allCounts.detected + allCounts.open)} detected`));
  byId('filters').append(...states.map((state) => element('button', {
    class: 'filter', 'aria-pressed': 'true', title: stateOf(state).says, 'data-state': state,
    click: toggleState,
  }, symbolOf(state), element('span', { class: 'word' }, stateOf(state).word),
  ` ${grouped(allCounts.of(state))}`)));
}

function toggleState({ currentTarget: button }) {
  const { state } = button.dataset;
  if (!shownStates.delete(state)) shownStates.add(state);
  button.setAttribute('aria-pressed', `${shownStates.has(state)}`);
  show(true);
}

function makeSide() {
  byId('places').append(...[['overview', 'Overview', '#'],
    ['tests', `Tests (${grouped(tests.length)})`, '#tests']].map(([name, text, href]) => (
    element('li', {}, element('a', { href, 'data-place': name }, text)))));
  listFiles();
}

function listFiles() {
  const wanted = byId('search').value.toLowerCase();
  const found = files.filter(({ name }) => name.toLowerCase().includes(wanted));
  let folder = '';
  const itemOf = (file) => {
    const isNew = file.folder !== folder;
    folder = file.folder;
    return element('li', {},
      isNew ? element('div', { class: 'folder' }, shown(file.folder)) : null, fileLink(file));
  };
  byId('files').replaceChildren(putFirst(found, itemOf, element('ul', {})));
  tellCurrent();
}

function fileLink(file) {
  const { open, all } = file.counts;
  const worst = states.find((state) => file.counts.of(state) > 0) ?? 'Killed';
  return element('a', {
    class: 'file', href: addressOf({ file: file.name }), 'data-file': file.name,
    title: `${file.name}: ${open} of ${counted(all, 'mutant')} not detected`,
  }, element('span', { class: 'name' }, shown(file.shortName)),
  element('span', { class: 'open' }, open > 0 ? `${grouped(open)} ` : '', symbolOf(worst)),
  barOf(file.counts));
}

// The colours are the system's until the reader has chosen.
function changeColours() {
  const chosen = document.documentElement.dataset.theme
    ?? (matchMedia('(prefers-color-scheme: dark)').matches ? 'dark' : 'light');
  const theme = chosen === 'dark' ? 'light' : 'dark';
  document.documentElement.dataset.theme = theme;
  try {
    localStorage.setItem('mutants-theme', theme);
  } catch { /* A page from the disk may have no storage. */ }
}

function recallColours() {
  try {
    const theme = localStorage.getItem('mutants-theme');
    if (['light', 'dark'].includes(theme)) document.documentElement.dataset.theme = theme;
  } catch { /* Then the system's stay. */ }
}

const openHelp = () => byId('words').showModal();
const KEYS = [
  ['j', 'the next survivor', () => step(1)],
  ['k', 'the previous survivor', () => step(-1)],
  [']', 'the next file', () => stepFile(1)],
  ['[', 'the previous file', () => stepFile(-1)],
  ['e', 'open all mutants of this file', () => openAll(place().file)],
  ['Escape', 'close them', closeAll],
  ['o', 'overview', () => { location.hash = ''; }],
  ['t', 'tests', () => { location.hash = 'tests'; }],
  ['/', 'find a file', () => byId('search').focus()],
  ['d', 'light or dark', changeColours],
  ['?', 'this help', openHelp],
];

function makeHelp() {
  const pairs = (list) => element('dl', {}, list.map(([term, text]) => [
    element('dt', {}, term), element('dd', {}, text)]));
  const statePairs = states.map((state) => [
    element('span', { class: state }, symbolOf(state), ` ${stateOf(state).word}`),
    stateOf(state).says]);
  const used = new Set(mutants.map(({ mutatorName }) => mutatorName));
  byId('words').append(
    element('form', { method: 'dialog' }, element('button', {}, 'Close')),
    element('h2', {}, 'Keys'), pairs(KEYS.map(([key, text]) => [element('kbd', {}, key), text])),
    element('h2', {}, 'States'), pairs(statePairs),
    element('h2', {}, 'Mutators'), pairs([...words].filter(([name]) => used.has(name))
      .map(([name, [few, inFull]]) => [element('span', { title: name }, few), inFull])),
    element('p', { class: 'faint' }, 'A mutant changes one instruction of a class file. A changed '
      + 'line is what the source would say, and is shown where the line leaves no doubt of it.'));
}

function onKey(event) {
  if (event.ctrlKey || event.metaKey || event.altKey || byId('words').open) return;
  if (event.target.matches('input')) {
    if (event.key === 'Escape') event.target.blur();
    return;
  }
  const found = KEYS.find(([key]) => key === event.key);
  if (!found) return;
  event.preventDefault();
  found[2]();
}

function tellTop() {
  document.documentElement.style.setProperty('--top', `${byId('top').offsetHeight}px`);
}

function start() {
  recallColours();
  makeHeader();
  makeSide();
  makeHelp();
  byId('search').addEventListener('input', listFiles);
  byId('previous').addEventListener('click', () => step(-1));
  byId('next').addEventListener('click', () => step(1));
  byId('theme').addEventListener('click', changeColours);
  byId('help').addEventListener('click', openHelp);
  addEventListener('keydown', onKey);
  addEventListener('hashchange', () => show(false));
  addEventListener('resize', tellTop);
  tellTop();
  show(true);
}

start();
