// Sorts, filters and pages the tables. All rows stand in the page, to be read and printed where no script runs; where one does, the browser
// hands it their lines as a text, and some hundred at a time become rows: so 20,000 are as quick as 20.
'use strict';

const PAGE = 200;
const METRES = { m: 1, cm: 0.01, mm: 0.001 };
const counted = new Intl.NumberFormat('en').format;

function made(name, attributes, ...inside) {
  const element = document.createElement(name);
  for (const [key, value] of Object.entries(attributes)) element.setAttribute(key, value);
  element.append(...inside);
  return element;
}

const plain = (a, b) => (a < b ? -1 : a > b ? 1 : 0);
// of a band the metres, 0 of what is no band
function metres(band) {
  const [, number, unit] = /^([\d.]+)([cm]?m)$/.exec(band) ?? [];
  return unit ? number * METRES[unit] : 0;
}
// how two texts of a column compare, by its data-order; a number may have more digits than a floating one holds
const ORDERS = {
  number: (a, b) => a.length - b.length || plain(a, b),
  band: (a, b) => metres(a) - metres(b) || plain(a, b),
};

const MARKS = { amp: '&', lt: '<', gt: '>', quot: '"' };

// A line of the table as it is filtered and sorted: its cells in small letters. A text stands behind every second tag.
function read(line) {
  const cells = line.toLowerCase().split(/<[^>]*>/).filter((text, place) => place > 1 && place % 2 === 0);
  if (line.includes('&')) cells.forEach((text, place) => { cells[place] = text.replace(/&([a-z]+);/g, (mark, name) => MARKS[name]); });
  cells.pop(); // behind the last tag
  // words of the box have no line break in them, and cells neither: a text with one between the cells holds a word only where a cell does
  return { line, fate: line.split('"', 2)[1], cells, text: cells.join('\n'), ranks: [] };
}

// The table that a `noscript` holds, with its box, its line of status and its pages; `named` is what its rows are.
function live(held, named) {
  const lines = held.textContent.split('\n');
  const isRow = line => line.startsWith('<tr class=');
  held.insertAdjacentHTML('afterend', lines.filter(line => !isRow(line)).join('\n'));
  const table = held.nextElementSibling, body = table.tBodies[0], heads = [...table.tHead.rows[0].cells];
  const rows = lines.filter(isRow).map(read);
  const off = new Set();
  let shown = rows, first = 0, sorted = 0, down = false;

  const box = made('input', { type: 'search', id: `filter-${table.id}`, placeholder: 'such as 40m ssb', autocomplete: 'off', spellcheck: 'false',
    'aria-controls': table.id });
  const label = made('label', { for: box.id }, `Filter ${named}`);
  const status = made('p', { role: 'status', 'aria-live': 'polite' });
  const range = made('span', {});
  const to = { First: () => 0, Previous: () => first - PAGE, Next: () => first + PAGE, Last: () => end() };
  const buttons = Object.keys(to).map(name => made('button', { type: 'button', 'aria-label': `${name} page` }, name));
  const pages = made('nav', { class: 'pages', 'aria-label': `Pages of ${named}` }, ...buttons.slice(0, 2), range, ...buttons.slice(2));

  const end = () => Math.max(0, Math.ceil(shown.length / PAGE) - 1) * PAGE;
  const places = () => `rows ${counted(first + 1)} to ${counted(Math.min(first + PAGE, shown.length))}`;

  // roles are what a table laid out as cards loses in some browsers, places what a screen reader cannot count in one page
  function lay(part, before) {
    body.innerHTML = part.map(row => row.line).join('');
    [...body.rows].forEach((row, place) => {
      row.setAttribute('role', 'row');
      row.setAttribute('aria-rowindex', before + place + 2);
      for (const cell of row.children) cell.setAttribute('role', cell.localName === 'th' ? 'rowheader' : 'cell');
    });
    table.setAttribute('aria-rowcount', shown.length + 1);
  }
  function tell(inView) {
    const order = `sorted by ${heads[sorted].textContent}, ${down ? 'descending' : 'ascending'}`;
    status.textContent = `${counted(shown.length)} of ${counted(rows.length)} ${named} shown, ${order}${inView}`;
  }
  function show(from) {
    first = Math.min(Math.max(from, 0), end());
    lay(shown.slice(first, first + PAGE), first);
    const many = shown.length > PAGE;
    pages.hidden = !many;
    range.textContent = `${places()} of ${counted(shown.length)}`;
    // a button that has nowhere to go stays where it is, and keeps the focus
    buttons.forEach((button, place) => button.setAttribute('aria-disabled', place < 2 ? first === 0 : first === end()));
    tell(many ? `; ${places()} in view` : '');
  }
  function filter() {
    const words = box.value.toLowerCase().split(/\s+/).filter(Boolean);
    shown = rows.filter(row => !off.has(row.fate) && words.every(word => row.text.includes(word)));
    show(0);
  }
  // rows are sorted by the ranks of their texts in the column, found once; those of one rank stay as they were
  function sort(column) {
    if (rows.length > 0 && rows[0].ranks[column] === undefined) {
      const texts = [...new Set(rows.map(row => row.cells[column]))].sort(ORDERS[heads[column].dataset.order] ?? plain);
      const ranks = new Map(texts.map((text, rank) => [text, rank]));
      for (const row of rows) row.ranks[column] = ranks.get(row.cells[column]);
    }
    down = sorted === column && !down;
    sorted = column;
    const sign = down ? -1 : 1;
    rows.sort((a, b) => sign * (a.ranks[column] - b.ranks[column]));
    tellOrder();
    filter();
  }
  function tellOrder() {
    for (const head of heads) head.removeAttribute('aria-sort');
    heads[sorted].setAttribute('aria-sort', down ? 'descending' : 'ascending');
  }

  heads.forEach((head, column) => {
    const button = made('button', { type: 'button' }, head.textContent);
    button.addEventListener('click', () => sort(column));
    head.replaceChildren(button);
  });
  buttons.forEach((button, place) => button.addEventListener('click', () => {
    if (button.getAttribute('aria-disabled') === 'true') return;
    show(Object.values(to)[place]());
    if (table.getBoundingClientRect().top < 0) table.scrollIntoView();
  }));
  box.addEventListener('input', filter);
  // paper has no pages to turn: it gets every row that passes
  addEventListener('beforeprint', () => {
    lay(shown, 0);
    tell('');
  });
  addEventListener('afterprint', () => show(first));

  table.classList.add('live');
  tellOrder();
  table.before(made('div', { class: 'controls' }, label, box, status));
  table.after(pages);
  show(0);
  return {
    has: fate => rows.some(row => row.fate === fate),
    // whether the fate is shown from now on
    toggle(fate) {
      if (!off.delete(fate)) off.add(fate);
      filter();
      return !off.has(fate);
    },
  };
}

const [records] = Array.from(document.querySelectorAll('noscript'), held => live(held, held.className));
for (const part of document.querySelectorAll('#bar li')) {
  const fate = part.className;
  if (!records.has(fate)) continue;
  const button = made('button', { type: 'button', 'aria-pressed': 'true', title: `Hide or show ${fate}` }, ...part.firstElementChild.childNodes);
  button.addEventListener('click', () => button.setAttribute('aria-pressed', records.toggle(fate)));
  part.replaceChildren(button);
}
