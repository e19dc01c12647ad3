"""The scripts by which checks/outside/page finds what a page shows, what does not fit, and what is not joined. Each gives a text in JSON."""
# What a page shows, as a script in it finds it.
SHOWN = """(() => {
const own = row => [...row.children].slice(bySource ? 1 : 0);
const texts = row => own(row).map(cell => cell.firstChild ? cell.firstChild.textContent : '');
const now = document.getElementById('now'), files = [...document.querySelectorAll('#registers > div')].filter(row => row.querySelector('b'));
const cells = id => [...document.querySelectorAll('#' + id + ' > .cell, #' + id + ' > div:last-child > .cell')].map(cell => cell.textContent);
return JSON.stringify({
  where: document.getElementById('where').textContent, slider: document.getElementById('slider').value,
  registers: files.map(row => [...row.children].map(cell => cell.textContent.trim())),
  flight: [...document.querySelectorAll('#flight tr')].map(row => [...row.children].map(cell => cell.textContent)),
  output: document.getElementById('output').textContent, memory: cells('memory'), others: cells('registers'),
  reads: [...document.querySelectorAll('#reads > .cell')].map(cell => cell.textContent), span: document.getElementById('span').textContent,
  title: document.getElementById('title').textContent, more: document.getElementById('more').textContent,
  carried: [...document.querySelectorAll('#picture .carried')].map(text => text.textContent),
  stopped: [...document.querySelectorAll('#picture .stopped')].map(text => text.textContent),
  acting: [...document.querySelectorAll('#picture .acts')].map(shape => shape.nextSibling.textContent),
  now: now && texts(now), looks: now && own(now).map(cell => cell.className.replace('dim', '') || 'plain'),
  words: now && own(now).slice(1, -1).map(cell => cell.lastChild.className == 'word' ? cell.lastChild.textContent : ''),
  changed: files.flatMap(row => [...row.querySelectorAll('.changed')].map(cell => row.firstChild.textContent.trim() + ' ' + cell.textContent)),
  stale: [...document.querySelectorAll('#code tr:not(#now) .word')].filter(word => word.textContent && word.getClientRects().length).length,
  variables: [...document.querySelectorAll('#variables > .cell')].map(cell => cell.textContent),
  play: document.getElementById('play').textContent});
})()"""
# What does not fit into the window, as a script in the page finds it.
UNFIT = """(() => {
const wrong = [], box = element => element.getBoundingClientRect(), px = getComputedStyle(document.documentElement).fontSize;
const say = (holds, what) => holds || wrong.push(what);
const inside = (a, b) => a.left >= b.left - 1 && a.right <= b.right + 1 && a.top >= b.top - 1 && a.bottom <= b.bottom + 1;
const root = document.documentElement, whole = {left: 0, top: 0, right: innerWidth, bottom: innerHeight};
say(root.scrollWidth <= innerWidth && root.scrollHeight <= innerHeight, 'the page is larger than the window');
for (const part of document.querySelectorAll('header, header > *, main, section, footer, footer > *')) {
  if (getComputedStyle(part).display != 'none') say(inside(box(part), whole), part.tagName + ' ' + part.id + ' lies outside');
}
for (const name of ['output', 'flight', 'registers']) say(box(find(name)).right <= box(find('state_part')).right + 1, name + ' is too wide');
const svg = document.querySelector('#picture svg');
say(inside(box(svg), box(find('picture_part'))), 'the picture lies outside its part');
for (const shape of svg.querySelectorAll('text, rect, circle, path')) say(inside(box(shape), box(svg)), shape.textContent + ' lies outside the picture');
const texts = [...svg.querySelectorAll('.name')].map(text => [text, text.previousSibling]);
for (const [text, part] of texts) say(inside(box(text), box(part)), text.textContent + ' lies outside its part');
const row = document.getElementById('now'), code = find('code'), last = code.scrollHeight - code.clientHeight;
if (row) {
  const off = box(row).top + box(row).height / 2 - box(code).top - box(code).height / 2;
  const most = code.scrollTop < 2 || code.scrollTop > last - 2 ? code.clientHeight / 2 : box(row).height;
  say(Math.abs(off) <= most, 'the current instruction is ' + off + ' off the middle');
  say(inside({...box(row).toJSON(), left: 0, right: 0}, {...box(code).toJSON(), left: 0, right: 0}), 'the current instruction is not seen');
}
say(Math.abs(parseFloat(px) - Math.max(12, Math.min(innerWidth / 88, innerHeight / 42))) < .1, 'letters are ' + px);
return JSON.stringify(wrong);
})()"""
# What is wrong with the joins of a page of stages, as a script in it finds it.
UNJOINED = """JSON.stringify(all.code.flatMap(b => [
...b.slots.filter(s => !s.item).map(s => b.name + ': no move of a list stands at ' + s.address + ' ' + s.text),
...b.items.filter(i => !i.gone && !i.slot).map(i => b.name + ': has no place: ' + i.now),
...b.items.filter(i => !i.line).map(i => b.name + ': is of no line: ' + i.now)]))"""
