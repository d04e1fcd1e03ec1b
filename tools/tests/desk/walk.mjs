// node walk.mjs ADDRESS: the page of the desk at this address, over a document that draws nothing, walked through; what is
// shown on the way, a line of JSON each.
import './asking.mjs';
import {element} from './dom.mjs';

const PAGE = '../../toolbox/desk/page', PAUSE = 20;
element('pace').value = 'fast';
const {act, acts, assemble, move, put_stops, run_or_pause} = await import(`${PAGE}/board.js`);
const {draw_why} = await import(`${PAGE}/processor.js`);
await import(`${PAGE}/main.js`);

const text = id => element(id).textContent, rows = id => element(id).children;
const all = one => [one.textContent, ...one.children.map(all)].join('');
const tell = (what, more) => console.log(JSON.stringify({what, now: text('now'), said: text('said'), more}));
async function until(is) {
  while (!is()) await new Promise(go => setTimeout(go, PAUSE));
}
async function write(source) {
  element('source').value = source;
  await acts(assemble);
}

await until(() => text('now') === 'clock 10,000');
tell('first', [text('name'), all(element('screen')).trim(), rows('trail').length]);
for (const word of ['back', 'step']) {
  await acts(() => move(word));
  tell(word);
}
await acts(() => move('go to', {clock: 0}));
await acts(() => put_stops([{place: ':26'}]));
run_or_pause();
await until(() => text('said') === 'a stop is met');
await act(draw_why);
tell('stop', element('why').children.map(all));
await write('SEGMENT MAIN AT 0F000h\nstart: MVO AX,1\nENDS\n');
tell('refused', element('refusals').children.map(all));
await write('SEGMENT MAIN AT 0F000h\nstart: INT 5\nENDS\nSEGMENT RESET AT 0FFFFh\n JMP FAR start\nENDS\n');
await act(draw_why);
tell('why', element('why').children.map(all));
process.exit(0);
