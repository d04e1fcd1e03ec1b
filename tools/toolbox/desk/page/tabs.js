/* Tabs, by arrows too; and pages of the documentation. */
import {$, ask, say} from './asking.js';
import {act, acts} from './board.js';
import {draw_data} from './data.js';
import {draw_paper} from './editor.js';
import {draw_chips, draw_memory} from './processor.js';
export let page = null;
function choose_tab(tab) {
  for (const it of document.querySelectorAll('[role="tab"]')) {
    const is = it === tab;
    it.setAttribute('aria-selected', String(is));
    it.tabIndex = is ? 0 : -1;
    $(it.getAttribute('aria-controls')).hidden = !is;
  }
  $('more').parentNode.classList.toggle('tall', ['tab-page', 'tab-chips'].includes(tab.id));
  draw_paper(true);
  if (tab.id === 'tab-memory') act(draw_memory);
  if (tab.id === 'tab-chips') act(draw_chips);
  if (tab.id === 'tab-data') act(draw_data);
  if (tab.id === 'tab-page') to_anchor();
  if (tab.id === 'tab-trail') $('trail').scrollTop = $('trail').scrollHeight;
}
$('tabs').addEventListener('click', event => {
  if (event.target.role === 'tab' || event.target.getAttribute('role') === 'tab') choose_tab(event.target);
});
$('tabs').addEventListener('keydown', event => {
  const all = [...document.querySelectorAll('[role="tab"]')].filter(it => !it.hidden),
    at = all.indexOf(document.activeElement);
  const to = {ArrowRight: at + 1, ArrowLeft: at - 1, Home: 0, End: all.length - 1}[event.key];
  if (to === undefined) return;
  event.preventDefault();
  const tab = all[(to + all.length) % all.length];
  choose_tab(tab); tab.focus();
});

export async function show_page(name, anchor, isQuiet = false) {
  if (name) {
    const answer = await ask('page', {name});
    if (answer.sorry) { say(answer.sorry); return; }
    $('page-text').innerHTML = answer.html;
    page = name;
  }
  const there = anchor && $('page-text').querySelector(`[data-name="${anchor}"]`);
  if (!isQuiet) choose_tab($('tab-page'));
  $('page').scrollTop = 0;
  if (there) { $('page').dataset.anchor = anchor; to_anchor(); }
}
function to_anchor() {
  const there = $('page').dataset.anchor && $('page-text').querySelector(`[data-name="${$('page').dataset.anchor}"]`);
  if (there) $('page').scrollTop = there.offsetTop - $('page').offsetTop - 4;
}
$('page-text').addEventListener('click', event => {
  const link = event.target.closest('a');
  if (!link) return;
  event.preventDefault();
  acts(() => show_page(link.dataset.page, link.dataset.anchor));
});

