'use strict';
(function () {
  const all = (selector, within) => Array.from((within || document).querySelectorAll(selector));
  const one = (selector) => document.querySelector(selector);
  const scroll = one('.scroll'), chart = one('.chart'), runs = all('.run');
  const cases = (element) => (element.dataset.cases || '').split(' ');

  // which runs are listed: by a button, and of one case where one is chosen
  const chooser = one('#of-case');
  let filter = 'all';
  const wanted = {
    all: () => true, failure: (run) => run.end === 'failure', budget: (run) => run.end === 'budget',
    fired: (run) => run.fired === '1', learn: (run) => run.mode === 'learn', live: (run) => run.mode === 'live',
  };
  function list() {
    const chosen = chooser ? chooser.value : '';
    runs.forEach((run) => {
      run.hidden = !(wanted[filter](run.dataset) && (!chosen || cases(run).includes(chosen)));
    });
    all('[data-filter]').forEach((button) => button.setAttribute('aria-pressed', button.dataset.filter === filter));
  }
  function choose(name, chosen) {
    filter = name;
    if (chooser) chooser.value = chosen;
    list();
  }
  all('[data-filter]').forEach((button) => button.addEventListener('click', () => {
    filter = button.dataset.filter;
    list();
  }));
  if (chooser) chooser.addEventListener('change', list);

  // a link to a run or to a case opens it
  function visit(hash) {
    const target = hash.length > 1 && document.getElementById(hash.slice(1));
    if (!target) return;
    if (target.hidden) choose('all', '');
    if (target.tagName === 'DETAILS') target.open = true;
    if (!target.classList.contains('run')) return;
    all('.chosen').forEach((element) => element.classList.remove('chosen'));
    target.classList.add('chosen');
    const bar = one('a.bar[href="' + hash + '"]');
    if (bar) bar.classList.add('chosen');
  }
  document.addEventListener('click', (event) => {
    const link = event.target.closest && event.target.closest('a[href^="#"]');
    if (link) visit(link.getAttribute('href'));
  });
  window.addEventListener('hashchange', () => visit(location.hash));

  // the runs of a case, marked in the timeline or listed
  function show(bar) {
    const box = bar.getBoundingClientRect(), frame = scroll.getBoundingClientRect();
    scroll.scrollLeft += box.left - frame.left - frame.width / 3;
  }
  all('[data-mark]').forEach((button) => button.addEventListener('click', () => {
    const on = button.getAttribute('aria-pressed') !== 'true';
    all('[data-mark]').forEach((other) => other.setAttribute('aria-pressed', 'false'));
    button.setAttribute('aria-pressed', String(on));
    const bars = all('a.bar', chart);
    bars.forEach((bar) => bar.classList.toggle('marked', on && cases(bar).includes(button.dataset.mark)));
    chart.classList.toggle('marking', on);
    const first = bars.find((bar) => bar.classList.contains('marked'));
    if (first) {
      show(first);
      one('#timeline').scrollIntoView({ block: 'start' });
    }
  }));
  all('[data-list]').forEach((button) => button.addEventListener('click', () => {
    choose('all', button.dataset.list);
    one('#runs').scrollIntoView({ block: 'start' });
  }));

  // the overview: what part of the timeline is in sight
  const overview = one('.overview'), pane = one('.window');
  function follow() {
    const part = scroll.clientWidth / scroll.scrollWidth;
    overview.hidden = part > 0.6;
    pane.style.width = 100 * part + '%';
    pane.style.left = 100 * scroll.scrollLeft / scroll.scrollWidth + '%';
  }
  function jump(event) {
    const box = overview.getBoundingClientRect();
    scroll.scrollLeft = (event.clientX - box.left) / box.width * scroll.scrollWidth - scroll.clientWidth / 2;
  }
  overview.addEventListener('pointerdown', (event) => {
    overview.setPointerCapture(event.pointerId);
    jump(event);
  });
  overview.addEventListener('pointermove', (event) => { if (event.buttons) jump(event); });
  scroll.addEventListener('scroll', follow, { passive: true });
  window.addEventListener('resize', follow);

  // light or dark: the system's choice, until the button is used
  const theme = one('#theme'), root = document.documentElement;
  const system = window.matchMedia('(prefers-color-scheme: dark)');
  const dark = () => (root.dataset.theme ? root.dataset.theme === 'dark' : system.matches);
  const name = () => { theme.textContent = dark() ? 'light' : 'dark'; };
  theme.hidden = false;
  theme.addEventListener('click', () => { root.dataset.theme = dark() ? 'light' : 'dark'; name(); });
  system.addEventListener('change', name);

  // a long timeline begins where the live runs do
  const live = one('a.bar.live');
  if (live) {
    const box = live.getBoundingClientRect(), frame = scroll.getBoundingClientRect();
    if (box.left > frame.right - 80) scroll.scrollLeft = box.left - frame.left - 60;
  }

  name();
  follow();
  visit(location.hash);
})();
