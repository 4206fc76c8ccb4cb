// look.js: what browser-check asks of a page, from inside it. An element is given by a selector and its place among those that the
// selector finds. The page itself has no script; this one is brought by the browser that the check drives.

// ---- places: what is where, what is seen of it, and where a click meets it
globalThis.look = {};
look.get = (selector, place = 0) => document.querySelectorAll(selector)[place];
look.count = selector => document.querySelectorAll(selector).length;
look.box = (selector, place) => look.get(selector, place).getBoundingClientRect().toJSON();
look.seen = e => { const box = e.getBoundingClientRect(); return box.width > 0 && box.height > 0; };
look.cut = (box, by) => ({left: Math.max(box.left, by.left), right: Math.min(box.right, by.right),
                          top: Math.max(box.top, by.top), bottom: Math.min(box.bottom, by.bottom)});
look.window = () => ({left: 0, top: 0, right: innerWidth, bottom: innerHeight});
look.isEmpty = box => !(box.right - box.left > 0 && box.bottom - box.top > 0);
// the part of an element that the boxes around it leave which hide what is outside of them
look.left = e => {
  let box = e.getBoundingClientRect();
  for (let up = e.parentElement; up && up !== document.body; up = up.parentElement)
    if (getComputedStyle(up).overflow !== 'visible') box = look.cut(box, up.getBoundingClientRect());
  return box;
};
look.part = e => look.cut(look.left(e), look.window());
// the point nearest to the middle of the visible part where a click meets the element, or null
look.spot = (selector, place) => {
  const e = look.get(selector, place), box = look.part(e), points = [];
  for (let i = 0; i <= 16; i++)
    for (let j = 0; j <= 16; j++) points.push([i / 16, j / 16]);
  points.sort((a, b) => Math.hypot(a[0] - .5, a[1] - .5) - Math.hypot(b[0] - .5, b[1] - .5));
  for (const [i, j] of points) {
    const x = box.left + (box.right - box.left) * i, y = box.top + (box.bottom - box.top) * j;
    if (!look.isEmpty(box) && e.contains(document.elementFromPoint(x, y))) return {x, y};
  }
  return null;
};
// whether an element is wholly in view; of a mark that is wide, half the width of the scrolled box is enough
look.inView = (selector, place) => {
  const e = look.get(selector, place), box = e.getBoundingClientRect(), part = look.part(e), scroll = e.closest('.scroll');
  const wide = Math.min(box.width, scroll ? scroll.clientWidth / 2 : innerWidth), high = Math.min(box.height, innerHeight);
  return part.right - part.left >= wide - 1 && part.bottom - part.top >= high - 1 && !look.isEmpty(part);
};
look.rows = () => [...document.querySelectorAll('#lines tbody tr')].map(row => [row.id, row.className, look.seen(row)]);
look.linksBefore = selector => [...document.querySelectorAll('a')].filter(
  e => e.compareDocumentPosition(look.get(selector)) & Node.DOCUMENT_POSITION_FOLLOWING).length;
look.target = selector => look.get(selector).matches(':target');
look.sideways = () => [document.documentElement.scrollWidth, document.documentElement.clientWidth];
look.scroll = () => { const s = look.get('.scroll'); return [s.scrollLeft, s.clientWidth, s.scrollWidth]; };

// ---- colours: what stands behind a text, and the contrast
look.context = document.createElement('canvas').getContext('2d', {willReadFrequently: true});
look.known = new Map();
// a colour of a style as red, green, blue and how much it covers, each from 0 to 1
look.colour = text => {
  if (!look.known.has(text)) {
    const c = look.context;
    c.clearRect(0, 0, 1, 1);
    c.fillStyle = text;
    c.fillRect(0, 0, 1, 1);
    look.known.set(text, [...c.getImageData(0, 0, 1, 1).data].map(one => one / 255));
  }
  return look.known.get(text);
};
look.over = (top, below) => [0, 1, 2].map(i => top[i] * top[3] + below[i] * (1 - top[3])).concat(1);
look.light = c => {
  const [r, g, b] = c.map(one => one <= .04045 ? one / 12.92 : ((one + .055) / 1.055) ** 2.4);
  return .2126 * r + .7152 * g + .0722 * b;
};
look.contrast = (a, b) => {
  const [low, high] = [look.light(a), look.light(b)].sort((x, y) => x - y);
  return (high + .05) / (low + .05);
};
// the colour of a sheet without any style: on the screen that of the browser, on paper white
look.sheet = paper => {
  if (paper) return [1, 1, 1, 1];
  const probe = document.body.appendChild(document.createElement('p'));
  probe.style.background = 'Canvas';
  const found = look.colour(getComputedStyle(probe).backgroundColor);
  probe.remove();
  return found;
};
// what is behind an element, from its own background up; a printer leaves backgrounds out if not told otherwise
look.behind = (e, paper, sheet) => {
  const layers = [];
  for (let up = e; up; up = up.parentElement) {
    const s = getComputedStyle(up);
    if (!paper || s.printColorAdjust === 'exact') layers.push(look.colour(s.backgroundColor));
  }
  return layers.reduceRight((below, top) => look.over(top, below), sheet);
};
// how a row looks: what is behind its cells, and the lines around it
look.manner = selector => {
  const row = look.get(selector), sheet = look.sheet(false);
  return [row, ...row.cells].map(e => {
    const s = getComputedStyle(e), outline = s.outlineStyle !== 'none' && s.outlineWidth;
    return [...look.behind(e, false, sheet), outline, s.boxShadow, s.borderTopWidth, s.borderLeftWidth, s.fontWeight].join();
  }).join('|');
};
look.opacity = e => { let all = 1; for (let up = e; up; up = up.parentElement) all *= getComputedStyle(up).opacity; return all; };
look.paint = (text, opacity) => { const c = look.colour(text); return [c[0], c[1], c[2], c[3] * opacity]; };

// ---- texts: which lie on one another or are cut
// the colours that a shape of a drawing can put over a point in it; null where its pattern leaves the point free
look.paints = e => {
  const s = getComputedStyle(e), opacity = look.opacity(e), pattern = /^url\("?#([^")]*)/.exec(s.fill);
  if (s.fill === 'none' || s.visibility === 'hidden') return [null];
  if (!pattern) return [look.paint(s.fill, opacity * s.fillOpacity)];
  return [null].concat(...[...document.getElementById(pattern[1]).querySelectorAll('*')].map(one => {
    const own = getComputedStyle(one);
    return [own.fill, own.stroke].filter(text => text !== 'none').map(text => look.paint(text, opacity));
  }));
};
look.shapes = new Map();
look.shapesOf = svg => {
  if (!look.shapes.has(svg)) {
    const all = [...svg.querySelectorAll('rect, path, circle, ellipse, polygon')];
    const drawn = all.filter(e => !e.closest('defs, pattern, clipPath'));
    look.shapes.set(svg, drawn.map(e => ({e, box: e.getBoundingClientRect().toJSON()})).filter(one => !look.isEmpty(one.box)));
  }
  return look.shapes.get(svg);
};
look.covers = ({e, box}, x, y) => x >= box.left && x <= box.right && y >= box.top && y <= box.bottom &&
  e.isPointInFill(new DOMPoint(x, y).matrixTransform(e.getScreenCTM().inverse()));
// what can be behind three points of a text in a drawing: the shapes drawn before it, or its own edge
look.behindDrawn = (e, paper, sheet) => {
  const s = getComputedStyle(e), box = e.getBoundingClientRect(), y = (box.top + box.bottom) / 2;
  if (s.paintOrder.startsWith('stroke') && s.stroke !== 'none' && parseFloat(s.strokeWidth) >= 2) return [look.colour(s.stroke)];
  const found = [];
  for (const part of [.1, .5, .9]) {
    let colours = [look.behind(e.closest('svg'), paper, sheet)];
    for (const shape of look.shapesOf(e.closest('svg')).filter(one => look.covers(one, box.left + box.width * part, y))) {
      if (!(shape.e.compareDocumentPosition(e) & Node.DOCUMENT_POSITION_FOLLOWING)) break;
      colours = [].concat(...look.paints(shape.e).map(top => top ? colours.map(below => look.over(top, below)) : colours));
    }
    found.push(...colours);
  }
  return found;
};
look.textContrast = (e, paper, sheet) => {
  const s = getComputedStyle(e), drawn = e.closest('svg');
  const backs = drawn ? look.behindDrawn(e, paper, sheet) : [look.behind(e, paper, sheet)];
  const ink = look.paint(drawn ? s.fill : s.color, look.opacity(e) * (drawn ? s.fillOpacity : 1));
  return Math.min(...backs.map(back => look.contrast(look.over(ink, back), back)));
};
look.texts = () => [...document.body.querySelectorAll('*')].filter(e => !e.closest('title, style, script, defs') && look.seen(e) &&
  [...e.childNodes].some(node => node.nodeType === 3 && node.data.trim()));
look.name = e => {
  const around = e.parentElement.closest('[id]'), kind = [...e.classList].map(one => '.' + one).join('');
  return `${around ? `#${around.id} ` : ''}${e.localName}${kind} "${e.textContent.trim().slice(0, 20)}"`;
};
// the lowest contrasts of the texts that can be seen, at most five hundred of them, taken evenly
look.contrasts = paper => {
  look.shapes.clear();
  const texts = look.texts(), step = Math.ceil(texts.length / 500), sheet = look.sheet(paper);
  const found = texts.filter((e, i) => i % step === 0).map(e => [look.textContrast(e, paper, sheet), look.name(e)]);
  const lowest = found.sort((a, b) => a[0] - b[0]).slice(0, 3), ground = look.light(look.behind(document.body, paper, sheet));
  return {count: found.length, lowest, ground};
};

// ---- signs: what tells marks apart besides colour
look.geometry = e => e.matches('use') ? look.geometry(document.querySelector(e.getAttribute('href'))) :
  e.matches('path, rect, circle, ellipse, polygon, polyline, line') ? [e] : [].concat(...[...e.children].map(look.geometry));
// the outline of a shape, wherever it stands and however large it is
look.outline = e => {
  const points = [], length = e.getTotalLength();
  for (let i = 0; i < 24; i++) points.push(e.getPointAtLength(length * i / 24));
  const left = Math.min(...points.map(p => p.x)), top = Math.min(...points.map(p => p.y));
  const size = Math.max(1, ...points.map(p => p.x - left), ...points.map(p => p.y - top));
  return points.map(p => Math.round((p.x - left) / size * 20) + ' ' + Math.round((p.y - top) / size * 20)).join();
};
look.outlines = e => look.geometry(e).map(look.outline);
// the concentrator of each sync mark, by the frame in its row, and the outlines in the mark; at most 20 of each
look.syncs = () => {
  const found = {};
  for (const mark of document.querySelectorAll('#drawing a.sync')) {
    const source = /src=([0-9A-F]{6})/i.exec(look.get('#L' + mark.id.slice(1) + ' .what code').textContent);
    const all = found[source ? source[1] : '?'] = found[source ? source[1] : '?'] || [];
    if (all.length < 20) all.push(look.outlines(mark));
  }
  return found;
};
look.legend = () => [...document.querySelectorAll('#legend li')].map(item =>
  [item.textContent, [].concat(...[...item.querySelectorAll('svg')].map(look.outlines))]);
// of each band of a mode: its class, its pattern, its top and height, and whether a text stands on it
look.bands = () => {
  const texts = [...document.querySelectorAll('#drawing text')].map(e => e.getBoundingClientRect());
  return [...document.querySelectorAll('#drawing rect.mode')].map(e => {
    const box = e.getBoundingClientRect(), fill = getComputedStyle(e).fill;
    const on = texts.some(t => t.left >= box.left && t.right <= box.right && t.top >= box.top - 4 && t.bottom <= box.bottom + 4);
    return [e.classList.contains('run') ? 'run' : 'fallback', fill.startsWith('url') ? fill : '', box.top, box.height, on];
  });
};
look.unmarked = () => [...document.querySelectorAll('#lines tbody tr')].filter(row => {
  const text = row.querySelector('.answer').textContent.trim(), mark = look.get('#M' + row.id.slice(1) + ' text.number');
  if (row.classList.contains('ok')) return mark || !text.startsWith('0 ');
  const number = row.classList.contains('bad') ? /^BAD\b/.exec(text) : /^[1-9]\d*\b/.exec(text);
  return !number || !mark || mark.textContent.trim() !== number[0];
}).map(row => row.id);
// texts in the drawings of the timeline that lie on another one or go over the edge
look.muddle = () => {
  const found = [], edges = new Map(), all = [...document.querySelectorAll('#timeline svg text')].filter(look.seen);
  const texts = all.map(e => ({e, box: e.getBoundingClientRect()}));
  texts.sort((a, b) => a.box.left - b.box.left).forEach((one, i) => {
    const svg = one.e.closest('svg');
    if (!edges.has(svg)) edges.set(svg, svg.getBoundingClientRect());
    const part = look.cut(one.box, edges.get(svg));
    if (part.right - part.left < one.box.width - 1 || part.bottom - part.top < one.box.height - 3)
      found.push(look.name(one.e) + ' is cut');
    for (let j = i + 1; j < texts.length && texts[j].box.left < one.box.right - 1; j++) {
      const both = look.cut(one.box, texts[j].box);
      if (texts[j].e.closest('svg') === svg && both.right - both.left > 1 && both.bottom - both.top > 3)
        found.push(look.name(one.e) + ' lies on ' + look.name(texts[j].e));
    }
  });
  return found;
};
// how the marks of each kind look but for their colours: tops, heights, patterns, dashes and texts; each with a mark that has it
look.forms = kinds => {
  const found = {}, top = look.box('#drawing').top;
  for (const mark of document.querySelectorAll('#drawing a[id]')) {
    const parts = [...mark.querySelectorAll('path, rect, circle, ellipse, polygon, use, text')].map(e => {
      const box = e.getBoundingClientRect(), s = getComputedStyle(e);
      return [Math.round(box.top - top), Math.round(box.height), s.fill.startsWith('url'), s.strokeDasharray, e.textContent];
    });
    const kind = kinds.find(one => mark.classList.contains(one)) || 'no kind';
    (found[kind] = found[kind] || {})[JSON.stringify(parts)] = mark.id;
  }
  return found;
};
look.focus = () => { const e = document.activeElement, s = getComputedStyle(e);
  return [e.id, e.localName, e.matches(':focus-visible') && (s.outlineStyle !== 'none' || s.boxShadow !== 'none')]; };

// ---- print: strips and rows on paper
look.margins = () => {
  const given = {};
  for (const sheet of document.styleSheets)
    for (const rule of sheet.cssRules)
      for (const one of [rule, ...(rule.cssRules || [])])
        for (const side of ['left', 'right'])
          if (one instanceof CSSPageRule) given[side] = one.style.getPropertyValue('margin-' + side);
  return given;
};
// from which to which pixel of the drawing a strip shows it: the widest thing that the strip shows again
look.piece = strip => {
  const uses = [...strip.querySelectorAll('use')].map(use => ({use, box: use.getBoundingClientRect()}));
  const {use, box} = uses.reduce((a, b) => a.box.width >= b.box.width ? a : b), own = use.ownerSVGElement;
  const drawn = look.get(use.getAttribute('href')).getBBox(), scale = box.width / drawn.width, zero = box.left - drawn.x * scale;
  let {left, right} = strip.getBoundingClientRect();
  if (own !== strip) {
    const outer = strip.getScreenCTM(), x = own.x.baseVal.value;
    [left, right] = [x, x + own.width.baseVal.value].map(one => one * outer.a + outer.e);
  }
  return {from: (left - zero) / scale, to: (right - zero) / scale};
};
look.strips = () => [...document.querySelectorAll('svg.strip')].map(
  strip => ({...strip.getBoundingClientRect().toJSON(), ...look.piece(strip)}));
// texts of the drawing that no strip shows whole
look.cutTexts = () => {
  const strips = look.strips(), zero = look.box('#drawing').left;
  return [...document.querySelectorAll('#drawing text')].filter(look.seen).filter(e => {
    const {left, right} = e.getBoundingClientRect();
    return !strips.some(strip => left - zero >= strip.from - 1 && right - zero <= strip.to + 1);
  }).map(look.name);
};
look.drawingSeen = () => !look.isEmpty(look.left(look.get('#drawing')));
// rows and cells that are not whole: not drawn, or with more in them than is shown
look.cutRows = () => [...document.querySelectorAll('#lines tbody tr')].filter(row =>
  !look.seen(row) || row.getBoundingClientRect().right > innerWidth + 1 ||
  [...row.cells].some(cell => cell.scrollWidth > cell.clientWidth + 1)).map(row => row.id);
