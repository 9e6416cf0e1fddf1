// ---- a network drawn by hand: nodes and links by pointer or finger, weights typed; the network at hand can be edited
const EDITED = 60, NODE = 18, HEAVIEST = 4294967295;
// positions are in pixels of the board; `to` is where a line that is being drawn ends
const drawing = { points: [], lines: [], held: 0, from: 0, to: null, down: null };
function board() {
  const { points, lines, held, from, to } = drawing, spot = v => points[v - 1], line = (p, q, c = '') => '<line' + c + ' x1="' + p[0] + '" y1="' + p[1] + '" x2="' + q[0] + '" y2="' + q[1] + '"/>';
  $('board').innerHTML = lines.map(([a, b, w]) => { const [p, q] = [spot(a), spot(b)]; return line(p, q) + '<text class="weight" x="' + (p[0] + q[0]) / 2 + '" y="' + (p[1] + q[1]) / 2 + '">' + w + '</text>'; }).join('') + (from && to ? line(spot(from), to, ' class="rubber"') : '')
    + points.map(([x, y], i) => '<g><circle data-node="' + (i + 1) + '" class="' + (held === i + 1 ? 'held' : '') + '" cx="' + x + '" cy="' + y + '" r="' + NODE + '"/><text x="' + x + '" y="' + y + '">' + (i + 1) + '</text></g>').join('');
  $('removeit').disabled = !held;
}
const weighs = w => /^\d{1,10}$/.test(String(w).trim()) && +w <= HEAVIEST;
function rows() {
  $('drawn').innerHTML = drawing.lines.map(([a, b, w], i) => '<span class="line"><label>' + a + ' - ' + b + ' <input type="number" inputmode="numeric" min="0" max="' + HEAVIEST + '" data-line="' + i + '" value="' + w + '" aria-label="weight of the link ' + a + ' - ' + b + '"></label><button data-gone="' + i + '" aria-label="removes the link ' + a + ' - ' + b + '">x</button></span>').join('');
}
function redraw() { board(); rows(); judgeWeights(); }
// what is wrong stands next to the row that is wrong
function judgeWeights() {
  let wrong = 0;
  for (const input of $('drawn').querySelectorAll('input')) { const bad = !weighs(input.value); input.classList.toggle('wrong', bad); wrong += bad; }
  $('drawnote').textContent = wrong ? 'A weight is a whole number from 0 to ' + HEAVIEST + '.' : '';
  return !wrong;
}
function joinDrawn(a, b) {
  if (a === b || drawing.lines.some(([x, y]) => Math.min(x, y) === Math.min(a, b) && Math.max(x, y) === Math.max(a, b))) return;
  drawing.lines.push([a, b, 1 + Math.max(0, ...drawing.lines.map(l => +l[2] || 0))]);
}
function removeHeld() {
  const v = drawing.held, less = x => x > v ? x - 1 : x;
  if (!v) return;
  drawing.points.splice(v - 1, 1);
  drawing.lines = drawing.lines.filter(([a, b]) => a !== v && b !== v).map(([a, b, w]) => [less(a), less(b), w]);
  drawing.held = 0;
  redraw();
}
const drawnText = () => 'p sp ' + drawing.points.length + ' ' + drawing.lines.length + '\n' + drawing.lines.map(([a, b, w]) => 'a ' + a + ' ' + b + ' ' + String(w).trim() + '\n').join('');
// nodes stand where they were drawn, in links of mean length 1
function unitOf(points) {
  const far = l => Math.hypot(points[l.a - 1][0] - points[l.b - 1][0], points[l.a - 1][1] - points[l.b - 1][1]), long = links.length ? links.reduce((x, l) => x + far(l), 0) / links.length : 100;
  return [{ list: points.map((_, i) => i + 1), P: points.map(p => p.map(x => x / (long || 100))) }];
}
function useDrawn() {
  if (!judgeWeights()) return;
  const fault = faultOf(seenOf(drawnText(), traceOf([])));
  if (fault) { $('drawnote').textContent = drawing.points.length ? fault.words : 'Set at least one node.'; return; }
  $('draw').close();
  takeGraph(drawnText(), drawing.points.map(p => p.map(Math.round)));
}
// the network at hand, on the board as it stands in the page
function editThis() {
  const low = [0, 1].map(i => Math.min(...pos.slice(1).map(p => p[i]))), high = [0, 1].map(i => Math.max(...pos.slice(1).map(p => p[i])));
  openBoard();
  const size = [$('board').clientWidth, $('board').clientHeight], k = Math.min(...[0, 1].map(i => (size[i] - 4 * NODE) / Math.max(1, high[i] - low[i])));
  drawing.points = pos.slice(1).map(p => [0, 1].map(i => Math.round(size[i] / 2 + (p[i] - (low[i] + high[i]) / 2) * k)));
  drawing.lines = links.map(l => [l.a, l.b, l.weight]);
  drawing.held = 0;
  redraw();
}
function openBoard() {
  $('drawnote').textContent = '';
  $('draw').showModal();
  $('board').setAttribute('viewBox', '0 0 ' + $('board').clientWidth + ' ' + $('board').clientHeight);
  redraw();
}
function boards() {
  // in the board's own numbers: the window may have been turned since they were set
  const place = e => { const view = $('board').viewBox.baseVal, p = new DOMPoint(e.clientX, e.clientY).matrixTransform($('board').getScreenCTM().inverse()), inside = (x, most) => Math.max(NODE, Math.min(most - NODE, Math.round(x))); return [inside(p.x, view.width), inside(p.y, view.height)]; };
  const narrow = 'A node needs more room than that.';
  let full = false;
  const close = (p, but = 0) => drawing.points.some((q, i) => i + 1 !== but && Math.hypot(p[0] - q[0], p[1] - q[1]) <= 2 * NODE + 6);
  // the node under the pointer; a finger is wider than a circle
  const nodeAt = e => { const p = place(e), near = drawing.points.map((q, i) => [Math.hypot(p[0] - q[0], p[1] - q[1]), i + 1]).sort((a, b) => a[0] - b[0])[0]; return near && near[0] <= NODE + 8 ? near[1] : 0; };
  const far = e => drawing.down && Math.hypot(e.clientX - drawing.down[0], e.clientY - drawing.down[1]) > 6;
  $('board').onpointerdown = e => {
    e.preventDefault();
    $('board').setPointerCapture(e.pointerId);
    drawing.down = [e.clientX, e.clientY];
    drawing.from = nodeAt(e);
    drawing.to = null;
    if (drawing.from) return;
    // no node lies over another
    if (close(place(e))) { drawing.down = null; $('drawnote').textContent = narrow; return; }
    drawing.points.push(place(e));
    drawing.held = 0;
    redraw();
  };
  $('board').onpointermove = e => {
    if (!drawing.from || !far(e)) return;
    // a selected node is moved, from any other a link is drawn
    const spot = place(e), moves = drawing.held === drawing.from;
    full = moves && close(spot, drawing.from);
    if (moves) $('drawnote').textContent = full ? narrow : '';
    if (!moves) drawing.to = spot; else if (!full) drawing.points[drawing.from - 1] = spot;
    board();
  };
  $('board').onpointerup = e => {
    const from = drawing.from, moved = far(e), to = from && nodeAt(e);
    drawing.from = 0; drawing.to = drawing.down = null;
    if (!from) return;
    if (moved && drawing.held === from) { /* it has been moved */ }
    else if (moved) { if (to && to !== from) joinDrawn(from, to); drawing.held = 0; }
    else if (drawing.held && drawing.held !== from) { joinDrawn(drawing.held, from); drawing.held = 0; }
    else drawing.held = drawing.held === from ? 0 : from;
    redraw();
    if (full) $('drawnote').textContent = narrow;
    full = false;
  };
  $('drawn').oninput = e => { if (e.target.dataset.line) { drawing.lines[e.target.dataset.line][2] = e.target.value; board(); judgeWeights(); } };
  $('drawn').onclick = e => { if (e.target.dataset.gone) { drawing.lines.splice(+e.target.dataset.gone, 1); redraw(); } };
  $('drawit').onclick = openBoard;
  $('editit').onclick = editThis;
  $('removeit').onclick = removeHeld;
  $('usedrawn').onclick = useDrawn;
  $('cleardrawn').onclick = () => { drawing.points = []; drawing.lines = []; drawing.held = 0; redraw(); };
  $('closedrawn').onclick = () => $('draw').close();
}

