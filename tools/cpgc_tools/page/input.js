/* What one does: faults and values are set, items are picked, time goes on, and links are made. */
let hush = 0;
function say(text, loud = true) {
  at("said").textContent = text;
  at("said").classList.toggle("quiet", !loud);
  clearTimeout(hush);
  if (loud) hush = setTimeout(() => at("said").classList.add("quiet"), 2600);
}

function show() {
  play = model.acts(scenario);
  calm = model.spent(scenario) ? model.acts({ ...scenario, faults: model.none().faults }) : play;
  drawMarks();
  drawPast();
  drawRuns();
  drawFrames();
  drawPicked();
  drawLanes();
  showFigures();
  showControls();
  showRows();
  if (at("sort").value === "start") sortRows();
  showKnown();
  showItem();
  showFiles();
  keepAddress();
}

/* The address holds the scenario, and the time where it is held. */
function keepAddress() {
  const address = [model.address(scenario), ...(held ? [`t=${time}`] : [])].filter(Boolean).join("&");
  if (location.hash.slice(1) === address) return;
  try { history.replaceState(null, "", `#${address}`); } catch { location.replace(`#${address}`); }
}

function become(next, text) {
  scenario = next;
  show();
  say(`${text}. Finish ${play.finish}`, false);
}

function changeFault(p, by) {
  const faults = [...scenario.faults], spent = model.spent(scenario), { name } = processes[p];
  if (by > 0 && spent >= k && faults[p] === 0) return say(k ? `All ${k} faults are placed: take one away first` : "This graph has no faults");
  if (by > 0 && spent >= k) faults[p] = 0;
  else faults[p] = Math.max(faults[p] + by, 0);
  become({ ...scenario, faults }, `${name}: ${count(faults[p], "fault")}, ${k - faults.reduce((a, b) => a + b, 0)} left`);
}

function changeValue(c) {
  const values = scenario.values.map((value, n) => (n === c ? 1 - value : value));
  become({ ...scenario, values }, `${processes[model.deciding[c]].name} is ${Boolean(values[c])}`);
}

function pick(item) {
  if (item === picked) return;
  picked = item;
  drawPicked();
  showItem();
  rows.forEach(({ row }, p) => row.classList.toggle("picked", picked !== null && picked.number === p));
}

function moveTime(t) {
  time = Math.min(Math.max(Math.round(t), 0), extent);
  drawCursor();
  showKnown();
}

function events() {
  const found = new Set([0]);
  for (const run of play.runs) if (run) found.add(run.start).add(run.end);
  for (const frame of play.frames) found.add(frame.start).add(frame.end);
  return [...found].sort((a, b) => a - b);
}

function showLatest(p) {
  const last = model.latest[p];
  if (!last) return;
  become(model.scenarioOf(last), `The latest end of ${processes[p].name}: ${last.end}`);
  pick(items[p]);
  moveTime(last.end);
  keepAddress();
}

function showColumn(column) {
  if (model.askedOf(column) > k) return say("This column asks for more faults than there may be");
  become(model.ofColumn(column), "The least scenario of a column");
  focusOn(at("columns").querySelector('[aria-current="true"]'));
}

/* One element of the picture can be reached by Tab: the one that is picked, or the first. */
function roving() {
  const shown = [...groups.values()].filter((it) => it.shown);
  const target = shown.find((it) => it.item === picked) || shown[0];
  for (const it of groups.values()) it.group.setAttribute("tabindex", it === target ? "0" : "-1");
}

function sequence(node, run) {
  return [...groups.values()].filter((it) => it.shown && it.item.node === node && (it.item.kind === "start") === run).sort((a, b) => a.shown.start - b.shown.start);
}

function go(it) {
  if (!it) return;
  pick(it.item);
  it.group.focus({ preventScroll: true });
  if (!held) moveTime(it.shown.start);
  const left = x(it.shown.start) - 20, right = x(it.shown.end) + 20;
  if (left < scroll.scrollLeft) scroll.scrollLeft = left;
  else if (right > scroll.scrollLeft + scroll.clientWidth) scroll.scrollLeft = Math.min(left, right - scroll.clientWidth);
  const box = it.group.getBoundingClientRect(), covered = at("controls").getBoundingClientRect().bottom;
  if (box.top < covered || box.bottom > innerHeight) it.group.scrollIntoView({ block: "center", inline: "nearest" });
}

function walk(from, key) {
  const run = from.item.kind === "start", lane = sequence(from.item.node, run), n = lane.indexOf(from);
  if (key === "ArrowRight") return lane[n + 1];
  if (key === "ArrowLeft") return lane[n - 1];
  if (key === "Home") return lane[0];
  if (key === "End") return lane[lane.length - 1];
  const by = key === "ArrowDown" ? 1 : -1, centre = (from.shown.start + from.shown.end) / 2;
  for (let row = 2 * from.item.node + (run ? 0 : 1) + by; row >= 0 && row < 2 * nodes.length; row += by) {
    const other = sequence(row >> 1, row % 2 === 0), far = (it) => Math.max(it.shown.start - centre, centre - it.shown.end, 0);
    if (other.length) return other.reduce((best, it) => (far(it) < far(best) ? it : best));
  }
  return null;
}

function copy(text, what) {
  const done = () => say(`${what} copied`);
  const byHand = () => {
    const area = put(document.body, "textarea", { style: "position:fixed;opacity:0" });
    area.value = text;
    area.select();
    say(document.execCommand("copy") ? `${what} copied` : "This browser doesn't let the page copy");
    area.remove();
  };
  if (navigator.clipboard) navigator.clipboard.writeText(text).then(done, byHand);
  else byHand();
}

function tipFor(target, event) {
  const tip = at("tip"), group = around(target, ".run, .frame");
  const { item, shown } = (group && groups.get(Number(group.dataset.item))) || {};
  tip.hidden = !shown;
  if (!shown) return;
  if (item.kind === "start") {
    const it = processes[item.process], n = scenario.faults[item.process], over = it.parts * (it.alpha + it.chi);
    const part = Math.ceil(it.wcet / it.parts);
    tip.innerHTML = `<b>${html(it.name)}</b> ${shown.start} to ${shown.end}<span>work ${it.wcet}${it.parts > 1 ? ` in ${it.parts} parts` : ""}${over ? `, overhead ${over}` : ""}</span>${n ? `<span>${count(n, "fault")}: ${n > 1 ? `${n} × ` : ""}(${it.mu ? `recovery ${it.mu} + ` : ""}again ${part}${it.alpha ? ` + detection ${it.alpha}` : ""})</span>` : ""}<span>due ${it.due}, slack ${it.due - shown.end}${it.frozen ? "; frozen" : ""}${it.release ? `; not before ${it.release}` : ""}</span>`;
  } else tip.innerHTML = `<b>${html(wordy(item))}</b> ${shown.start}, there at ${shown.end}<span>${html(model.headOf(item))}${item.kind === "send" && edges[item.edge][3] ? "; frozen" : ""}</span>`;
  const box = at("chart").getBoundingClientRect(), left = event.clientX - box.left;
  tip.style.left = `${left > box.width / 2 ? left - tip.offsetWidth - 14 : left + 14}px`;
  tip.style.top = `${event.clientY - box.top + 18}px`;
}
