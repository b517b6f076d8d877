/* The panels around the picture: figures, switches, what the nodes know, the item that is picked, the files and the table. */
function showFigures() {
  reword(at("finish"), play.finish);
  const later = play.finish - calm.finish;
  reword(at("finish-note"), model.spent(scenario) === 0 ? "without faults" : later > 0 ? `${later} later than without faults` : later < 0 ? `${-later} earlier than without faults` : "as without faults");
  const late = play.runs.filter((run, p) => run && run.end > processes[p].due).map((run) => `${processes[run.item.process].name} by ${run.end - processes[run.item.process].due}`);
  reword(at("scenario-text"), `in the scenario: ${model.scenarioText(scenario)}`);
  reword(at("late"), late.length ? `Late: ${late.join(", ")}` : "");
}

function showControls() {
  const spent = model.spent(scenario);
  at("pips").innerHTML = Array.from({ length: k }, (_, n) => `<i class="pip${n < spent ? " spent" : ""}"></i>`).join("");
  reword(at("left"), k === 0 ? "none in this graph" : `${k - spent} of ${k} left`);
  model.deciding.forEach((p, c) => {
    const it = switches[c], active = play.active[p];
    it.setAttribute("aria-checked", String(Boolean(scenario.values[c])));
    it.classList.toggle("idle", !active);
    it.title = active ? "" : "isn't active here: the value has no effect";
    reword(it.lastChild, scenario.values[c] ? "true" : "false");
  });
  const placed = processes.map((_, p) => p).filter((p) => scenario.faults[p]), focus = (document.activeElement || document.body).dataset.counter;
  at("placed").innerHTML = placed.map((p) => counter(p, true)).join("") || `<span class="hint">${k ? "none placed: click an execution" : ""}</span>`;
  if (focus && focus.startsWith("placed")) focusOn(at("placed").querySelector(`[data-counter="${focus}"]:not(:disabled)`) || at("placed").querySelector("button:not(:disabled)"));
  at("clear").disabled = spent === 0 && !scenario.values.some(Boolean);
  reword(at("wrong"), play.wrong.length ? `These tables aren't safe, and no node would act so: ${play.wrong.slice(0, 3).join("; ")}. Ask cpgc check.` : "");
  at("wrong").hidden = play.wrong.length === 0;
}

const NO_EFFECT = "isn't active here: a fault has no effect";
function counter(p, named) {
  const it = processes[p], n = scenario.faults[p], full = model.spent(scenario) >= k, place = named ? "placed" : "row";
  return `<span class="counter${named && !play.active[p] ? " idle" : ""}"${play.active[p] ? "" : ` title="${NO_EFFECT}"`}>${named ? `<span>${html(it.name)}</span>` : ""}<button type="button" data-less="${p}" data-counter="${place}-less-${p}" aria-label="One fault less of ${html(it.name)}"${n ? "" : " disabled"}>−</button><b class="${n ? "some" : ""}">${n}</b><button type="button" data-more="${p}" data-counter="${place}-more-${p}" aria-label="One fault more of ${html(it.name)}"${full ? " disabled" : ""}>+</button></span>`;
}

const cards = nodes.map(() => ({ card: put(at("nodes"), "div", { class: "node" }), text: "" }));
let knownOf = "";
function showKnown() {
  reword(at("known-time"), time);
  reword(at("cursor-time"), time);
  at("cursor").value = time;
  at("cursor").setAttribute("aria-valuetext", `${time}`);
  const moments = [...play.runs.flatMap((run) => (run ? [run.start, run.end] : [])), ...play.frames.flatMap((it) => [it.start, it.end])];
  const key = `${model.address(scenario)} ${moments.reduce((n, it) => n + (it <= time), 0)}`;
  if (key === knownOf) return;
  knownOf = key;
  nodes.forEach((name, node) => {
    const text = nodeCard(name, node);
    if (cards[node].text !== text) cards[node].card.innerHTML = cards[node].text = text;
  });
}

function nodeCard(name, node) {
  const { low, high } = model.heard(play, node, time), values = [], struck = [], without = [], within = new Map();
  model.deciding.forEach((p, c) => {
    const v = model.VALUE + c;
    if (low[v] === high[v]) values.push(`${processes[p].name} <strong>${Boolean(low[v])}</strong>`);
  });
  processes.forEach((it, p) => {
    if (low[p] === 0 && high[p] === k) return;
    const range = `faults ${low[p]}..${high[p]}`;
    if (low[p] !== high[p]) within.set(range, [...(within.get(range) || []), it.name]);
    else if (low[p]) struck.push(`<b>${it.name} ${low[p]}</b>`);
    else without.push(it.name);
  });
  const run = play.runs.find((it, p) => it && processes[p].node === node && it.start <= time && time < it.end);
  const sent = play.frames.find((it) => it.item.node === node && it.start <= time && time < it.end);
  const rows = [["values", values], ["faults", struck], ...[...within].sort(), ["no fault in", without]].filter(([, list]) => list.length);
  const doing = run ? `runs ${html(processes[run.item.process].name)} to ${run.end}` : "runs nothing";
  return `<h3>${html(name)} <span>${doing}${sent ? `, sends ${html(letter(sent.item))}` : ""}</span></h3>${rows.length ? `<dl>${rows.map(([head, list]) => `<dt>${head}</dt><dd>${list.join(", ")}</dd>`).join("")}</dl>` : "<p>has heard nothing yet</p>"}`;
}

const MOST = 80;
function showItem() {
  at("item").hidden = !picked;
  if (!picked) return;
  reword(at("item-title"), model.headOf(picked));
  const shown = groups.get(picked.number).shown, total = picked.last - picked.first;
  at("item-about").innerHTML = (picked.kind === "start" ? aboutRun(picked.process, shown) : aboutFrame(picked, shown)) +
    ` ${total ? `${count(total, "column")}; ${shown ? "the node acts by the one that fits" : "none fits here"}.` : "No column: it is active in no scenario."}`;
  const list = [];
  for (let column = picked.first; column < picked.last; column++) list.push(column);
  const here = shown ? shown.column - picked.first : 0, from = total > MOST ? Math.min(Math.max(here - MOST / 2, 0), total - MOST) : 0;
  const more = (n, where) => (n > 0 ? `<p class="hint">${n} more ${where}</p>` : "");
  at("columns").innerHTML = more(from, "before") + list.slice(from, from + MOST).map((column) =>
    `<button type="button" class="column" data-column="${column}" aria-current="${Boolean(shown && shown.column === column)}" title="Show the least scenario of this column"><b>${model.timeOf(column)}:</b><span>${html(model.columnText(column))}</span></button>`).join("") + more(total - from - MOST, "after");
  if (total > 6) afterwards(() => {
    const box = at("columns"), one = box.querySelector('[aria-current="true"]');
    if (one) box.scrollTop = one.offsetTop - (box.clientHeight - one.clientHeight) / 2;
  });
}

/* What asks where things stand would be a layout of its own, and waits until the picture is there. */
let last = 0;
function afterwards(what) {
  const turn = ++last;
  requestAnimationFrame(() => setTimeout(() => { if (turn === last) what(); }));
}

function aboutRun(p, run) {
  const it = processes[p], last = model.latest[p], said = [];
  if (it.frozen) said.push("Frozen: it has one time in all scenarios in which it is active.");
  if (!run) return [...said, "Not active in this scenario."].join(" ");
  const waits = [];
  if (it.release) waits.push([it.release, "its release"]);
  for (const e of model.into[p]) {
    const [from] = edges[e], message = model.itemOfEdge[e], source = processes[from].name;
    if (!play.live[e]) continue;
    if (message) { const frame = groups.get(message.number).shown; if (frame) waits.push([frame.end, `e${e} from ${source}`]); }
    else if (play.runs[from]) waits.push([play.runs[from].end, `the end of ${source}`]);
  }
  const before = play.runs.reduce((best, other) => (other && other.item.node === it.node && other.end <= run.start && other !== run && (!best || other.end > best.end) ? other : best), null);
  if (before && !model.into[p].some((e) => play.live[e] && edges[e][0] === before.item.process)) waits.push([before.end, `the end of ${processes[before.item.process].name}, which runs before it`]);
  for (const frame of play.frames) if (frame.item.kind === "tell" && frame.end === run.start && frame.item.hearers.includes(it.node)) waits.push([frame.end, `the value of ${processes[frame.item.process].name}`]);
  const just = [...new Set(waits.filter(([t]) => t === run.start).map(([, text]) => text))];
  said.push(`From ${run.start} to ${run.end}, due ${it.due}.`);
  if (just.length) said.push(`At ${run.start}: ${html(just.join(", "))}.`);
  said.push(`Over all scenarios it starts from ${last.earliestStart} to ${last.latestStart} and ends by ${last.end}.`);
  return said.join(" ");
}

function aboutFrame(item, frame) {
  const frozen = item.kind === "send" && edges[item.edge][3] ? "Frozen: it has one time in all scenarios in which it is sent. " : "";
  const end = play.runs[item.process] ? ` ${processes[item.process].name} ends at ${play.runs[item.process].end}.` : "";
  return frozen + (frame ? `Sent at ${frame.start}, there at ${frame.end}.${html(end)}` : "Not sent in this scenario.");
}

function showFiles() {
  const text = model.scenarioFile(scenario);
  reword(at("scenario-file"), text || "# empty: no fault, and every value false");
  at("save").href = `data:application/toml;charset=utf-8,${encodeURIComponent(text)}`;
  reword(at("command"), model.command);
  reword(at("trace"), model.trace(play));
}

const rows = [];
function makeRows() {
  processes.forEach((it, p) => {
    const row = put(at("rows"), "tr"), last = model.latest[p];
    row.innerHTML = `<th scope="row"><button type="button" class="plain" data-pick="${p}">${html(it.name)}</button></th><td>${html(nodes[it.node])}</td><td>${counter(p, false)}</td><td class="n"></td><td class="n"></td><td class="n">${it.due}</td><td class="n"></td><td class="n"></td><td class="n"></td>`;
    const [, , , start, end, , slack, latest, least] = row.children, [less, more] = row.querySelectorAll(".counter button");
    latest.innerHTML = last ? `<button type="button" class="plain" data-latest="${p}" aria-label="${last.end}, show the scenario of the latest end of ${html(it.name)}">${last.end}</button>` : "never";
    least.textContent = last ? model.slackOf(p) : "";
    least.classList.toggle("late", last !== null && model.slackOf(p) < 0);
    rows.push({ row, start, end, slack, less, more, faults: row.querySelector(".counter b"), counter: row.querySelector(".counter") });
  });
}

const disable = (button, off) => { if (button.disabled !== off) button.disabled = off; };

function showRows() {
  const full = model.spent(scenario) >= k, focus = document.activeElement;
  processes.forEach((it, p) => {
    const { row, start, end, slack, less, more, faults, counter } = rows[p], run = play.runs[p], n = scenario.faults[p];
    const name = `${run ? "" : "off"}${picked && picked.number === p ? " picked" : ""}`;
    if (row.className !== name) row.className = name;
    reword(start, run ? run.start : "not active");
    reword(end, run ? run.end : "");
    reword(slack, run ? it.due - run.end : "");
    slack.classList.toggle("late", Boolean(run) && run.end > it.due);
    reword(faults, n);
    faults.classList.toggle("some", n > 0);
    counter.title = run ? "" : NO_EFFECT;
    disable(less, n === 0);
    disable(more, full);
    if (focus === less && less.disabled) more.focus();
    if (focus === more && more.disabled) less.focus();
  });
}

function sortRows() {
  const by = at("sort").value, last = Number.MAX_SAFE_INTEGER;
  const key = { file: () => 0, start: (p) => (play.runs[p] ? play.runs[p].start : last), node: (p) => processes[p].node, slack: (p) => (model.latest[p] ? model.slackOf(p) : last) }[by];
  const sorted = processes.map((_, p) => p).sort((a, b) => key(a) - key(b) || a - b);
  if (by !== "file" || sorted.some((p, n) => at("rows").children[n] !== rows[p].row)) at("rows").append(...sorted.map((p) => rows[p].row));
}
