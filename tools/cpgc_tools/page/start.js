/* The beginning: what is listened to, the legend, and the scenario of the address. */
const switches = model.deciding.map((p, c) => {
  const it = put(at("conditions"), "button", { type: "button", class: "switch", role: "switch", "data-condition": c });
  put(it, "i", { "aria-hidden": "true" });
  put(it, "span", {}, processes[p].name);
  put(it, "small");
  return it;
});
at("condition-group").hidden = switches.length === 0;

function listen() {
  document.addEventListener("click", (event) => {
    const button = around(event.target, "button"), it = button && button.dataset;
    if (!it) return;
    if (it.condition) changeValue(Number(it.condition));
    else if (it.more) changeFault(Number(it.more), 1);
    else if (it.less) changeFault(Number(it.less), -1);
    else if (it.pick) pick(items[Number(it.pick)]);
    else if (it.latest) showLatest(Number(it.latest));
    else if (it.column) showColumn(Number(it.column));
  });
  at("worst").onclick = () => model.worst && showLatest(model.worst.process);
  at("tightest").onclick = () => model.tightest !== null && showLatest(model.tightest);
  at("clear").onclick = () => become(model.none(), "No faults, and every value false");
  at("link").onclick = () => copy(location.href, "Link");
  at("copy-file").onclick = () => copy(model.scenarioFile(scenario), "Scenario");
  at("copy-command").onclick = () => copy(model.command, "Command");
  at("zoom-in").onclick = () => zoom(1.5);
  at("zoom-out").onclick = () => zoom(1 / 1.5);
  at("zoom-fit").onclick = () => zoom(0);
  at("arrows").onchange = drawArrows;
  at("shadow").onchange = drawPast;
  at("sort").onchange = sortRows;
  const hold = (t) => {
    held = true;
    moveTime(t);
  };
  at("cursor").oninput = () => hold(Number(at("cursor").value));
  at("cursor").onchange = keepAddress;
  at("before").onclick = () => { hold(events().reverse().find((t) => t < time) || 0); keepAddress(); };
  at("after").onclick = () => { hold(events().find((t) => t > time) || time); keepAddress(); };
  const timeAt = (event) => (event.clientX - svg.getBoundingClientRect().left - PAD) / px;
  svg.addEventListener("pointermove", (event) => {
    if (!held && event.pointerType !== "touch") moveTime(timeAt(event));
    if (event.pointerType !== "touch") tipFor(event.target, event);
  });
  svg.addEventListener("pointerleave", () => { at("tip").hidden = true; });
  svg.addEventListener("click", (event) => {
    const group = event.target.closest(".run, .frame"), item = group && groups.get(Number(group.dataset.item)).item;
    if (!item) {
      held = !held;
      moveTime(timeAt(event));
      keepAddress();
      say(held ? `The time is held at ${time}` : "The time follows the pointer", event.detail > 0);
      return;
    }
    pick(item);
    if (item.kind === "start") changeFault(item.process, event.shiftKey ? -1 : 1);
    if (event.pointerType !== "touch" && event.detail > 0) tipFor(group, event);
  });
  svg.addEventListener("focusin", (event) => {
    const group = event.target.closest(".run, .frame");
    if (group) pick(groups.get(Number(group.dataset.item)).item);
  });
  svg.addEventListener("keydown", (event) => {
    const group = event.target.closest(".run, .frame"), from = group && groups.get(Number(group.dataset.item));
    if (!from || event.ctrlKey || event.metaKey || event.altKey) return;
    const run = from.item.kind === "start";
    if (/^(Arrow(Right|Left|Up|Down)|Home|End)$/.test(event.key)) go(walk(from, event.key));
    else if (["Enter", " ", "+", "="].includes(event.key)) { if (run) changeFault(from.item.process, 1); }
    else if (["-", "Backspace", "Delete"].includes(event.key)) { if (run) changeFault(from.item.process, -1); }
    else return;
    event.preventDefault();
  });
  scroll.addEventListener("wheel", (event) => {
    if (!event.ctrlKey) return;
    event.preventDefault();
    zoom(event.deltaY < 0 ? 1.2 : 1 / 1.2, event.clientX - scroll.getBoundingClientRect().left + scroll.scrollLeft);
  }, { passive: false });
  window.addEventListener("hashchange", () => open(location.hash));
  let room = scroll.clientWidth;
  new ResizeObserver(() => {
    if (!fitted || printing || scroll.clientWidth === room) return;
    room = scroll.clientWidth;
    fit();
    drawPicture();
  }).observe(scroll);
  window.addEventListener("beforeprint", () => {
    printing = px;
    const part = Math.min(1, 600 / height), side = at("lanes").offsetWidth;
    px = (980 / part - side) / extent;
    at("chart").style.zoom = part;
    drawPicture();
  });
  window.addEventListener("afterprint", () => {
    px = printing;
    printing = 0;
    at("chart").style.zoom = "";
    drawPicture();
  });
}
let printing = 0;

function legend() {
  const h = 14, box = (inner, w = 30) => `<svg width="${w}" height="${h}" viewBox="0 0 ${w} ${h}" aria-hidden="true">${inner}</svg>`;
  const some = (test) => processes.some(test), list = [];
  const run = (kind) => box(`<g class="run"><rect class="${kind}" width="30" height="${h}"/><rect class="edge" x=".5" y=".5" width="29" height="${h - 1}"/></g>`);
  list.push([run("work"), "work"]);
  if (some((it) => it.alpha + it.chi > 0)) list.push([run("over"), "detections and checkpoints"]);
  if (k > 0) {
    if (some((it) => it.mu > 0)) list.push([run("mend"), "recovery"]);
    list.push([run("again"), "a part again, after a fault"]);
    list.push([box(`<path class="past" d="M0 7H30"/>`), "the same without faults"]);
  }
  if (model.sends.length) list.push([box(`<g class="frame"><rect x=".5" y=".5" width="29" height="${h - 1}"/></g>`), "message"]);
  if (model.sends.some((it) => it.kind === "tell")) list.push([box(`<g class="frame tell"><rect x=".5" y=".5" width="29" height="${h - 1}"/></g>`), "value of a condition"]);
  if (some((it) => it.frozen) || edges.some((it) => it[3])) list.push([box(snow(7, 7, 5), 14), "frozen"]);
  if (some((it) => it.release > 0)) list.push([box(`<path class="release" d="M7 3l-5 8h10z"/>`, 14), "release"]);
  if (some((it) => it.due < data.deadline)) list.push([box(`<path class="due" d="M4 ${h}V1l7 3l-7 3"/>`, 14), "due"]);
  list.push([box(`<path class="latest" d="M7 0V${h}"/>`, 14), "latest end of what is picked"]);
  at("legend").innerHTML = list.map(([picture, text]) => `<li>${picture}${text}</li>`).join("");
}

function open(address) {
  let text = address;
  try { text = decodeURIComponent(address); } catch { /* as it stands */ }
  const { scenario: next, strange } = model.fromAddress(text), moment = /[#&]t=(\d{1,15})(&|$)/.exec(text);
  scenario = next;
  held = moment !== null;
  if (held) time = Math.min(Number(moment[1]), extent);
  show();
  drawCursor();
  if (strange.length) say(`The link names what isn't here, or too many faults: ${strange.join(", ")}`);
}

const graphName = data.files.graph.replace(/^.*\//, "").replace(/\.toml$/, "");
document.title = `${graphName}: schedule tables`;
reword(at("title"), graphName);
const scenarios = model.scenarioCount().toLocaleString("en");
reword(at("about"), `${count(P, "process", "processes")} on ${count(nodes.length, "node")}, ${count(edges.length, "edge")}, ${count(switches.length, "condition")}, at most ${count(k, "fault")}: ${scenarios} scenarios in ${count(model.columns.toLocaleString("en"), "column")}. Deadline ${data.deadline}.`);
reword(at("worst-end"), model.worst ? model.worst.end : 0);
reword(at("worst-note"), model.worst ? `by ${processes[model.worst.process].name}` : "");
at("tightest").hidden = model.tightest === null;
if (model.tightest !== null) {
  reword(at("least-slack"), model.slackOf(model.tightest));
  reword(at("slack-note"), `of ${processes[model.tightest].name}, due ${processes[model.tightest].due}`);
  at("least-slack").classList.toggle("late", model.slackOf(model.tightest) < 0);
}
reword(at("footer"), `Made by tools/page from ${data.files.graph} and ${data.files.pack}${data.files.due ? `, with the due times of ${data.files.due}` : ""}. Whether these tables are safe is asked of cpgc check; the page only shows them.`);
at("cursor").max = extent;
at("arrows").checked = model.sends.length <= 60;
at("lanes").style.width = `${Math.ceil(Math.max(...nodes.map((name) => wide(name, "600 14px")), 44)) + 14}px`;
play = calm = model.acts(scenario);
makeRows();
legend();
fit();
drawPicture();
listen();
open(location.hash);
const shownPage = { model, open, shown: () => ({ scenario, play }), scale: () => ({ px, pad: PAD }), pick: (n) => pick(items[n]), moveTime };
