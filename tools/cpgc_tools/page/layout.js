/* What the view stands on: the document, the model, what is chosen, and where things stand. */
const at = (id) => document.getElementById(id);
const model = modelOf(JSON.parse(at("data").textContent));
const { data, k, processes, edges, items } = model, P = processes.length, nodes = data.nodes;
const html = (text) => String(text).replace(/[&<>"]/g, (letter) => `&#${letter.charCodeAt(0)};`);
const count = (n, one, many = `${one}s`) => `${n} ${n === 1 ? one : many}`;
const put = (parent, tag, attributes = {}, text = "") => {
  const it = parent.namespaceURI.endsWith("svg") || tag === "svg" ? document.createElementNS("http://www.w3.org/2000/svg", tag) : document.createElement(tag);
  for (const [name, value] of Object.entries(attributes)) it.setAttribute(name, value);
  if (text !== "") it.textContent = text;
  parent.append(it);
  return it;
};
const around = (target, what) => (target.closest ? target.closest(what) : null);
const focusOn = (it) => { if (it) it.focus(); };
const reword = (it, text) => { if (it.textContent !== String(text)) it.textContent = text; };

let scenario = model.none(), play = null, calm = null;
let picked = items.length ? items[model.worst ? model.worst.process : 0] : null;
let time = 0, held = false, px = 1, fitted = true;

// ---- where things stand -------------------------------------------------------------------------------------------------------------

const SIZE = nodes.length > 6 ? { top: 22, run: 18, past: 5, bus: 12, gap: 6 } : { top: 22, run: 26, past: 6, bus: 15, gap: 10 };
const PAD = 12, LABEL = 11.5;
let lanes = [], height = 0;
const own = nodes.map((_, node) => processes.map((_, p) => p).filter((p) => processes[p].node === node));
const needs = (p) => wide(processes[p].name, "600 11px") + 8 + (processes[p].frozen ? 13 : 0);
const fits = (p) => needs(p) <= model.durations[p][0] * px;

/* A lane for the executions of each node, with some lines above it for names that don't fit into their bars, and one for its bus. */
function layOut() {
  height = SIZE.top;
  lanes = nodes.map((name, node) => {
    const lines = Math.min(own[node].filter((p) => !fits(p)).length, nodes.length > 6 ? 2 : 3), runs = height + Math.max(lines * LABEL + 3, 9);
    const past = runs + SIZE.run + 1, bus = past + SIZE.past, end = bus + (model.slotOf[node] ? SIZE.bus : 0);
    const lane = { name, lines, top: height, runs, past, bus, end };
    height = end + SIZE.gap;
    return lane;
  });
  height += nodes.length > 6 ? 24 : 10;
}

const extent = data.deadline <= 1.3 * model.horizon ? Math.max(model.horizon, data.deadline) : model.horizon;
const x = (t) => PAD + t * px;
const width = () => Math.ceil(2 * PAD + extent * px) + 22;
const near = (n) => Math.round(n * 100) / 100;

const svg = at("picture"), scroll = at("scroll");
svg.innerHTML = `<defs>
  <pattern id="mend" width="5" height="5" patternUnits="userSpaceOnUse"><rect width="5" height="5" style="fill:var(--recover)"/><path d="M-1 1l2-2M0 5l5-5M4 6l2-2" style="stroke:var(--fault);stroke-width:1.2"/></pattern>
  <pattern id="again" width="4" height="4" patternUnits="userSpaceOnUse"><rect width="4" height="4" style="fill:var(--again)"/><path d="M0 .5h4" style="stroke:var(--fault);stroke-width:.5;opacity:.6"/></pattern>
  ${["frame", "tell", "work"].map((it) => `<marker id="head-${it}" viewBox="0 0 8 8" refX="7" refY="4" markerWidth="6" markerHeight="6" orient="auto"><path d="M0 0L8 4L0 8z" style="fill:var(--${it}-line)"/></marker>`).join("")}
</defs>`;
const layer = (name) => put(svg, "g", { class: name });
const [back, spans, pastLayer, arrowLayer, runLayer, frameLayer, markLayer, topArrows, cursorLayer] =
  ["back", "spans", "pasts", "arrows", "runs", "frames", "marks", "arrows", "cursors"].map(layer);
for (const it of [back, spans, pastLayer, arrowLayer, markLayer, topArrows, cursorLayer]) it.setAttribute("aria-hidden", "true");

const ruler = document.createElement("canvas").getContext("2d");
const widths = new Map(), family = getComputedStyle(document.body).fontFamily;
function wide(text, font) {
  const key = font + text;
  if (!widths.has(key)) {
    ruler.font = `${font} ${family}`;
    widths.set(key, ruler.measureText(text).width);
  }
  return widths.get(key);
}

const snow = (cx, cy, r) => `<path class="snow" d="M${cx - r} ${cy}h${2 * r}M${near(cx - r / 2)} ${near(cy - r * 0.87)}l${r} ${near(r * 1.74)}M${near(cx - r / 2)} ${near(cy + r * 0.87)}l${r} ${near(-r * 1.74)}"/>`;
const bolt = (bx) => `<path class="bolt" d="M${near(bx + 1.5)} -7l-5 7h3l-2 6l6-8h-3.2l3-5z"/>`;

// One group for each item, kept for good and moved.
const groups = new Map();
for (const item of items) {
  const run = item.kind === "start";
  const group = put(run ? runLayer : frameLayer, "g", { class: run ? "run" : `frame ${item.kind}`, tabindex: "-1", role: "button", "data-item": item.number });
  groups.set(item.number, { item, group, shape: put(group, "g"), lead: put(group, "path", { class: "lead" }), label: put(group, "text"), drawn: "", shown: null });
}
