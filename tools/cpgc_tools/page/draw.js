/* The picture: executions, frames, arrows, and what stands behind and above them. */
/* Work in its parts, each with its detection and checkpoint, and then for each fault a recovery, one part again and its detection. How
   long these last is said by the model; where in an execution a fault strikes isn't, so they stand at the end. */
function pieces(it, faults) {
  const over = it.alpha + it.chi, found = [];
  const parts = it.parts > 1 && (it.wcet / it.parts) * px < 3 ? 1 : it.parts;
  for (let n = 0; n < parts; n++) found.push(["work", it.wcet / parts], ["over", (over * it.parts) / parts]);
  for (let n = 0; n < faults; n++) found.push(["mend", it.mu, true], ["again", Math.ceil(it.wcet / it.parts), it.mu === 0], ["over", it.alpha]);
  return found.filter(([, length]) => length > 0);
}

function shapeOf(p, faults) {
  const it = processes[p], h = SIZE.run, whole = model.durations[p][faults] * px;
  let left = 0, text = "", bolts = "";
  pieces(it, faults).forEach(([kind, length, struck], n) => {
    text += `<rect class="${kind}" x="${near(left)}" width="${near(length * px)}" height="${h}"/>`;
    if (n > 0 && kind === "work") text += `<path class="part" d="M${near(left)} 0v${h}"/>`;
    if (struck) bolts += bolt(left);
    left += length * px;
  });
  const base = model.durations[p][0] * px;
  const mark = !it.frozen ? "" : base >= 12 ? snow(fits(p) ? 9 : near(base / 2), h / 2, 4) : snow(1, h + 4, 2.5);
  return `${text}<rect class="edge" x=".5" y=".5" rx="1.5" width="${near(Math.max(whole - 1, 0.5))}" height="${h - 1}"/>${mark}${bolts}`;
}

function drawRuns() {
  for (let p = 0; p < P; p++) {
    const it = groups.get(p), run = play.runs[p], faults = scenario.faults[p];
    it.shown = run;
    it.group.style.display = run ? "" : "none";
    if (!run) continue;
    it.group.setAttribute("transform", `translate(${near(x(run.start))} ${lanes[processes[p].node].runs})`);
    if (it.drawn !== `${faults} ${px}`) {
      it.drawn = `${faults} ${px}`;
      it.shape.innerHTML = shapeOf(p, faults);
    }
    Object.assign(it.group.dataset, { start: run.start, end: run.end, faults });
    it.group.classList.toggle("late", run.end > processes[p].due);
    const value = processes[p].condition ? `, ${Boolean(scenario.values[model.conditionOf[p]])}` : "";
    it.group.setAttribute("aria-label", `${processes[p].name} on ${nodes[processes[p].node]}, from ${run.start} to ${run.end}${value}, ${count(faults, "fault")}`);
  }
  nodes.forEach((_, node) => labelRuns(own[node].filter((p) => play.runs[p]), lanes[node].lines));
}

/* The names of a lane: inside a bar where one fits, else in a line above it where there is room. From right to left, so that the line from
   a name down to its bar passes no other name. */
function labelRuns(lane, lines) {
  const begins = Array(lines).fill(Infinity);
  for (const p of lane.sort((a, b) => play.runs[b].start - play.runs[a].start)) {
    const { label, lead } = groups.get(p), it = processes[p], mark = it.frozen ? 13 : 0, left = x(play.runs[p].start);
    const inside = fits(p), end = left + wide(it.name, "600 11px") + 9, line = inside ? -1 : begins.findIndex((begin) => end <= begin);
    label.style.display = inside || line >= 0 ? "" : "none";
    label.setAttribute("class", inside ? "name inside" : "name outside");
    label.setAttribute("x", inside ? 4 + mark : 6);
    label.setAttribute("y", near(inside ? SIZE.run / 2 + 4 : -3 - line * LABEL));
    lead.setAttribute("d", line > 0 ? `M.5 0V${near(-2 - line * LABEL - 6)}` : "");
    reword(label, it.name);
    for (let lower = 0; lower <= line; lower++) begins[lower] = Math.min(begins[lower], left);
  }
}

const letter = (item) => (item.kind === "send" ? `e${item.edge}` : processes[item.process].name);
const wordy = (item) => (item.kind === "send" ? `e${item.edge} to ${processes[edges[item.edge][1]].name}` : `${processes[item.process].name} ${Boolean(scenario.values[item.condition])}`);

function drawFrames() {
  for (const item of model.sends) groups.get(item.number).shown = null;
  const busy = nodes.map(() => []);
  for (const frame of play.frames) {
    groups.get(frame.item.number).shown = frame;
    busy[frame.item.node].push(frame);
  }
  for (const item of model.sends) {
    const { group, shown } = groups.get(item.number);
    group.style.display = shown ? "" : "none";
  }
  for (const lane of busy) {
    lane.sort((a, b) => a.start - b.start);
    lane.forEach((frame, n) => drawFrame(frame, n + 1 < lane.length ? x(lane[n + 1].start) : Infinity));
  }
}

function drawFrame(frame, next) {
  const { item } = frame, it = groups.get(item.number), long = Math.max((frame.end - frame.start) * px, 2), h = SIZE.bus - 1;
  it.group.setAttribute("transform", `translate(${near(x(frame.start))} ${lanes[item.node].bus})`);
  Object.assign(it.group.dataset, { start: frame.start, end: frame.end });
  const frozen = item.kind === "send" && edges[item.edge][3];
  const mark = frozen && long >= 12 ? 10 : 0;
  if (it.drawn !== `${px}`) {
    it.drawn = `${px}`;
    it.shape.innerHTML = `<rect x=".5" y=".5" rx="1" width="${near(Math.max(long - 1, 1))}" height="${h - 1}"/>${mark ? snow(7, h / 2, 3) : frozen ? snow(long / 2, h + 4, 2.5) : ""}`;
  }
  const room = long - 5 - mark, inside = [wordy(item), letter(item)].find((text) => wide(text, "10px") <= room);
  const outside = inside === undefined && x(frame.start) + long + wide(letter(item), "10px") + 6 < next;
  it.label.style.display = inside !== undefined || outside ? "" : "none";
  it.label.setAttribute("class", inside === undefined ? "outside" : "");
  it.label.setAttribute("x", near(inside === undefined ? long + 3 : 3 + mark));
  it.label.setAttribute("y", near(h / 2 + 3.5));
  reword(it.label, inside || letter(item));
  const what = item.kind === "send" ? `Message e${item.edge} from ${processes[item.process].name} to ${processes[edges[item.edge][1]].name}` : `Value of ${processes[item.process].name} to all nodes`;
  it.group.setAttribute("aria-label", `${what}, sent by ${nodes[item.node]} at ${frame.start}, there at ${frame.end}`);
}

// ---- what stands behind and above ---------------------------------------------------------------------------------------------------

const STEPS = [1, 2, 5];
function step() {
  for (let power = 1; ; power *= 10) for (const it of STEPS) if (it * power * px >= 64) return it * power;
}

function drawBack() {
  const right = width(), bottom = height - 8;
  svg.setAttribute("width", right);
  svg.setAttribute("height", height);
  svg.setAttribute("viewBox", `0 0 ${right} ${height}`);
  let text = "";
  lanes.forEach((lane, node) => {
    const slot = model.slotOf[node];
    text += `<rect class="lane" x="0" y="${lane.runs}" width="${right}" height="${SIZE.run}"/>`;
    if (!slot) return;
    const h = 3, y = lane.end - h;
    if (slot.length * px >= 1.5 && model.round * px >= 5) {
      const id = `slots-${node}`;
      text += `<pattern id="${id}" patternUnits="userSpaceOnUse" x="${near(x(slot.offset))}" y="${y}" width="${near(model.round * px)}" height="${h}"><rect class="slot" x=".5" width="${near(Math.max(slot.length * px - 1, 1))}" height="${h}"/></pattern>`;
      text += `<rect x="${near(x(slot.offset))}" y="${y}" width="${near(right - x(slot.offset))}" height="${h}" style="fill:url(#${id})"/>`;
    } else text += `<rect class="lane" x="0" y="${y}" width="${right}" height="${h}"/>`;
  });
  const ticks = [11.5, ...(nodes.length > 6 ? [bottom - 4] : [])];
  for (let t = 0, by = step(); t <= extent; t += by) {
    text += `<path class="grid" d="M${near(x(t))} ${SIZE.top - 4}V${bottom - (ticks.length - 1) * 15}"/>`;
    for (const y of ticks) text += `<text class="tick" x="${near(x(t))}" y="${y}" text-anchor="${t ? "middle" : "start"}">${t}</text>`;
  }
  back.innerHTML = text;
}

function drawMarks() {
  const bottom = height - 8, right = x(extent);
  let text = "";
  if (data.deadline <= extent) {
    const dx = near(x(data.deadline));
    text += `<path class="due all" d="M${dx} ${SIZE.top - 5}V${bottom}"/><text class="due-text" x="${dx > 120 ? dx - 4 : dx + 4}" y="${height - 1}" text-anchor="${dx > 120 ? "end" : "start"}">deadline ${data.deadline}</text>`;
  } else text += `<text class="due-text" x="${near(right)}" y="${height - 1}" text-anchor="end">deadline ${data.deadline} →</text>`;
  processes.forEach((it, p) => {
    if (!play.active[p]) return;
    const y = lanes[it.node].runs;
    if (it.release > 0) text += `<path class="release" d="M${near(x(it.release))} ${y + SIZE.run - 1}l-4 6h8z"><title>${it.name}: not before ${it.release}</title></path>`;
    if (it.due < data.deadline && it.due <= extent)
      text += `<path class="due" d="M${near(x(it.due))} ${y + SIZE.run}V${y - 5}l6 3l-6 3"><title>${it.name}: due ${it.due}</title></path>`;
  });
  markLayer.innerHTML = text;
}

function drawPast() {
  let text = "";
  if (at("shadow").checked)
    lanes.forEach((lane, node) => {
      const path = calm.runs.map((run, p) => (run && processes[p].node === node ? `M${near(x(run.start) + 0.5)} ${lane.past + 2}H${near(x(run.end) - 0.5)}` : "")).join("");
      if (path) text += `<path class="past" d="${path}"/>`;
    });
  pastLayer.innerHTML = text;
}

const arrow = (kind, strong, path) => `<path class="arrow by-${kind}${strong ? " picked" : ""}" marker-end="url(#head-${kind})" d="${path}"/>`;

/* From the end of a frame to the begin of an execution, which it meets from above or from below. */
function bent(frame, run, strong) {
  const x1 = near(x(frame.end)), x2 = near(x(run.start) + 1.5), from = lanes[frame.item.node], to = lanes[run.item.node];
  const down = to.runs > from.bus, y1 = from.bus + SIZE.bus / 2 - 0.5, y2 = down ? to.runs - 1 : to.runs + SIZE.run + 1, half = (y1 + y2) / 2;
  return arrow("frame", strong, `M${x1} ${y1}C${x1 + 4} ${half} ${x2} ${half} ${x2} ${y2}`);
}

function drawArrows() {
  const all = at("arrows").checked;
  let below = "", above = "";
  const mine = (p) => picked && picked.kind === "start" && picked.process === p;
  for (const frame of play.frames) {
    const { item } = frame, lane = lanes[item.node], strong = picked === item || mine(item.process);
    if (item.kind === "send") {
      const to = edges[item.edge][1], run = play.runs[to], bold = strong || mine(to);
      if (!run || !(all || bold)) continue;
      if (bold) above += bent(frame, run, true);
      else below += bent(frame, run, false);
    } else if (strong)
      for (const node of item.hearers) {
        const down = node > item.node;
        above += arrow("tell", true, `M${near(x(frame.end))} ${lane.bus + (down ? SIZE.bus : 0)}V${down ? lanes[node].runs : lanes[node].end}`);
      }
  }
  edges.forEach(([from, to], e) => {
    const [a, b] = [play.runs[from], play.runs[to]];
    if (a && b && play.live[e] && a.item.node === b.item.node && (mine(from) || mine(to)) && (b.start - a.end) * px > 6)
      above += arrow("work", true, `M${near(x(a.end))} ${lanes[a.item.node].runs + SIZE.run / 2}H${near(x(b.start))}`);
  });
  arrowLayer.innerHTML = below;
  topArrows.innerHTML = above;
}

function drawPicked() {
  for (const { item, group } of groups.values()) group.classList.toggle("picked", item === picked);
  let text = "";
  if (picked && picked.kind === "start") {
    const it = processes[picked.process], lane = lanes[it.node], last = model.latest[picked.process];
    if (play.active[picked.process] && (it.release > 0 || it.due <= extent))
      text += `<rect class="span" x="${near(x(it.release))}" y="${lane.runs - 2}" width="${near(Math.max(Math.min(it.due, extent) - it.release, 0) * px)}" height="${SIZE.run + 4}"/>`;
    if (last) text += `<path class="latest" d="M${near(x(last.end))} ${lane.top}V${lane.end}"/>`;
  }
  spans.innerHTML = text;
  drawArrows();
  roving();
}

function drawCursor() {
  const cx = near(x(time)), label = String(time), w = wide(label, "600 11px") + 10, left = Math.min(Math.max(cx - w / 2, 0), width() - w);
  cursorLayer.innerHTML = `<path class="cursor" d="M${cx} 14V${height - 8}"/><rect class="cursor-flag" x="${near(left - 3)}" y="0" width="${near(w + 6)}" height="16" rx="3"/><text class="cursor-text" x="${near(left + w / 2)}" y="11.5" text-anchor="middle">${label}</text>`;
}

function drawLanes() {
  const text = lanes.map((lane, node) => {
    const active = own[node].filter((p) => play.runs[p]).length;
    const bus = model.slotOf[node] ? `<div style="top:${lane.bus - 1}px;line-height:${SIZE.bus}px"><small>bus</small></div>` : "";
    const count = `<small>${active} of ${own[node].length}</small>`, height = SIZE.run > 20 ? 13 : 18;
    return `<div style="top:${lane.runs}px;line-height:${height}px" title="${html(lane.name)}: ${active} of ${own[node].length} active"><b>${html(lane.name)}</b>${SIZE.run > 20 ? `<br>${count}` : ""}</div>${bus}`;
  });
  at("lanes").innerHTML = text.join("");
}

function drawPicture() {
  layOut();
  drawBack();
  drawMarks();
  drawPast();
  drawRuns();
  drawFrames();
  drawPicked();
  drawCursor();
  drawLanes();
}

function fit() {
  const room = Math.max(scroll.clientWidth - 2 * PAD - 24, 100);
  const usual = model.durations.map((it) => it[0]).sort((a, b) => a - b)[Math.floor(P / 2)] || 1;
  const least = window.innerWidth < 720 ? Math.min(18 / usual, 6000 / extent) : 0;
  px = Math.max(room / extent, least);
}

function zoom(factor, centre = scroll.scrollLeft + scroll.clientWidth / 2) {
  const t = (centre - PAD) / px, offset = centre - scroll.scrollLeft;
  if (factor === 0) {
    fitted = true;
    fit();
  } else {
    fitted = false;
    px = Math.min(Math.max(px * factor, 100 / extent), 30000 / extent, 200);
  }
  drawPicture();
  scroll.scrollLeft = x(t) - offset;
}
