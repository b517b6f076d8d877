"use strict";
/* What a page shows, computed from tables. Nothing here knows of the document.

   A scenario is {faults: a count for each process, values: 0 or 1 for each condition}. Items are numbered as in a pack: with P processes
   and E edges, item p is the start of process p, item P + e the message of edge e, item P + E + c the broadcast of condition c. */
function modelOf(data) {
  const VALUE = 128; // the variable of condition c is VALUE + c; that of a fault count is the process
  const k = data.faults, processes = data.processes, edges = data.edges, P = processes.length, E = edges.length;
  const deciding = processes.map((_, p) => p).filter((p) => processes[p].condition);
  const conditionOf = processes.map((_, p) => deciding.indexOf(p));
  const nodeOf = processes.map((it) => it.node);
  const slotOf = data.nodes.map(() => null);
  let round = 0;
  for (const [node, length] of data.slots) {
    slotOf[node] = { offset: round, length };
    round += length;
  }
  const into = processes.map(() => []), out = processes.map(() => []);
  edges.forEach(([from, to], e) => { out[from].push(e); into[to].push(e); });
  const durations = processes.map((it) => it.durations); // by the number of faults

  // The items that have a row, each with the node that acts and the nodes that hear of it.
  const others = (node) => data.nodes.map((_, n) => n).filter((n) => n !== node);
  const items = processes.map((it, p) => ({ number: p, kind: "start", process: p, node: it.node, hearers: [] }));
  edges.forEach(([from, to], e) => {
    if (nodeOf[from] !== nodeOf[to])
      items.push({ number: P + e, kind: "send", edge: e, process: from, node: nodeOf[from], hearers: [nodeOf[to]] });
  });
  if (data.nodes.length > 1)
    deciding.forEach((p, c) => items.push({ number: P + E + c, kind: "tell", condition: c, process: p, node: nodeOf[p], hearers: others(nodeOf[p]) }));
  const sends = items.slice(P), itemOfEdge = edges.map(() => null);
  for (const item of sends) if (item.kind === "send") itemOfEdge[item.edge] = item;

  // The columns of all rows, one after another. Those of an item are from first to last, its literals from begin to begin + 1.
  const bytes = Uint8Array.from(atob(data.tables), (letter) => letter.charCodeAt(0));
  const time = [], begin = [0], variables = [], lows = [], highs = [];
  let at = 0;
  const small = () => {
    let number = 0, weight = 1, byte;
    do {
      byte = bytes[at++];
      number += (byte & 127) * weight;
      weight *= 128;
    } while (byte > 127);
    return number;
  };
  for (const item of items) {
    item.first = time.length;
    for (let left = small(); left > 0; left--) {
      time.push(small());
      for (let literals = bytes[at++]; literals > 0; literals--) {
        variables.push(bytes[at]);
        lows.push(bytes[at + 1] >> 4);
        highs.push(bytes[at + 1] & 15);
        at += 2;
      }
      begin.push(variables.length);
    }
    item.last = time.length;
  }
  const literalsOf = (column) => {
    const found = [];
    for (let i = begin[column]; i < begin[column + 1]; i++) found.push({ variable: variables[i], low: lows[i], high: highs[i] });
    return found;
  };

  // An order in which sources come before targets.
  const order = [];
  const waiting = into.map((it) => it.length);
  for (let p = 0; p < P; p++) if (waiting[p] === 0) order.push(p);
  for (let n = 0; n < order.length; n++)
    for (const e of out[order[n]]) if (--waiting[edges[e][1]] === 0) order.push(edges[e][1]);

  const none = () => ({ faults: processes.map(() => 0), values: deciding.map(() => 0) });
  const spent = (scenario) => scenario.faults.reduce((sum, n) => sum + n, 0);

  /* Which processes are active and which edges are live. A process without inputs is active; another one where all of its inputs are
     live, a join where one is. */
  function activity(scenario) {
    const active = processes.map(() => false), live = edges.map(() => false);
    for (const p of order) {
      const inputs = into[p];
      active[p] = inputs.length === 0 || (processes[p].join ? inputs.some((e) => live[e]) : inputs.every((e) => live[e]));
      for (const e of out[p]) live[e] = active[p] && (edges[e][2] < 0 || edges[e][2] === scenario.values[conditionOf[p]]);
    }
    return { active, live };
  }

  function numbersOf(scenario) {
    const numbers = new Uint8Array(256);
    scenario.faults.forEach((n, p) => { numbers[p] = n; });
    scenario.values.forEach((n, c) => { numbers[VALUE + c] = n; });
    return numbers;
  }

  function matches(column, numbers) {
    for (let i = begin[column], end = begin[column + 1]; i < end; i++) {
      const number = numbers[variables[i]];
      if (number < lows[i] || number > highs[i]) return false;
    }
    return true;
  }

  /* What all nodes do in a scenario: of each item the one column that matches, as its node finds it. `wrong` tells of items whose columns
     aren't those of a safe pack. */
  function acts(scenario) {
    const { active, live } = activity(scenario), numbers = numbersOf(scenario), wrong = [];
    const runs = processes.map(() => null), frames = [];
    let finish = 0;
    for (const item of items) {
      let column = -1, count = 0;
      for (let c = item.first; c < item.last; c++)
        if (matches(c, numbers) && count++ === 0) column = c;
      const due = item.kind === "send" ? live[item.edge] : active[item.process];
      if (count !== (due ? 1 : 0)) wrong.push(`${nameOf(item)}: ${count} columns match, and it is ${due ? "" : "not "}active`);
      if (column < 0) continue;
      if (item.kind === "start") {
        const start = time[column], end = start + durations[item.process][scenario.faults[item.process]];
        runs[item.process] = { item, column, start, end };
        finish = Math.max(finish, end);
      } else frames.push({ item, column, start: time[column], end: time[column] + slotOf[item.node].length });
    }
    return { scenario, active, live, runs, frames, finish, wrong };
  }

  /* What a node has heard by a time: of each variable the range that is left, at first 0 to k, or 0 to 1 for a value. */
  function heard(play, node, until) {
    const low = new Uint8Array(256), high = new Uint8Array(256).fill(1);
    high.fill(k, 0, VALUE);
    const cut = (variable, least, most) => {
      low[variable] = Math.max(low[variable], least);
      high[variable] = Math.min(high[variable], most);
    };
    const value = (p) => {
      const c = conditionOf[p];
      if (c >= 0) cut(VALUE + c, play.scenario.values[c], play.scenario.values[c]);
    };
    play.runs.forEach((run, p) => {
      if (!run || nodeOf[p] !== node || run.end > until) return;
      cut(p, play.scenario.faults[p], play.scenario.faults[p]);
      value(p);
    });
    for (const frame of play.frames) {
      if (frame.end > until || !frame.item.hearers.includes(node)) continue;
      for (const it of literalsOf(frame.column)) cut(it.variable, it.low, it.high);
      if (frame.item.kind === "tell") value(frame.item.process);
    }
    return { low, high };
  }

  function askedOf(column) {
    let asked = 0;
    for (let i = begin[column]; i < begin[column + 1]; i++) if (variables[i] < VALUE) asked += lows[i];
    return asked;
  }

  /* The least scenario of a column. In a safe pack each scenario that matches has the item and all
     processes of its literals active, so that the literals alone say which scenarios a column has. */
  function ofColumn(column) {
    const scenario = none();
    for (const it of literalsOf(column))
      if (it.variable < VALUE) scenario.faults[it.variable] = it.low;
      else scenario.values[it.variable - VALUE] = it.low;
    return scenario;
  }

  /* The latest end of a process in all scenarios. It is the greatest over its columns of the time and the duration with all faults that
     the column's literals leave: the least that they ask of others, and the rest for the process itself. No scenario is listed. */
  function latestOf(p) {
    let best = null, least = Infinity, most = -Infinity;
    for (let column = items[p].first; column < items[p].last; column++) {
      let asked = 0, own = 0, limit = k;
      for (let i = begin[column]; i < begin[column + 1]; i++) {
        if (variables[i] >= VALUE) continue;
        asked += lows[i];
        if (variables[i] === p) [own, limit] = [lows[i], highs[i]];
      }
      if (asked > k) continue;
      const faults = Math.min(limit, k - (asked - own)), end = time[column] + durations[p][faults];
      least = Math.min(least, time[column]);
      most = Math.max(most, time[column]);
      if (!best || end > best.end) best = { process: p, column, faults, end };
    }
    return best && { ...best, earliestStart: least, latestStart: most };
  }

  function scenarioOf(latest) {
    const scenario = ofColumn(latest.column);
    scenario.faults[latest.process] = latest.faults;
    return scenario;
  }

  const latest = processes.map((_, p) => latestOf(p));
  const worst = latest.reduce((best, it) => (it && (!best || it.end > best.end) ? it : best), null);
  const slackOf = (p) => (latest[p] ? processes[p].due - latest[p].end : null);
  const tightest = latest.reduce((best, it, p) => (it && (best === null || slackOf(p) < slackOf(best)) ? p : best), null);

  function nameOf(item) {
    if (item.kind === "send") return `send e${item.edge}`;
    return `${item.kind} ${processes[item.process].name}`;
  }

  function headOf(item) {
    const on = `on ${data.nodes[item.node]}`;
    if (item.kind !== "send") return `${nameOf(item)} ${on}`;
    const [from, to] = edges[item.edge];
    return `${nameOf(item)} ${processes[from].name}>${processes[to].name} ${on}`;
  }

  function literalText({ variable, low, high }) {
    if (variable >= VALUE) return `${processes[deciding[variable - VALUE]].name} ${low ? "true" : "false"}`;
    return `${processes[variable].name} faults ${low === high ? low : `${low}..${high}`}`;
  }

  const columnText = (column) => literalsOf(column).map(literalText).join(", ") || "always";

  function scenarioText(scenario) {
    const said = [];
    processes.forEach((it, p) => {
      if (scenario.faults[p]) said.push(`${it.name} faults ${scenario.faults[p]}`);
      if (it.condition && scenario.values[conditionOf[p]]) said.push(`${it.name} true`);
    });
    return said.join(", ") || "none";
  }

  /* The play as `cpgc play` writes it, but for its last line. */
  function trace(play) {
    const events = [];
    play.runs.forEach((run, p) => {
      if (!run) return;
      const it = processes[p], value = it.condition ? ` value ${Boolean(play.scenario.values[conditionOf[p]])}` : "";
      events.push([run.end, it.node, 0, p, `end ${it.name} faults ${play.scenario.faults[p]}${value}`]);
      events.push([run.start, it.node, 2, p, `start ${it.name}`]);
    });
    for (const frame of play.frames) events.push([frame.start, frame.item.node, 1, frame.item.number, nameOf(frame.item)]);
    events.sort((a, b) => a[0] - b[0] || a[1] - b[1] || a[2] - b[2] || a[3] - b[3]);
    return [...events.map(([t, node, , , text]) => `${t} ${data.nodes[node]} ${text}`), `finish ${play.finish}`, ""].join("\n");
  }

  const key = (name) => (name.includes(".") ? `"${name}"` : name);

  function scenarioFile(scenario) {
    const faults = processes.flatMap((it, p) => (scenario.faults[p] ? [`${key(it.name)} = ${scenario.faults[p]}`] : []));
    const values = deciding.flatMap((p, c) => (scenario.values[c] ? [`${key(processes[p].name)} = true`] : []));
    return [...(faults.length ? ["[faults]", ...faults] : []), ...(values.length ? ["[values]", ...values] : []), ""].join("\n").replace(/^\n$/, "");
  }

  const word = (text) => (/^[A-Za-z0-9_/.,:=+@%-]+$/.test(text) ? text : `'${text.replaceAll("'", `'\\''`)}'`);
  const command = `cpgc play ${word(data.files.graph)} ${word(data.files.pack)} scenario.toml --turns 0`;

  /* A scenario in the address of the page: faults as f=NAME:N,.. and the values that are true as v=NAME,.. */
  function address(scenario) {
    const faults = processes.flatMap((it, p) => (scenario.faults[p] ? [`${it.name}:${scenario.faults[p]}`] : []));
    const values = deciding.flatMap((p, c) => (scenario.values[c] ? [processes[p].name] : []));
    return [...(faults.length ? [`f=${faults}`] : []), ...(values.length ? [`v=${values}`] : [])].join("&");
  }

  /* The scenario of an address. What names nothing, or is more than k faults, is left out and told. */
  function fromAddress(text) {
    const scenario = none(), strange = [];
    for (const part of text.replace(/^#/, "").split("&")) {
      const [field, list = ""] = part.split("=");
      for (const it of list.split(",").filter((it) => it && (field === "f" || field === "v"))) {
        const [name, count = "1"] = it.split(":"), p = processes.findIndex((process) => process.name === name);
        if (field === "v" && p >= 0 && conditionOf[p] >= 0) scenario.values[conditionOf[p]] = 1;
        else if (field === "f" && p >= 0 && /^[0-9]$/.test(count) && spent(scenario) + Number(count) - scenario.faults[p] <= k) scenario.faults[p] = Number(count);
        else strange.push(it);
      }
    }
    return { scenario, strange };
  }

  /* 2^C times the ways to put at most k faults on P processes. */
  function scenarioCount() {
    let ways = 1n;
    for (let n = 1; n <= k; n++) ways = (ways * BigInt(P + n)) / BigInt(n);
    return ways << BigInt(deciding.length);
  }

  // Whatever the scenario, nothing ends later than this.
  const horizon = Math.max(1, ...latest.map((it) => (it ? it.end : 0)), ...sends.map((item) => {
    let most = 0;
    for (let column = item.first; column < item.last; column++)
      if (askedOf(column) <= k) most = Math.max(most, time[column] + slotOf[item.node].length);
    return most;
  }));

  return {
    data, k, processes, edges, items, sends, itemOfEdge, deciding, conditionOf, nodeOf, slotOf, round, into, out, durations, columns: time.length,
    timeOf: (column) => time[column], latest, worst, tightest, slackOf, horizon, none, spent, activity, acts, heard, askedOf, ofColumn, literalsOf, scenarioOf, nameOf,
    headOf, columnText, scenarioText, trace, scenarioFile, command, address, fromAddress, scenarioCount, VALUE,
  };
}
