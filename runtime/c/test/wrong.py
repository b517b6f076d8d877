"""Wrong bodies of the node's turn part, which the contracts in cpg_node.c have to refuse: `tools/prove-runtime --wrong` tries them.

Each has a name, the function whose body is wrong, what stands there, and what stands there instead. `by` is the name of the goals that refuse
it: all goals of the function are asked where there is none.
"""
from typing import NamedTuple


class Wrong(NamedTuple):
    name: str
    function: str
    old: str
    new: str
    by: str = ""


BODIES = [
    Wrong("upper end of a literal one too late", "is_within", "(known.high <= range.high)", "(known.high < (range.high + 2U))"),
    Wrong("upper end of a literal forgotten", "is_within", "(known.low >= range.low) && (known.high <= range.high)", "known.low >= range.low"),
    Wrong("first literal forgotten", "follows", "uint32_t i = 0U", "uint32_t i = 1U"),
    Wrong("an end tells the low end alone", "know", "    node->heard[place].high = number;\n", ""),
    Wrong("a frame widens a range", "learn", "node->heard[place].high = heard.high", "node->heard[place].high = range.high"),
    Wrong("next instant too late", "cpg_next", "(node->execution[row].until < next)", "(node->execution[row].until > next)"),
    Wrong("next instant of what is over", "cpg_next", "is_awaited(&node->execution[row]) && ", ""),
    Wrong("an end told an instant too late", "tell_ends", "(node->execution[row].until <= now)", "(node->execution[row].until < now)"),
    Wrong("value told as faults", "tell_end", "node->execution[row].faults)", "node->execution[row].value)"),
    Wrong("value of a condition not told", "tell_end",
          "    know(node, place_of_value(node->table->process[row].condition), node->execution[row].value);\n", ""),
    Wrong("an act though not all is heard", "take_act", "!follows(node, node->table->due[i].at)", "false"),
    Wrong("a start not noted", "take_act", "        start(node, row, now);\n", "", "begun"),
    Wrong("a broadcast carries 0", "take_act", "value_of(node, node->table->item[row])", "0U"),
    Wrong("the end without faults awaited", "start", "(TIME_BYTES * node->table->k)", "(TIME_BYTES * 0U)"),
    Wrong("acts of the instant left out", "take_dues", "(due_time(node, node->next) <= now)", "(due_time(node, node->next) < now)", "done"),
    Wrong("the column after this one taken", "take_column", "take_due(node, i, now, event)", "take_due(node, node->next, now, event)", "at"),
    Wrong("a turn without ends", "take_turn", "    tell_ends(node, now);\n", "", "ends"),
    Wrong("a frame heard early", "find_heard", "(due_time(node, i) == time)", "(due_time(node, i) >= time)"),
    Wrong("a frame heard by another column", "find_heard", " && (due.column == column)", ""),
    Wrong("a contradicting value heard", "contradicts", "(other == place) && is_empty(common(told, range))", "false"),
    Wrong("a frame heard after its turn", "cpg_hear", "(time < node->from) || ", "", "order"),
    Wrong("the value of a broadcast not heard", "hear_due", "    learn(node, place, told);\n", "", "told"),
    Wrong("an end one too late taken", "cpg_ended", "(time > end)", "(time > (end + 1U))", "taken"),
    Wrong("an early end told when it comes", "cpg_ended", "execution->until = end", "execution->until = time", "this"),
    Wrong("k + 1 faults taken", "may_tell", "(faults <= node->table->k)", "(faults <= (node->table->k + 1U))"),
    Wrong("a broadcast carries another value", "value_of", "node->heard[place].low", "(uint8_t)(node->heard[place].high + 1U)"),
    Wrong("what was heard stays in the next cycle", "cpg_begin", "        node->heard[i].low = 0U;\n", "", "this"),
    Wrong("an execution runs on in the next cycle", "cpg_begin", "node->execution[row].state = CPG_IDLE", "node->execution[row].value = 0U", "idle"),
    Wrong("an overrun told again", "tell_overrun", "    node->execution[row].state = CPG_OVERRUNNING;\n", ""),
    Wrong("an overrun told early", "find_overrun", "(node->execution[row].until <= now)", "(node->execution[row].until <= (now + 1U))"),
    Wrong("the instant of a start forgotten", "start", "    node->execution[row].start = now;\n", ""),
    Wrong("what a node sends heard too", "is_heard", "row >= node->table->acting", "row >= node->table->own", "heard"),
    Wrong("the instant of a turn not passed", "take_instant", "node->from = now + 1U", "node->from = now", "turning"),
    Wrong("a turn after the time that was asked for", "cpg_poll", "(now <= until)", "((now - 1U) <= until)", "time"),
    Wrong("an end told twice", "may_tell", "(node->execution[row].state == CPG_OVERRUNNING)", "(node->execution[row].state == CPG_NOTED)"),
    Wrong("a value without a condition", "may_tell", "((value == 1U) && (node->table->process[row].condition != CPG_NONE))", "(value == 1U)"),
]
