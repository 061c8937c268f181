"""A flat module of Yosys as gates and registers, for the flows that read Verilog: in an order in which each gate stands after those that
it reads, its clock, and what is known of the registers where an input is held at its reset."""
import re

from ports import KNOWN, stops

CLOCKS = 8
RESET = re.compile(r"(^|_)(a|n|s)?(rst|reset)(_?(n|ni|i|b|in|l|p|async|sync)|\d*)*$|^(nrst|resetb|clear_n|clr_n|por|por_n)$", re.I)
PLAIN = re.compile(r"^\$_DFF_([NP])_$")
CLEARED = re.compile(r"^\$_DFF_([NP])([NP])([01])_$")


class Gates:
    """The gates in an order in which each stands after what it reads, and the registers: (what it gives, what it reads, its asynchronous
    reset's net, the bit at which that acts, and the bit that it gives then)."""

    def __init__(self, module):
        self.module, self.registers, gates = module, [], {}
        self.clocks = set()
        for name, cell in module.cells.items():
            kind, nets = cell["type"], {pin: it[0] for pin, it in cell["connections"].items()}
            plain, cleared = PLAIN.match(kind), CLEARED.match(kind)
            if plain or cleared:
                self.clocks.add((nets["C"], (plain or cleared)[1] == "P"))
                acts = (nets["R"], int(cleared[2] == "P"), int(cleared[3])) if cleared else (None, 0, 0)
                self.registers.append((nets["Q"], nets["D"], *acts))
            elif kind in RULES:
                gates[nets["Y"]] = (RULES[kind], [nets[pin] for pin in "ABS" if pin in nets])
            elif "Q" in nets:
                known = module.names_of()
                called = known[nets["Q"]][0][0] if nets["Q"] in known else name
                stops(f"the register {called} has an asynchronous set beside its asynchronous reset, or takes there what isn't constant ({kind}):"
                      " one of them alone, to a constant, can be taken")
            else:
                stops(f"a cell {kind} ({name}) is none that this flow knows")
        self.gates = in_order(gates)
        self.drivers = gates

    def root(self, net):
        """The net before negations, and whether they negate it."""
        negated = False
        while net in self.drivers and self.drivers[net][0] in (RULES["$_NOT_"], RULES["$_BUF_"]):
            rule, reads = self.drivers[net]
            net, negated = reads[0], negated ^ (rule is RULES["$_NOT_"])
        return net, negated

    def before(self, nets):
        """All nets on which these depend, within a step."""
        seen, todo = set(), list(nets)
        while todo:
            net = todo.pop()
            if net not in seen:
                seen.add(net)
                todo += self.drivers[net][1] if net in self.drivers else []
        return seen


# each gate by the bits, as numbers with a bit for each value of the inputs, and all of them
RULES = {
    "$_BUF_": lambda every, a: a,
    "$_NOT_": lambda every, a: every ^ a,
    "$_AND_": lambda every, a, b: a & b,
    "$_NAND_": lambda every, a, b: every ^ (a & b),
    "$_OR_": lambda every, a, b: a | b,
    "$_NOR_": lambda every, a, b: every ^ (a | b),
    "$_XOR_": lambda every, a, b: a ^ b,
    "$_XNOR_": lambda every, a, b: every ^ a ^ b,
    "$_ANDNOT_": lambda every, a, b: a & (every ^ b),
    "$_ORNOT_": lambda every, a, b: a | (every ^ b),
    "$_MUX_": lambda every, a, b, s: (a & (every ^ s)) | (b & s),
}


def in_order(gates):
    order, placed = [], {}
    for first in gates:
        todo = [first]
        while todo:
            net = todo[-1]
            if placed.get(net) == "done" or net not in gates:
                todo.pop()
                continue
            left = [it for it in gates[net][1] if it in gates and placed.get(it) != "done"]
            if placed.get(net) == "open" and any(placed.get(it) == "open" for it in left):
                stops("the logic reads itself in a ring, without a register between")
            placed[net] = "open"
            if left:
                todo += left
            else:
                placed[net] = "done"
                order.append((net, *gates[net]))
                todo.pop()
    return order


def known_bits(gates, bits):
    """The nets that have one bit, where these do and all others may have any: a gate is tried at both bits of what isn't known."""
    bits = {**bits, **KNOWN}
    for net, rule, reads in gates.gates:
        came, unknown = [], list(dict.fromkeys(it for it in reads if it not in bits))
        for number in range(2 ** len(unknown)):
            tried = {it: number >> place & 1 for place, it in enumerate(unknown)}
            came.append(rule(1, *(tried[it] if it in tried else bits[it] for it in reads)))
        if len(set(came)) == 1:
            bits[net] = came[0]
    return bits


# ---- clock and reset


def clock_of(gates, names):
    """The clock's input and its edge."""
    inputs = {net: name for name, net in gates.module.inputs}
    found = set()
    for net, rises in gates.clocks:
        root, negated = gates.root(net)
        if root not in inputs:
            called = names.get(net, [("of a register", 0)])[0][0]
            stops(f"the clock {called} is no input: one that is divided, or gated by logic, can't be taken (an enable can: `if (enable)` in"
                  " the clocked process)")
        found.add((root, rises ^ negated))
    if len(found) > 1:
        said = " and ".join(sorted(f"{'posedge' if rises else 'negedge'} {inputs[net]}" for net, rises in found))
        stops(f"more than one clock or edge: {said}")
    (clock, rises), = found
    logic = [net for _, net in gates.module.outputs]
    logic += [it for _, reads, reset, _, _ in gates.registers for it in (reads, reset) if it is not None]
    if clock in gates.before(logic):
        stops(f"the clock {inputs[clock]} is read as data, or as a reset")
    return clock, inputs[clock], rises


def after_reset(gates, held):
    """The registers' bits that are known where these inputs are held, from registers that may have any."""
    state = {}
    for _ in range(CLOCKS):
        for gives, _, reset, acts, value in gates.registers:
            if reset is not None and known_bits(gates, held).get(reset) == acts:
                state[gives] = value
        bits = known_bits(gates, {**held, **state})
        came = {gives: value if reset is not None and bits.get(reset) == acts else bits.get(reads)
                for gives, reads, reset, acts, value in gates.registers}
        came = {net: bit for net, bit in came.items() if bit is not None}
        if came == state:
            break
        state = came
    return state
