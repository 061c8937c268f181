"""BLIF for the flows: models of covers, latches and cells, their #tsc lines, what a cover says, names that mean nothing to a tool, and
cells turned into covers by a liberty file."""
import itertools
import re
import sys

# the nets that Yosys writes for its constants, and what gives each
CONSTANTS = {"$false": [], "$true": ["1"], "$undef": []}


class Model:
    def __init__(self, name):
        self.name, self.inputs, self.outputs, self.plan = name, [], [], []
        self.latches = []  # what it reads, what it gives, and its first bit
        self.clock = []  # the type and the control that the latches' lines have
        self.covers = []  # what it gives, what it reads, and its rows
        self.calls = []  # the name of a cell or model, and its nets by pin
        self.wires = {}  # of a net that is another one's wire that other one (.conn)
        self.is_box = False  # a black box has no body


def logical_lines(text):
    for line in text.replace("\\\n", " ").splitlines():
        if line.startswith("#tsc "):
            yield line, line.split()
        elif line.split("#")[0].split():
            yield line, line.split("#")[0].split()


def models_of(path):
    """The models of a BLIF text."""
    models = []
    for line, words in logical_lines(open(path).read()):
        kind = words[0]
        if kind == ".model" or not models:
            models.append(Model(words[1] if kind == ".model" else "model"))
        model = models[-1]
        if kind == "#tsc":
            model.plan.append(line)
        elif kind in (".inputs", ".outputs"):
            getattr(model, kind[1:]).extend(words[1:])
        elif kind == ".names":
            model.covers.append((words[-1], words[1:-1], []))
        elif kind == ".latch":
            model.latches.append((words[1], words[2], words[-1]))
            model.clock = words[3:5] if len(words) == 6 else []
        elif kind in (".subckt", ".gate"):
            model.calls.append((words[1], dict(it.split("=", 1) for it in words[2:])))
        elif kind == ".conn":
            model.wires[words[2]] = words[1]
        elif kind == ".blackbox":
            model.is_box = True
        elif not kind.startswith("."):
            model.covers[-1][2].append(" ".join(words))
        elif kind not in (".model", ".end"):
            sys.exit(f"blif: {kind} is not known")
    return models


def text_of(model):
    lines = [f".model {model.name}", " ".join([".inputs", *model.inputs]), " ".join([".outputs", *model.outputs]), *model.plan]
    lines += [" ".join([".latch", reads, net, *model.clock, first]) for reads, net, first in model.latches]
    for name, nets in model.calls:
        lines.append(" ".join([".subckt", name, *(f"{pin}={net}" for pin, net in nets.items())]))
    for net, reads, rows in model.covers:
        lines += [" ".join([".names", *reads, net]), *rows]
    return "\n".join([*lines, *([".blackbox"] if model.is_box else []), ".end", ""])


def named_nets(model):
    """The nets that the plan lines name, each once."""
    named = [net for line in model.plan for net in line.split()[2:] if line.split()[1] in ("group", "check", "watch")]
    return list(dict.fromkeys(named))


# ---- what a cover says


def cubes_of(rows):
    """The input parts of the rows, and the bit that these give."""
    return [row[:-1].strip() for row in rows], rows[0][-1] if rows else "1"


def holds_all(cubes):
    """Whether each value of the pins lies in a cube."""
    if not cubes or any(not cube.strip("-") for cube in cubes):
        return bool(cubes)
    pin = max(range(len(cubes[0])), key=lambda at: sum(cube[at] != "-" for cube in cubes))
    halves = [[cube[:pin] + "-" + cube[pin + 1 :] for cube in cubes if cube[pin] in ("-", bit)] for bit in "01"]
    return all(map(holds_all, halves))


def constant_of(rows):
    """The bit that the cover always has, or None."""
    cubes, bit = cubes_of(rows)
    return "0" if not cubes else bit if holds_all(cubes) else None


def repeated_pin(rows):
    """The pin whose bit the cover always has, or None: each cube asks for that pin, and for nothing else together."""
    cubes, bit = cubes_of(rows)
    for pin in range(len(cubes[0]) if cubes else 0):
        if {cube[pin] for cube in cubes} == {bit} and holds_all([cube[:pin] + "-" + cube[pin + 1 :] for cube in cubes]):
            return pin
    return None


# ---- names


def plain_names(model):
    """A name for each net by its place, so that none means anything to a tool: n0, n1 .."""
    nets = model.inputs + [gives for _, gives, _ in model.latches] + [gives for gives, _, _ in model.covers]
    return {net: f"n{place}" for place, net in enumerate(nets)}


def fresh_names(taken):
    """Names that none of those taken begins with."""
    number = next(k for k in itertools.count() if not any(name.startswith(f"m{k}_") for name in taken))
    return (f"m{number}_{k}" for k in itertools.count())


def free(name, taken):
    """This name, or the first with a number behind it that isn't taken."""
    number, made = 0, name
    while made in taken:
        number, made = number + 1, f"{name}_{number + 1}"
    taken.add(made)
    return made


def is_unsafe(name):
    """Whether a preprocessor of Verilog would see a comment, a macro or a string in it."""
    return re.search(r"/[/*]|[`\"]", name) is not None


def safe_names(model):
    """Another name for each net that has an unsafe one."""
    nets = plain_names(model)
    taken = set(nets)
    return {it: free("net", taken) for it in nets if is_unsafe(it)}


def rename(model, name):
    """Each net of the model by its new name."""
    if model.clock and model.clock[1] in model.inputs:
        model.clock = [model.clock[0], name(model.clock[1])]
    model.inputs, model.outputs = list(map(name, model.inputs)), list(map(name, model.outputs))
    model.latches = [(name(reads), name(gives), first) for reads, gives, first in model.latches]
    model.covers = [(name(gives), list(map(name, reads)), rows) for gives, reads, rows in model.covers]


# ---- cells


def cells_of(path):
    """Of each cell of a liberty file its pins, its output, and the rows of its function, which has 0, 1, !, &, | and brackets."""
    cells = {}
    for name, body in re.findall(r"cell *\((\w+)\) *\{(.*?)\n  \}", open(path).read(), re.S):
        output, function = re.search(r"pin *\((\w+)\) *\{[^}]*function *: *\"([^\"]*)\"", body).groups()
        pins = re.findall(r"pin *\((\w+)\) *\{ *direction *: *input", body)
        rule = function.replace("!", " not ").replace("&", " and ").replace("|", " or ")
        points = itertools.product("01", repeat=len(pins))
        rows = [f"{''.join(it)} 1".strip() for it in points if eval(rule, {}, dict(zip(pins, map(int, it))))]
        cells[name] = (pins, output, rows)
    return cells


def areas_of(path):
    """Of each cell of a liberty file its area."""
    return {name: float(area) for name, area in re.findall(r"cell *\((\w+)\) *\{\s*area *: *([\d.]+)", open(path).read())}


def with_covers(model, cells):
    """The model with a cover for each call of a cell."""
    for name, nets in model.calls:
        if name not in cells:
            sys.exit(f"blif: no cell {name} in the library")
        pins, output, rows = cells[name]
        model.covers.append((nets[output], [nets[pin] for pin in pins], rows))
    model.calls = []
    return model
