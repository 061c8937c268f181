"""What Yosys's JSON says of a flat module, for the flows that read Verilog: its ports bit by bit, its registers, and its cells."""
import json
import sys

# a bit of a constant, as write_json writes it
KNOWN = {"0": 0, "1": 1}


class Module:
    def __init__(self, path):
        modules = json.load(open(path))["modules"]
        (self.name, self.json), = [(name, it) for name, it in modules.items() if int(it["attributes"].get("top", "0"), 2)] or \
            list(modules.items())[:1]
        self.cells = self.json["cells"]
        self.ports = [Port(name, it) for name, it in self.json["ports"].items()]
        self.inputs = [bit for port in self.ports if port.direction == "input" for bit in port.named]
        self.outputs = [bit for port in self.ports if port.direction == "output" for bit in port.named]

    def names_of(self):
        """Each net of the module by the names that have it: (name, place from the last bit), public names first and short ones."""
        found = {}
        for name, it in self.json["netnames"].items():
            for place, net in enumerate(it["bits"]):
                found.setdefault(net, []).append((it["hide_name"], name.count("."), -len(it["bits"]), len(name), name, place))
        return {net: [(name, place) for _, _, _, _, name, place in sorted(them)] for net, them in found.items()}

    def first_bits(self):
        """The initial value of each net that has one."""
        found = {}
        for it in self.json["netnames"].values():
            for net, bit in zip(it["bits"], reversed(it["attributes"].get("init", ""))):
                if bit in KNOWN:
                    found[net] = KNOWN[bit]
        return found


class Port:
    """A port; its bits are (name, net), the leftmost of the declaration first, by the names that write_blif gives them."""

    def __init__(self, name, it):
        self.name, self.direction, nets, first = name, it["direction"], it["bits"], it.get("offset", 0)
        self.width, last = len(nets), first + len(nets) - 1
        ends = (first, last) if it.get("upto") else (last, first)
        self.range = f"[{ends[0]}:{ends[1]}]" if self.width > 1 or first else ""  # as it is declared; none of one bit
        index = (lambda place: last - place) if it.get("upto") else (lambda place: first + place)
        self.named = [(name if self.width == 1 else f"{name}[{index(place)}]", net) for place, net in reversed(list(enumerate(nets)))]


def stops(note, status=2):
    print(f"flows: {note}", file=sys.stderr)
    sys.exit(status)
