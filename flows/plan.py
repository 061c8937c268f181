"""What a netlist says of itself by its plan lines: checks, groups, rails and the words of states; which part of it a cover is; what its
nets are at a step; the states of a KISS2 table; and how a flow ends where a file isn't what it should be."""
import os
import subprocess
import sys
import tempfile

from blif import cubes_of, logical_lines, models_of

TSC = os.environ.get("TSC") or os.path.join(os.path.dirname(os.path.abspath(__file__)), "..", "tsc")

# the flow that a script is of, where that is what a user calls
CALLERS = {"faulted": "campaign", "walk": "reached", "joint": "joined"}


def stops(why, status=2):
    """Ends with the line and the status."""
    name = os.path.basename(sys.argv[0])
    print(f"flows/{CALLERS.get(name, name)}: {why}", file=sys.stderr)
    sys.stderr.flush()
    sys.exit(status)


def asked(words, text):
    """The status, the answer and the notes of the program, for these words and this text."""
    try:
        done = subprocess.run([TSC, *words], input=text, stdout=subprocess.PIPE, stderr=subprocess.PIPE)
    except OSError as error:
        stops(f"no program at {TSC}: {error.strerror}")
    notes = [line for line in done.stderr.decode(errors="replace").split("\n") if line]
    return done.returncode, done.stdout.decode(errors="replace"), notes


def bytes_of(path):
    try:
        with open(path, "rb") as file:
            return file.read()
    except OSError as error:
        stops(f"{path}: {error.strerror}")


def read_netlist(path):
    """The netlist at this path, and its text, once the program has read it as `tsc faults` does; else the program's note and status."""
    text = bytes_of(path)
    status, faults, notes = asked(["faults"], text)
    if status:
        stops(f"{path} is no netlist with its plan lines: {notes[-1] if notes else 'tsc faults ended with a status'}", status)
    net = models_of(path)[0]
    net.faults = [tuple(line.split()) for line in faults.split("\n") if line and not line.startswith("total ")]
    return net, text


def written(path, text):
    """The text, or the bytes, in the file, written beside it first; without a path to standard output."""
    text = text.encode() if isinstance(text, str) else text
    if path is None:
        try:
            sys.stdout.buffer.write(text)
            sys.stdout.buffer.flush()
        except BrokenPipeError:
            os.dup2(os.open(os.devnull, os.O_WRONLY), 1)
            stops("nobody reads what is written")
        return
    beside = None
    try:
        handle, beside = tempfile.mkstemp(prefix=".written.", dir=os.path.dirname(path) or ".")
        with os.fdopen(handle, "wb") as file:
            file.write(text)
        mask = os.umask(0)
        os.umask(mask)
        os.chmod(beside, 0o666 & ~mask)
        os.replace(beside, path)
    except BaseException as error:
        if beside and os.path.exists(beside):
            os.unlink(beside)
        if isinstance(error, OSError):
            stops(f"{path}: {error.strerror}")
        raise


class Plan:
    """The plan lines of a netlist, read."""

    def __init__(self, net):
        self.version, self.code, self.groups, self.checks, self.states = "1", "", [], [], []
        for words in (line.split()[1:] for line in net.plan):
            if words[0] in ("1", "2"):
                self.version, self.code = words[0], words[1]
            elif words[0] == "group":
                self.groups.append((words[1:-1], words[-1]))
                self.checks.append(words[-1])
            elif words[0] == "check":
                self.checks += words[1:]
            elif words[0] == "state":
                self.states.append(words[1])
        self.rails, self.outputs = net.outputs[-2:], net.outputs[:-2]
        self.next = [reads for reads, _, _ in net.latches]
        self.state = [gives for _, gives, _ in net.latches]
        self.first = "".join(first for _, _, first in net.latches)

    def columns(self):
        """The nets of the columns of a line of `tsc sim`."""
        return [self.outputs, self.checks, self.next, self.rails]


def code_name(plan):
    return {"parity": "parity groups", "berger": "a Berger code", "mofn": "an m-out-of-n code"}[plan.code]


# ---- parts


def cone_of(net, roots):
    """The covers' nets on which these nets depend, themselves too; latches aren't crossed."""
    reads, found, todo = {gives: reads for gives, reads, _ in net.covers}, set(), list(roots)
    while todo:
        it = todo.pop()
        if it in reads and it not in found:
            found.add(it)
            todo += reads[it]
    return found


PARTS = ["latch", "output", "check", "next", "checker", "other"]


def parts_of(net, plan):
    """The part of each latch's and each cover's net: the first of these whose cone it is in."""
    parts = {gives: "latch" for gives in plan.state}
    for part, roots in (("output", plan.outputs), ("check", plan.checks), ("next", plan.next), ("checker", plan.rails)):
        for it in cone_of(net, roots):
            parts.setdefault(it, part)
    for gives, _, _ in net.covers:
        parts.setdefault(gives, "other")
    return parts


# ---- values


def in_order(net):
    """The covers, each behind those that it reads."""
    at = {gives: (gives, reads, rows) for gives, reads, rows in net.covers}
    done, order = set(), []
    for start in at:
        todo = [(start, iter(at[start][1]))] if start not in done else []
        while todo:
            it, pins = todo[-1]
            pin = next((pin for pin in pins if pin in at and pin not in done), None)
            if pin is None:
                todo.pop()
                if it not in done:
                    done.add(it)
                    order.append(at[it])
            else:
                todo.append((pin, iter(at[pin][1])))
    return order


def cover_bit(bits, rows):
    """The bit of the cover where its pins have these."""
    cubes, bit = cubes_of(rows)
    holds = any(all(asked in ("-", it) for asked, it in zip(cube, bits)) for cube in cubes) if bits else bool(cubes)
    return bit if holds else "10"[int(bit)]


def settled(net, order, inputs, state, fault=None):
    """The bit of each net at these inputs and state bits, under the fault, and what the latches' pins read. A fault is what `tsc sim` takes
    without WHEN: ("stem", NET, V) or ("pin", NET, INDEX, V)."""
    values = dict(zip(net.inputs, inputs))

    def put(it, bit):
        values[it] = fault[2] if fault and fault[0] == "stem" and fault[1] == it else bit

    def pin(it, index, reads):
        return fault[3] if fault and fault[0] == "pin" and fault[1:3] == (it, str(index)) else values[reads]

    for (_, gives, _), bit in zip(net.latches, state):
        put(gives, bit)
    for gives, reads, rows in order:
        put(gives, cover_bit([pin(gives, index, it) for index, it in enumerate(reads)], rows))
    return values, "".join(pin(gives, 0, reads) for reads, gives, _ in net.latches)


def line_of(plan, values, step):
    """The line of `tsc sim` for these values."""
    columns = ["".join(values[it] for it in nets) or "." for nets in plan.columns()]
    rails = [values[it] for it in plan.rails]
    return " ".join([str(step), *columns, "alarm" if rails[0] == rails[1] else "quiet"])


# ---- steps


def is_word(word, net):
    return word == "." if not net.inputs else len(word) == len(net.inputs) and not word.strip("01")


def steps_of(path, net):
    """The step lines of the file."""
    steps = [words[0] if len(words) == 1 else " ".join(words) for _, words in logical_lines(bytes_of(path).decode(errors="replace"))]
    for number, it in enumerate(steps):
        if not is_word(it, net):
            stops(f"{path}: step {number} isn't one word of {len(net.inputs)} bits: {it[:40]}")
    return ["" if it == "." else it for it in steps]


# ---- tables


def states_of_table(path):
    """The states of a KISS2 table in the order in which they first stand in its rows, and its reset state."""
    rows, reset = [], None
    for _, words in logical_lines(bytes_of(path).decode(errors="replace")):
        if words[0] in (".e", ".end"):
            break
        if words[0] == ".r":
            reset = words[1]
        elif not words[0].startswith(".") or words[0] == ".":
            rows.append(words[-3:-1])
    if not all(len(row) == 2 for row in rows):
        stops(f"{path} is no KISS2 table")
    states = list(dict.fromkeys(it for row in rows for it, no in zip(row, ("*", "*-")) if it not in no))
    return states, reset or (rows[0][0] if rows and rows[0][0] in states else states[0] if states else None)
