"""The lines of a text as the program reads them, and what explain and check both say of a text. Python's standard library alone."""
import os
import re

TOP = os.path.join(os.path.dirname(os.path.abspath(__file__)), "..")
CODES = ("parity", "berger", "mofn")
BLIF_WORDS = (".model", ".inputs", ".outputs", ".names", ".latch", ".end")
KISS_WORDS = (".i", ".o", ".p", ".s", ".r", ".ilb", ".ob", ".e", ".end")
# what is read of a PLA, and what tells that a text is one
PLA_READ = (".i", ".o", ".p", ".type", ".ilb", ".ob", ".e", ".end")
PLA_WORDS = (".type", ".phase", ".pair", ".mv", ".kiss", ".symbolic", ".label", ".lb", ".olb", ".symbolic-output")


class Line:
    """A logical line: the number of its first physical line, its words, how many physical lines it has, whether it is a plan line."""

    def __init__(self, number, words, count=1, is_plan=False):
        self.number, self.words, self.count, self.is_plan = number, words, count, is_plan

    @property
    def first(self):
        return "" if self.is_plan else self.words[0]


def physical_lines(text):
    """The lines between line feeds, without the carriage return that ends one."""
    lines = text.split(b"\n")
    return [(it[:-1] if it.endswith(b"\r") else it).decode("latin-1") for it in (lines[:-1] if not lines[-1] else lines)]


def words_of(line):
    """The words between blanks, which are spaces, tabs and carriage returns."""
    return re.findall(r"[^ \t\r]+", line)


def logical_lines(text):
    """The lines with a word: comments are cut off, and a line that ends with a backslash goes on in the next."""
    lines, found, at = physical_lines(text), [], 0
    while at < len(lines):
        first = at
        if lines[at].startswith("#tsc "):
            found.append(Line(at + 1, words_of(lines[at][5:]), 1, True))
            at += 1
            continue
        whole = lines[at].split("#", 1)[0]
        while whole.endswith("\\") and at + 1 < len(lines):
            at += 1
            whole = whole[:-1] + " " + lines[at].split("#", 1)[0]
        if whole.endswith("\\"):
            whole = whole[:-1] + " "
        at += 1
        if words := words_of(whole):
            found.append(Line(first + 1, words, at - first))
    return found


def sections(lines):
    """The lines before the first end line, the number of that line (none where there is none), and the lines behind it."""
    for at, line in enumerate(lines):
        if line.first in (".end", ".e"):
            return lines[:at], line.number, lines[at + 1 :]
    return lines, None, []


def shown(text, most=120):
    """A text with its control characters and bytes above ASCII written out, cut where it is long."""
    text = "".join(c if " " <= c <= "~" else {"\t": "\\t", "\r": "\\r", "\n": "\\n"}.get(c, f"\\x{ord(c):02x}") for c in text)
    return text if len(text) <= most else f"{text[:most]} .. ({len(text)} characters)"


def lines_of(numbers):
    """The numbers of lines in a sentence."""
    numbers = sorted(set(numbers))
    return f"{'line' if len(numbers) == 1 else 'lines'} {listed(numbers, 'and')}"


def listed(words, last="or", most=8):
    """Some words as a list in a sentence."""
    words = [shown(str(it)) for it in words]
    if len(words) > most:
        return f"{', '.join(words[:most])} .. ({len(words)})"
    return f" {last} ".join([", ".join(words[:-1]), words[-1]] if len(words) > 1 else words)


def counted(number, what):
    """A number of things."""
    return f"{number} {what}{'' if number == 1 else 'es' if what.endswith('ch') else 's'}"


def distance(one, other):
    """How many letters have to be put in, taken out, changed or swapped, another case counting a quarter."""
    before, last = [], list(range(len(other) + 1))
    for i, a in enumerate(one, 1):
        row = [i]
        for j, b in enumerate(other, 1):
            least = min(last[j] + 1, row[-1] + 1, last[j - 1] + (0 if a == b else 0.25 if a.lower() == b.lower() else 1))
            if i > 1 and j > 1 and a == other[j - 2] and one[i - 2] == b:
                least = min(least, before[j - 2] + 1)
            row.append(least)
        before, last = last, row
    return last[-1]


def nearest(word, words):
    """The word of a list that is most like another, where one is like it: names that differ in their numbers alone aren't."""
    most = max(1, len(word) // 3) if len(word) > 2 else 0.5
    letters = lambda it: re.sub(r"[0-9]", "", it)
    near = [it for it in words if it != word and abs(len(it) - len(word)) <= most]
    near = [it for it in near if letters(it) != letters(word) or letters(it) == ""][:5000]
    least = min(near, key=lambda it: distance(word, it), default=None)
    return least if least is not None and distance(word, least) <= most else None


# ---- what a text is


# The first bytes of files that aren't text.
BINARIES = (
    (b"\x1f\x8b", "a file compressed by gzip (gunzip it)"),
    (b"BZh", "a file compressed by bzip2 (bunzip2 it)"),
    (b"\xfd7zXZ", "a file compressed by xz (unxz it)"),
    (b"\x28\xb5\x2f\xfd", "a file compressed by zstd (unzstd it)"),
    (b"PK\x03\x04", "a zip archive (unzip it)"),
    (b"\x7fELF", "a program, no text"),
    (b"%PDF", "a PDF file"),
    (b"aig ", "a binary AIGER file (ABC: read_aiger FILE; write_blif FILE)"),
    (b"\xff\xfe", "UTF-16 (iconv -f UTF-16 -t ASCII//TRANSLIT)"),
    (b"\xfe\xff", "UTF-16 (iconv -f UTF-16 -t ASCII//TRANSLIT)"),
    (b"\xef\xbb\xbf", "UTF-8 with a byte order mark before the first letter (sed -i '1s/^\\xef\\xbb\\xbf//' FILE)"),
)
# Commands of Yosys and ABC that bench/mistakes runs: modules to one network, a machine to KISS2, and the logic of a module without its
# registers, for which Yosys' and then ABC's commands stand; what is to be known of that logic.
FLATTEN = "synth -flatten -top TOP; abc -g AND,OR,XOR; opt_clean -purge; write_blif FILE"
MACHINE = "proc; opt -nodffe -nosdff; fsm -nomap; fsm_export -o FILE"
LOGIC = "async2sync; dfflegalize -cell $_DFF_P_ 01; abc -g AND,OR,XOR; opt_clean -purge; write_blif FILE"
COMB = "read_blif FILE; comb; write_blif FILE"
UNPROTECTED = "what a register holds is not protected then: a register that fails gives wrong outputs without an alarm"
# What other languages begin with.
LANGUAGES = (
    (
        r"(`timescale|`default_nettype|`include|`define|module|macromodule|package|interface|typedef)\b|\(\*",
        f"Verilog, which goes through Yosys first (read_verilog FILE; {FLATTEN}; docs/GUIDE.md)",
    ),
    (
        r"(?i)(library\s+\w+\s*;|use\s+\w+\.|entity\s+\w+\s+is\b)",
        "VHDL, which goes through a synthesis first (GHDL with Yosys, and then as Verilog: docs/GUIDE.md)",
    ),
    (r"\(\s*edif\b", "EDIF; Yosys or ABC write BLIF"),
    (r"(INPUT|OUTPUT)\s*\(", "a .bench netlist of ISCAS (ABC: read_bench FILE; write_blif FILE)"),
    (r"aag\s+\d", "an ASCII AIGER file (aigtoaig FILE FILE.aig, then ABC: read_aiger FILE.aig; write_blif FILE)"),
    (r"library\s*\(", "a Liberty library of cells"),
    (r"p\s+cnf\s", "a DIMACS CNF formula"),
    (r"\{", "JSON, as Yosys' write_json writes it (Yosys: write_blif in its place)"),
    (r"<(!DOCTYPE|html|\?xml)", "a page of the web or XML: look at what was downloaded"),
    (r"(INORDER|OUTORDER)\s*=", "equations (ABC: read_eqn FILE; write_blif FILE)"),
    (r"diff --git|@@ -\d", "a patch"),
    (r"#!|import\s+\w+", "a script"),
    (r"digraph\b|strict\s+digraph\b|graph\b", "a drawing of Graphviz"),
    (r"ERROR\b|Error\b|error:|Warning|yosys>|abc \d+>|\[Info\]", "what a tool said, and no network: look at the command before the pipe"),
)


def without_comments(text):
    """A text of Verilog, VHDL or BLIF without the comments and blank lines before its first word."""
    while True:
        rest = re.sub(r"\A(\s+|//[^\n]*|--[^\n]*|/\*.*?\*/|#(?!!)[^\n]*)", "", text, count=1, flags=re.S)
        if rest == text:
            return text
        text = rest


def language(text):
    """What a text is that is neither BLIF nor a table, where that can be told."""
    for start, what in BINARIES:
        if text.startswith(start):
            return what
    if text[:200].count(b"\0") > 20:
        return "UTF-16 without a mark, or no text (iconv -f UTF-16LE -t ASCII//TRANSLIT)"
    if text.startswith(b"#!"):
        return "a script"
    head = without_comments(text[:100_000].decode("latin-1"))
    return next((what for form, what in LANGUAGES if re.match(form, head)), None)


def has_other_ends(text):
    """Whether lines end with a carriage return alone: a word stands behind one, and no line feed anywhere but at the end."""
    return b"\n" not in text.rstrip(b"\r\n") and re.search(rb"\r[^\r\n]*[^\s]", text) is not None


def kind(lines):
    """blif, kiss or pla, by the first directives, and of a table by its first row; none where no directive tells."""
    has_counts = False
    for line in lines:
        if line.is_plan or line.first in (".end", ".e"):
            continue
        if line.first in PLA_WORDS:
            return "pla"
        if line.first in (".s", ".r", ".start_kiss"):
            return "kiss"
        if line.first in (".i", ".o", ".ilb", ".ob", ".p"):
            has_counts = True
        elif line.first.startswith("."):
            return "blif"
        elif has_counts:
            return "pla" if len(line.words) < 3 or re.fullmatch(r"[01\-~24|]+", "".join(line.words)) and len(line.words) < 4 else "kiss"
        else:
            return None
    return "kiss" if has_counts else None
