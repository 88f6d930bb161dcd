"""How a run of a command may end whose files are there and whose outputs can be written: its
status, and the form of the line of a fault (docs/USAGE.md, docs/FAULTS.md, docs/TRACE.md)."""
import re

STATUSES = {"check": (0, 1), "emit": (0, 1), "sim": (0, 1, 6), "vsim": (0, 6, 7)}
LETTERS = {1: "E", 6: "X", 7: "V"}
NAME, LEAF, PLACE, TYPE = r"[\w$]+", r"[\w$.\[\]]+", r"\d+:\d+", r"[^;]+"
CHOICE = rf"when@{PLACE}=[01]|index@{PLACE}=(?:miss|hit)"
# the evidence of each fault
EVIDENCE = {
    "E01": r"byte [0-9a-f]{2}",
    "E02": r"indent \d+|tab",
    "E03": r"literal",
    "E04": r"syntax",
    "E05": rf"unsupported {NAME}",
    "E06": r"depth 257",
    "E07": r"version \d+",
    "E08": rf"unknown {NAME}",
    "E09": rf"twice {NAME} {PLACE}",
    "E10": rf"no module {NAME}",
    "E11": rf"recursive {NAME}(?: > {NAME})+",
    "E12": rf"kinds {TYPE}(?:; {TYPE})?|field {NAME}",
    "E13": rf"types {TYPE}; {TYPE}",
    "E14": rf"flow {LEAF}",
    "E15": rf"not passive {TYPE}",
    "E16": r"index \d+ of \d+",
    "E17": rf"memory {NAME} (?:data-type|depth|read-latency|write-latency|read-under-write)",
    "E18": rf"resets (?:{LEAF}|{PLACE})(?: - (?:{LEAF}|{PLACE}))+",
    "E19": rf"width over 128 {LEAF}",
    "E20": rf"port width {LEAF}",
    "E21": r"legality (?:bits \d+ \d+ \d+|(?:head|tail) \d+ \d+|asAsyncReset \d+"
           r"|literal \d+ -?\d+)",
    "E22": r"condition width \d+",
    "E23": r"cost \d+",
    "E24": rf"undriven {LEAF}(?: (?:{CHOICE}))*",
    "E25": rf"clock {LEAF} {PLACE} {PLACE}",
    "E26": rf"memory clocks {LEAF} {LEAF} {LEAF}",
    "E27": rf"async init {LEAF}(?: <- {LEAF})*",
    "E28": rf"loop {LEAF}(?: <- {LEAF})+",
    "V01": r"byte [0-9a-f]{2}",
    "V02": r"syntax",
    "V03": rf"undeclared {NAME}",
    "V04": r"width \d+ \d+|kind",
    "V05": rf"twice {NAME} {PLACE}",
    "V06": rf"loop {NAME}(?: <- {NAME})+",
    "V07": r"depth 257",
    "V08": rf"undriven {NAME}",
    "V09": r"tick \d+",
    "X01": r"word \d+",
    "X02": r"words \d+ of \d+",
    "X03": r"word \d+ width \d+",
    "X04": rf"name {NAME}",
    "X05": r"",
}
# what is written with status 0
WRITTEN = {"check": r"ok leaves \d+ registers \d+ memories \d+\n",
           "emit": r"module [\w$]+\((?s:.*)\);\n(?s:.*)endmodule\n"}
LINES = r"(?:[0-9a-f |;]*\n)*"


def is_within(content, line, column):
    """Whether a text has that place, or ends before it."""
    lines = content.split(b"\n")
    return 1 <= line <= len(lines) and 1 <= column <= len(lines[line - 1]) + 1


def wrong_line(files, status, err):
    """What is wrong with the line of a fault."""
    found = re.fullmatch(r"([EVX]\d\d) (\d+)(?::(\d+))?(?: (.*))?\n", err)
    if not found or found[1][0] != LETTERS[status] or (found[1][0] == "X") != (found[3] is None):
        return f"it says {err[:200]!r}"
    code, line, column, evidence = found.groups()
    if code not in EVIDENCE or not re.fullmatch(EVIDENCE[code], evidence or ""):
        return f"it says {err[:200]!r}, which is no line of {code}"
    content = files.trace if code[0] == "X" else files.text
    if not is_within(content, int(line), int(column or 1)):
        return f"it says {err[:200]!r}, a place that is not there"
    return ""


def wrong(files, ended, statuses):
    """What is wrong with how a run ended; empty where nothing is."""
    if ended.status not in statuses:
        return f"its status is {ended.status}"
    out, err = ended.out.decode("latin-1"), ended.err.decode("latin-1")
    told = wrong_line(files, ended.status, err) if ended.status else err and f"it says {err!r}"
    if told:
        return told
    if ended.status == 0 and files.command in WRITTEN:
        return "" if re.fullmatch(WRITTEN[files.command], out) else f"it writes {out[:200]!r}"
    is_of_text = ended.status == 1 or ended.status == 7 and not err.startswith("V09")
    if is_of_text and out:
        return f"it writes {out[:200]!r} and has a fault"
    if not re.fullmatch(LINES, out) or out.count("\n") > files.trace.count(b"\n") + 1:
        return f"it writes {out[:200]!r}"
    return ""
