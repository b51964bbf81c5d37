#!/usr/bin/env python3
"""Makes the proof file of each worked example from its folder.

    worked_examples.py            writes crates/dc_rows/proofs/NAME.antt for each folder crates/dc_rows/examples/NAME
    worked_examples.py FOLDER     writes them into FOLDER

An example has these files, of which the first four are there always:

    image.toml    the image; its first line is a comment that says what the example shows
    script        the script
    schedule      the schedule
    expected      the text that is to be written, from outside
    reasons       why each action that made no entry made none, in order, one a line; `spent` where an await polled in vain
    changed       wrong journals, one a line: how the journal is changed, and the first ticket that is bad
    touched       for each entry its ticket and the objects that it touches, by name and by number

Nothing is computed here: what a reader wrote is only written in another way. That it is so is proved when the file is checked.
"""
import re
import sys
import tomllib
from pathlib import Path

CRATE = Path(__file__).resolve().parent.parent / "crates" / "dc_rows"
WIDTH = 158

# the operations of code: the number, and what each operand is
OPERATIONS = {
    "li": (0x01, "ai"), "lih": (0x02, "ai"), "mov": (0x03, "ab"), "add": (0x04, "ab"), "sub": (0x05, "ab"), "mul": (0x06, "ab"),
    "and": (0x07, "ab"), "or": (0x08, "ab"), "xor": (0x09, "ab"), "shl": (0x0A, "ab"), "shr": (0x0B, "ab"),
    "beq": (0x0C, "abi"), "bne": (0x0D, "abi"), "bltu": (0x0E, "abi"), "jmp": (0x0F, "i"), "ld": (0x10, "abi"), "st": (0x11, "abi"),
    "rdt": (0x12, "ab"), "nop": (0x13, ""), "halt": (0x14, ""), "out": (0x20, "a"), "yield": (0x21, ""),
    "send": (0x22, "abi"), "recv": (0x23, "abi"), "csend": (0x24, "abi"), "crecv": (0x25, "abi"), "wait": (0x26, "ab"), "arm": (0x27, "abi"),
    "copy": (0x28, "abi"), "retype": (0x29, "abi"), "delete": (0x2A, "a"), "revoke": (0x2B, "a"), "bind": (0x2C, "ab"), "give": (0x2D, "ab"),
    "claim": (0x2E, "abi"), ".word": (0, "w"),
}
WEIGHTS = {"a": 2**20, "b": 2**16, "i": 1, "w": 1}

# where each name of a proof file comes from; a file is imported whole under the name that is given after `as`
SOURCES = [
    ("Rattle.std.specs.Prelude", "◌≡◌ ℕ List [] ◌∷◌ refl true false None Some"),
    ("Rattle.std.specs.Option", "option_map"),
    ("Rattle.dc_base.specs.declared.images.Image", "Image"),
    ("Rattle.dc_base.specs.declared.kernels.Version.TheVariants", "Rr Edf"),
    ("Rattle.dc_base.specs.declared.kernels.Clocks.TheVariants", "Kept Running"),
    ("Rattle.dc_base.specs.declared.actions.Actor", "Actor"),
    ("Rattle.dc_base.specs.declared.actions.Action", "Action"),
    ("Rattle.dc_base.specs.declared.calls.Op.TheVariants", "as op"),
    ("Rattle.dc_base.specs.declared.calls.End.TheVariants", "as end"),
    ("Rattle.dc_base.specs.declared.interrupts.Latched.TheVariants", "as how"),
    ("Rattle.dc_base.specs.declared.commands.ScriptLine", "ScriptLine"),
    ("Rattle.dc_base.specs.declared.entries.Entry", "Entry"),
    ("Rattle.dc_base.specs.declared.entries.Reason.TheVariants", "as why"),
    ("Rattle.dc_base.specs.declared.reports.ReportLine", "ReportLine"),
    ("Rattle.dc_base.specs.declared.dispatchers.DispState.TheVariants", "as state"),
    ("Rattle.dc_base.specs.Changes", "a_core a_block a_channel a_line a_mailbox a_console the_script"),
    ("Rattle.dc_base.specs.Runs", "run"),
    ("Rattle.dc_base.specs.CoreRuns", "core_run"),
    ("Rattle.dc_base.specs.Origins", "image_origin"),
    ("Rattle.dc_base.specs.Shown", "all_shown_by"),
    ("Rattle.dc_base.specs.Headline", "blocks_reported blocks_held"),
    ("Rattle.dc_rows.specs.Computed", "machine_of_blocks machine_with_cores whole_texts"),
    ("Rattle.dc_rows.specs.Facts", "facts_told facts_of"),
    ("Rattle.dc_rows.specs.Images", "as image_of"),
    ("Rattle.dc_rows.specs.Orders", "as order"),
    ("Rattle.dc_rows.specs.Played", "played judged first_bads"),
    ("Rattle.dc_rows.specs.Reports", "as report_line"),
    ("Rattle.dc_rows.specs.Scripts", "as script_line"),
    ("Rattle.dc_rows.specs.Tabled", "tabled"),
    ("Rattle.dc_rows.specs.Texts", "as texts"),
    ("Rattle.dc_rows.specs.Touches", "touches"),
    ("Rattle.dc_rows.specs.WrongJournals", "with_line without_line line_added lines_swapped"),
]


def listed(items, indent=0):
    """A list, its items after one another in lines of at most WIDTH characters."""
    if not items:
        return "[]"
    lines, line = [], " " * indent + items[0]
    for item in items[1:] + ["[]"]:
        if len(line) + 3 + len(item) + 2 > WIDTH:
            lines.append(line)
            line = " " * indent + "∷ " + item
        else:
            line += " ∷ " + item
    return "\n".join(lines + [line])


def one_a_line(items, indent=4):
    """A list, an item a line."""
    if not items:
        return "[]"
    return "\n" + "\n".join(" " * indent + ("∷ " if i else "") + item for i, item in enumerate(items + ["[]"]))


def block_of(items, indent=4):
    """A list that begins on a line of its own."""
    return "\n" + listed(items, indent) if items else "[]"


def option(text):
    return "None" if text == "-" else f"(Some {text})"


def number(text):
    if not re.fullmatch(r"[0-9]+", text):
        sys.exit(f"no number: {text}")
    return text


def version(text):
    return {"rr": "Rr", "edf": "Edf"}[text]


def words_of(text):
    """The words of each line that counts."""
    return [line.split() for line in text.splitlines() if line.split() and not line.startswith("#")]


# images


def assembled(text):
    """The words of a text of code, each with its instruction."""
    lines = [line.split("#")[0].split() for line in text.splitlines()]
    labels, place = {}, 0
    for words in lines:
        if len(words) == 1 and words[0].endswith(":"):
            labels[words[0][:-1]] = place
        elif words:
            place += 1
    found = []
    for words in lines:
        if words and not (len(words) == 1 and words[0].endswith(":")):
            found.append((word_of(words, labels), " ".join(words)))
    return found


def word_of(words, labels):
    code, kinds = OPERATIONS[words[0]]
    if len(kinds) != len(words) - 1:
        sys.exit(f"wrong operands: {words}")
    word = code * 2**24
    for kind, operand in zip(kinds, words[1:]):
        if kind in "ab":
            operand = operand[1:]
        if operand.startswith("@"):
            operand = str(labels[operand[1:]])
        word += int(number(operand)) * WEIGHTS[kind]
    return word


def code_term(code):
    """The words of a dispatcher's code, an instruction a line."""
    if not isinstance(code, str):
        return block_of([str(word) for word in code], 18)
    lines = []
    for i, (word, shown) in enumerate(assembled(code)):
        lines.append(" " * 18 + ("∷ " if i else "") + f"{word}  -- {shown}")
    return "\n" + "\n".join(lines) + "\n" + " " * 18 + "∷ []"


def cap_term(cap):
    kind = cap["kind"]
    if kind in ("ram", "frame"):
        named = f"(image_of.{kind} {cap['first']} {cap['length']})"
    else:
        named = f"(image_of.{kind} {cap['number']})"
    return f"image_of.cap {cap['slot']} {named} {cap.get('rights', 7)}"


def spaced(term):
    return term if term.startswith("\n") else " " + term


def record(fields, indent):
    """A record, a field a line; its last line stands at the indent."""
    lines = [" " * (indent + 2) + f"{name} ={spaced(term)};" for name, term in fields]
    return "record {\n" + "\n".join(lines) + "\n" + " " * indent + "}"


def records(terms, indent):
    """A list of records."""
    return "\n" + " " * indent + ("\n" + " " * indent + "∷ ").join(terms + ["[]"])


def disp_term(disp):
    caps = block_of([cap_term(cap) for cap in disp.get("cap", [])], 18)
    fields = [("code", code_term(disp["code"])), ("period", str(disp.get("period", 1))), ("due", str(disp.get("due", 0))), ("caps", caps)]
    return record(fields, 12)


def block_term(block):
    return record([
        ("home", f"image_of.home {block['home']}" if "home" in block else "None"),
        ("memory", block_of([str(word) for word in block.get("data", [])], 12)),
        ("ports", str(block.get("ports", 0))),
        ("signals", str(block.get("signals", 0))),
        ("disps", records([disp_term(disp) for disp in block["disp"]], 12)),
    ], 6)


def core_term(core):
    base = core.get("base", 0)
    return f"image_of.core {base} {version(core['version'])}" if "version" in core else f"image_of.core_off {base}"


def image_term(image):
    channels = [f"image_of.channel {c['from']} {c['to']} {c['capacity']}" for c in image.get("channel", [])]
    return record([
        ("format", str(image["format"])),
        ("clocks", {"kept": "Kept", "running": "Running"}[image.get("clocks", "kept")]),
        ("quantum", str(image["quantum"])),
        ("slices", str(image["slices"])),
        ("lines", str(image.get("lines", 0))),
        ("cores", block_of([core_term(core) for core in image["core"]], 6)),
        ("blocks", records([block_term(block) for block in image["block"]], 6)),
        ("channels", block_of(channels, 6)),
    ], 0)


# scripts and schedules


def script_term(words):
    name, fields = words[0], words[1:]
    fields = [version(f) if f in ("rr", "edf") else number(f) for f in fields]
    return " ".join([f"script_line.{name}"] + fields)


def action_term(words):
    if words in (["script"], ["raise"]):
        return f"texts.{words[0]}"
    return " ".join([f"texts.{words[2]}", number(words[1])] + [number(w) for w in words[3:]])


# journals


def end_term(words):
    if words[0] in ("quantum", "halt"):
        return f"end.{words[0].capitalize()}"
    if words[0] == "trap":
        return f"(end.Trap {number(words[1])})"
    return f"(end.{words[0].capitalize()} op.{words[1].capitalize()})"


def order_term(words):
    if words[0] == "adopt":
        return f"(order.adopt {number(words[1])} {parked(words[2])})"
    if words[0] in ("start", "replace"):
        return f"(order.{words[0]} {version(words[1])})"
    return f"(order.release {number(words[1])})" if words[0] == "release" else "order.stop"


def parked(word):
    return {"home": "false", "parked": "true"}[word]


def core_entry(c, words):
    verb = words[0]
    if verb == "slice" and words[2] == "-":
        return f"texts.slice_none {c} {words[1]} {words[4]} {words[-1]}"
    if verb == "slice":
        return f"texts.slice {c} {words[1]} {words[2]} {words[4]} {words[6]} {end_term(words[7:])} {words[-1]}"
    if verb == "idle":
        return f"texts.idle {c} {words[-1]}"
    if verb == "wake":
        return f"texts.woken {c} {words[1]} {words[2]}"
    if verb == "intake":
        return f"texts.taken_in {c} {words[1]} {words[2]} {words[3]} {words[4]} how.{words[5].capitalize()}"
    if verb == "start":
        return f"texts.start {c} {version(words[1])} {words[-1]}"
    if verb == "replace":
        return f"texts.replace {c} {version(words[1])}"
    if verb == "adopt":
        return f"texts.adopt {c} {words[1]} {parked(words[2])} {words[-1]}"
    return {"stop": f"texts.stop {c} {words[1]}", "release": f"texts.release {c} {words[1]} {words[-1]}"}[verb]


def script_entry(words):
    q, verb, fields = words[0], words[1], words[2:]
    if verb == "post":
        return f"texts.post {q} {fields[0]} {order_term(fields[1:])}"
    if verb == "refused":
        return f"texts.refused {q} (order.{refusal_name(fields[1])} {' '.join(version(f) if f in ('rr', 'edf') else f for f in fields[2:])})"
    if verb == "raise":
        return f"texts.raised {q} {fields[0]} (order.{fields[2]} {fields[1]})"
    names = {"done": "done", "route": "routed", "met": "met", "unmet": "unmet"}
    return " ".join([f"texts.{names[verb]}", q] + fields)


def refusal_name(name):
    return re.sub(r"(?<!^)([A-Z])", r"_\1", name).lower()


def entry_term(line):
    """The entry of a line of a journal, without its ticket."""
    words = line.split()
    return core_entry(words[1], words[2:]) if words[0] == "core" else script_entry(words[1:])


# reports


def numbers_term(text):
    return "[]" if text == "-" else "(" + listed(text.split(",")) + ")"


def state_term(words):
    if words[0] in ("ready", "halted"):
        return f"state.{words[0].capitalize()}"
    if words[0] == "trap":
        return f"(state.Trapped {words[1]})"
    return f"(report_line.waits_{words[1]} {words[2]})"


def report_term(text):
    """A line of a report."""
    words = text.split()
    kind, fields = words[0], words[1:]
    if kind == "core" and fields[1] == "on":
        return f"report_line.core_on {fields[0]} {version(fields[2])} {fields[4]} {option(fields[6])} {numbers_term(fields[8])} {fields[10]}"
    if kind == "core":
        return f"report_line.core_off {fields[0]} {fields[3]} {fields[5]}"
    if kind == "block":
        core = "None" if fields[1] == "rest" else f"(Some {fields[2]})"
        return f"report_line.block {fields[0]} {core} {fields[-3]} {fields[-1]}"
    if kind == "disp":
        return f"report_line.disp {fields[0]} {fields[1]} {state_term(fields[2:])} {fields[-3]} {fields[-1]}"
    if kind == "ready":
        return f"report_line.ready {fields[0]} {numbers_term(fields[1])}"
    if kind == "cap":
        named = " ".join([f"image_of.{fields[2]}"] + fields[3:-4])
        return f"report_line.cap {fields[0]} {fields[1]} ({named}) {fields[-3]} {option(fields[-1])}"
    if kind == "signal":
        source = "report_line.from_timer" if fields[2] == "timer" else f"(report_line.from_line {fields[3]})"
        return f"report_line.signal {fields[0]} {fields[1]} {source} {fields[-1]}"
    if kind == "line":
        bound = "None" if fields[2] == "-" else f"(Some ({fields[2]}, {fields[3]}))"
        return " ".join(["report_line.wire", fields[0], bound, option(fields[5])] + fields[7::2])
    if kind in ("port", "message"):
        return " ".join([f"report_line.{kind}"] + fields)
    return " ".join([f"report_line.{kind}"] + [f for f in fields if f.isdigit()])


# what else an example says


def reason_term(line):
    words = line.split()
    if words == ["spent"]:
        return "None"
    fields = [option(f"(record {{ 0 = {f} }})" if f != "-" else f) if words[0] == "NotRouted" else f for f in words[1:]]
    if words[0] in ("NotHere", "NoAck"):
        fields = [f"(record {{ 0 = {f} }})" for f in fields]
    reason = " ".join([f"why.{words[0]}"] + fields)
    return f"Some ({reason})" if fields else f"Some {reason}"


def changed_term(line):
    """A wrong journal, and the first ticket that is bad."""
    how, bad = line.rsplit(": ", 1)
    wrong = re.fullmatch(r"bad at ([0-9]+)", bad)
    first = "None" if bad == "a run" else f"Some {wrong[1]}"
    for pattern, term in CHANGES:
        found = re.fullmatch(pattern, how)
        if found:
            return term(*found.groups()), first
    sys.exit(f"no change: {line}")


CHANGES = [
    (r"([0-9]+) (.*)", lambda n, said: f"with_line {n} ({entry_term(said)}) journal"),
    (r"without ([0-9]+)", lambda n: f"without_line {n} journal"),
    (r"added ([0-9]+) (.*)", lambda n, said: f"line_added {n} ({entry_term(said)}) journal"),
    (r"swapped ([0-9]+) [0-9]+", lambda n: f"lines_swapped {n} journal"),
]
NAMES = {"core": "a_core", "block": "a_block", "channel": "a_channel", "line": "a_line", "mailbox": "a_mailbox", "console": "a_console", "script": "the_script"}


def touched_term(line):
    """The objects that an entry touches: `0 core 0 = 0, block 0 = 2`."""
    names, numbers = [], []
    for part in line.split(" ", 1)[1].split(", "):
        name, at = part.split(" = ")
        words = name.split()
        names.append(" ".join([NAMES[words[0]]] + words[1:]))
        numbers.append(at)
    return f"({' ∷ '.join(names + ['[]'])}, {' ∷ '.join(numbers + ['[]'])})"


# proof files


class Example:
    def __init__(self, folder):
        self.folder = folder
        text = self.read("image.toml")
        self.title = text.splitlines()[0].removeprefix("# ")
        self.image = tomllib.loads(text)
        lines = self.read("expected").splitlines()
        at = lines.index("report")
        self.lines, self.journal, self.report = lines, lines[:at], lines[at + 1:-2]
        self.skipped = lines[-2].split()[1]

    def read(self, name):
        path = self.folder / name
        return path.read_text() if path.exists() else ""

    def body(self):
        parts = [
            f"abbrev image : Image\nimage = {image_term(self.image)}",
            defined("script", "List ScriptLine", [script_term(w) for w in words_of(self.read("script"))]),
            defined("schedule", "List (Actor × Action)", [action_term(w) for w in words_of(self.read("schedule"))]),
            defined("journal", "List Entry", [entry_term(line.split(" ", 1)[1]) for line in self.journal], one_a_line),
            defined("report", "List ReportLine", [report_term(line) for line in self.report], one_a_line),
            "abbrev text : List ℕ\ntext = texts.lines (" + one_a_line([f'"{line}"' for line in self.lines]) + ")",
            self.law_played(), *LAWS]
        return "\n\n".join(parts + self.law_changed() + self.law_touched()) + "\n"

    def law_played(self):
        reasons = block_of([reason_term(line) for line in self.read("reasons").splitlines()], 6)
        return "is_played : played image script schedule ≡ record {\n  journal = journal;\n" + \
            f"  skipped = {self.skipped};\n  reasons ={spaced(reasons)};\n  report = report;\n  text = text;\n  again = journal;\n}}\n" + \
            "unfolding machine_with_cores whole_texts\nis_played = refl"

    def law_changed(self):
        changes = [changed_term(line) for line in self.read("changed").splitlines()]
        if not changes:
            return []
        return ["-- journals that are changed, and the first bad entry of each\nare_changed : first_bads image script (" + one_a_line([c[0] for c in changes])
                + f")\n    ≡ {listed([c[1] for c in changes])}\nunfolding machine_of_blocks\nare_changed = refl"]

    def law_touched(self):
        touched = [touched_term(line) for line in self.read("touched").splitlines()]
        if not touched:
            return []
        return ["-- the objects that each entry touches, by name and by number\nis_touched : touches image script schedule ≡" + one_a_line(touched)
                + "\nunfolding machine_with_cores\nis_touched = refl"]

    def proof(self):
        body = self.body()
        head = f"-- {self.title}\n-- Made by tools/worked_examples.py from examples/{self.folder.name}.\n"
        return head + "".join(imports(body)) + "\n" + body


def defined(name, kind, items, layout=block_of):
    return f"abbrev {name} : {kind}\n{name} ={spaced(layout(items))}"


LAWS = [
    "is_judged : judged image script journal ≡ record { is_run = true; shown = Some (all_shown_by report) }\nunfolding machine_of_blocks\nis_judged = refl",
    "-- each entry touches what the table says\nis_tabled : tabled image script schedule ≡ true\nunfolding machine_with_cores\nis_tabled = refl",
    "-- each block is reported once, on the core that holds it or at rest\nis_none_lost : blocks_reported report ≡ blocks_held (image_origin image script) journal\n"
    "unfolding machine_of_blocks\nis_none_lost = refl",
    "-- the journal has told what the state shows\nis_told : option_map facts_told (run image script journal)\n"
    "    ≡ option_map (facts_of (core_run image script schedule).state) (run image script journal)\n"
    "unfolding machine_with_cores machine_of_blocks\nis_told = refl",
]


def imports(body):
    """The imports of what the text names."""
    body = re.sub(r"^-- .*$", "", body, flags=re.M)
    for source, names in SOURCES:
        if names.startswith("as "):
            if re.search(rf"\b{names[3:]}\.", body):
                yield f"use {source} {names}\n"
        else:
            used = [name for name in names.split() if name in ("◌≡◌", "[]", "◌∷◌") or re.search(rf"(?<![\w.]){name}(?!\w)", body)]
            if used:
                yield f"use {source}.{{{', '.join(used)}}}\n"


def main():
    target = Path(sys.argv[1]) if len(sys.argv) > 1 else CRATE / "proofs"
    for folder in sorted(path for path in (CRATE / "examples").iterdir() if path.is_dir()):
        proof = Example(folder).proof()
        for line in proof.splitlines():
            if len(line) > WIDTH:
                sys.exit(f"{folder.name}: a line has more than {WIDTH} characters: {line}")
        (target / f"{folder.name}.antt").write_text(proof)


if __name__ == "__main__":
    main()
