"""What files that cannot read the code spell of its enums, and whether a variant is missing there: see tools/lint.

A row of `PLACES` is a list somewhere, as a table of a document or a tuple of a script: the file, how the list is found, the
enum, how each variant is spelled in it, and the variants that do not belong there.
"""

import collections.abc
import pathlib
import re
import typing

# The file that has each enum, and the one in which its numbers, names and words stand, where that is another.
ORDERS, CODES = "crates/dali_script/src/orders.rt", "crates/dali_c/src/codes.rt"
SAID = "crates/dali_commission_said/src/said.rt"
ENUMS = {
    "AddError": ("crates/dali_script/src/records.rt",),
    "Answer": ("crates/dali_frame/src/frames.rt", CODES),
    "BenchLine": ("crates/dali_grammar/src/bench_line.rt",),
    "ConsoleFault": ("crates/dali_console/src/fault.rt",),
    "DriverFault": ("crates/dali_commissioning/src/driver.rt",),
    "Due": (ORDERS, CODES),
    "End": (ORDERS,),
    "Event": ("crates/dali_events/src/event.rt",),
    "Failure": ("crates/dali_commission_said/src/failure.rt",),
    "Fault": (ORDERS,),
    "Frame": ("crates/dali_wire/src/receiver.rt", "crates/dali_c/src/receivers.rt"),
    "Half": ("crates/dali_script/src/sending.rt", CODES),
    "InitialisationState": ("crates/dali_gear/src/state.rt",),
    "Input": (ORDERS, CODES),
    "Kind": ("crates/dali_audit/src/findings.rt",),
    "KeepError": ("crates/dali_reserve/src/error.rt",),
    "MendRefusal": ("crates/dali_commission_said/src/failure.rt",),
    "Order": (ORDERS,),
    "Outside": ("crates/dali_events/src/event.rt",),
    "Outcome": ("crates/dali_line/src/outcome.rt", "crates/dali_threads/src/report.rt"),
    "Place": ("crates/dali_commissioning/src/verdict.rt", SAID),
    "PlanError": ("crates/dali_events/src/plan.rt",),
    "Record": ("crates/dali_script/src/records.rt",),
    "Refusal": ("crates/dali_standing/src/refusal.rt",),
    "ReplaceRefusal": ("crates/dali_replacement/src/refusal.rt",),
    "ReplayFault": ("crates/dali_grammar/src/fault.rt",),
    "Report": ("crates/dali_standing/src/report.rt",),
    "Said": (SAID,),
    "SiteLine": ("crates/dali_grammar/src/site_line.rt",),
    "StoreFault": ("crates/dali_commission_said/src/failure.rt",),
    "ThreadsFault": ("crates/dali_threads/src/setup.rt",),
    "Trouble": ("crates/dali_events/src/trouble.rt",),
}


class Place(typing.NamedTuple):
    """A list. Its form names how a variant is spelled: {Name}, {UPPER}, {kebab} and {words} by its name in the code, {code},
    {name} and {word} by the number, the name and the word that functions of the code have for it. Where a name has a place
    for something, as '{0}', a word in capitals, a number or a place of another name stands there."""

    file: str
    find: str
    enum: str
    form: str
    without: str = ""


# How a list is found. It is the first one in its file.


def section(heading: str) -> str:
    """The part of a document under a heading."""
    return rf"^#+ {re.escape(heading)}$.*?(?=^#|\Z)"


def table(head: str) -> str:
    """The table of a document with this first row, or with the first cells of it."""
    return rf"^{re.escape(head)}.*?(?=^[^|]|^$|\Z)"


def line(begin: str) -> str:
    """The line that begins so."""
    return rf"^{re.escape(begin)}.*?$"


def block(begin: str, end: str) -> str:
    """From one text to the next."""
    return rf"{re.escape(begin)}.*?{re.escape(end)}"


WHOLE = r".*"
HEADER, MAIN, STATUSES = "include/dali_c.h", "examples/c/main.c", "examples/c/statuses.c"
FORMAT, INSTALLER, VENDOR, ADAPTERS = "docs/FORMAT.md", "docs/INSTALLER.md", "docs/VENDOR.md", "docs/ADAPTERS.md"
REPLAY, THREADS, FORMS = "tools/lib/replay_report.py", "tools/lib/threads_report.py", "tools/lib/script_forms.py"
SITE, LIBRARY = "tools/lib/commission_site.py", "tools/check/c-library"
SCHEMA, VIEWER = "docs/story.schema.json", "yolgibat/viewer.html"
TEXTS = "yolgibat/texts.json"
LINES, MISTAKES = "crates/dali_grammar/src/reason/forms.rt", "crates/dali_grammar/src/reason/mistake.rt"
# The inputs that do not tell what became of a frame; how it was heard is an answer.
NOT_OF_FRAMES = "Start Survey Heard Committed CommitFailed"
# The refusals of a replacement whose text says what to do.
SAYS_WHAT_TO_DO = "SameFile NotMissing OtherNew SeveralNew UnclearNew"
PLACES = (
    # The header for C, and its example.
    Place(HEADER, block("enum dali_input {", "}"), "Input", "DALI_{UPPER} = {code}", "Heard"),
    Place(HEADER, block("enum dali_input {", "}"), "Answer", "DALI_HEARD_{UPPER} = {code}"),
    Place(HEADER, block("enum dali_order_kind {", "}"), "Order", "DALI_{UPPER} ="),
    Place(HEADER, block("enum dali_half {", "}"), "Half", "DALI_{UPPER}_HALF = {code}", "Whole"),
    Place(HEADER, block("enum dali_frame_kind {", "}"), "Frame", "DALI_{UPPER}_FRAME = {code}", "Device"),
    Place(HEADER, block("enum dali_end {", "}"), "End", "DALI_{UPPER} = {code}"),
    Place(HEADER, block("enum dali_fault {", "}"), "Fault", "DALI_{UPPER} = {code}"),
    Place(HEADER, block("enum dali_due {", "}"), "Due", "DALI_DUE_{UPPER} = {code}"),
    Place(HEADER, block("enum dali_record_kind {", "}"), "Record", "DALI_{UPPER} = {code}"),
    Place(HEADER, block("enum dali_status {", "}"), "AddError", "DALI_{UPPER} ="),
    Place(MAIN, block("enum exit_status {", "}"), "End", "EXIT_{UPPER} ="),
    Place(MAIN, block("Exit status:", ";"), "End", "{words},"),
    Place(MAIN, block("static int end_status(", "\n}"), "End", "case DALI_{UPPER}:"),
    Place(MAIN, block("static int end_status(", "\n}"), "End", 'printf("{name}\\n")'),
    Place(MAIN, block("static int fault_status(", "\n}"), "Fault", "case DALI_{UPPER}:"),
    Place(MAIN, block("static int fault_status(", "\n}"), "Fault", 'printf("halt {name}\\n")'),
    Place("examples/c/controller.c", block("enum run controller_run(", "\n}"), "Order", "case DALI_{UPPER}:"),
    Place("examples/firmware/node.c", block("void node_told(", "\n}"), "Order", "order.kind == DALI_{UPPER}", "Halt"),
    Place("examples/c/measure.c", block("static int course_follow(", "\n}"), "Order", "case DALI_{UPPER}:"),
    Place(STATUSES, block("static int is_end(", "\n}"), "End", "case DALI_{UPPER}:"),
    Place(STATUSES, block("static int is_fault(", "\n}"), "Fault", "case DALI_{UPPER}:"),
    Place(STATUSES, block("static int is_record_kind(", "\n}"), "Record", "case DALI_{UPPER}:"),
    Place(STATUSES, block("static int is_order(", "\n}"), "Order", "case DALI_{UPPER}:"),
    Place(STATUSES, block("static uint8_t due_after(", "\n}"), "Order", "case DALI_{UPPER}:"),
    Place(STATUSES, block("static uint8_t due_after(", "\n}"), "Due", "return DALI_DUE_{UPPER};"),
    Place(STATUSES, block("static uint8_t due_for(", "\n}"), "Input", "case DALI_{UPPER}:", "Heard"),
    Place(STATUSES, block("static uint8_t due_for(", "\n}"), "Answer", "case DALI_HEARD_{UPPER}:"),
    Place(STATUSES, block("static void try_records(", "\n}"), "Record", "case DALI_{UPPER}:"),
    Place(STATUSES, block("static void collect(", "\n}"), "Order", "case DALI_{UPPER}:"),
    # The scripts of `replay`.
    Place(FORMAT, section("The first lines"), "PlanError", "- {code} {name}:", "NoMemory"),
    Place(FORMAT, line("`ANSWER` is"), "Answer", "`{kebab}"),
    Place(FORMAT, table("| Line | Does | Reports | Refusals"), "Trouble", "| `pump {word}", "None"),
    Place(FORMAT, section("Orders"), "Order", "`c: {kebab}"),
    Place(FORMAT, section("Orders"), "Record", "`c: commit {name}"),
    Place(FORMAT, section("Orders"), "End", "`c: done {name}`"),
    Place(FORMAT, section("Orders"), "Fault", "`c: halt {name}`"),
    Place(FORMAT, section("Reports of the bus"), "Report", "{kebab}", "Collided"),
    Place(FORMAT, line("Of the rounds only"), "Order", "`{kebab}`", "Put"),
    Place(FORMAT, section("What `show` prints"), "InitialisationState", "`{kebab}`"),
    Place("yolgibat/help/dali_sim-audit.txt", block("Findings,", "\n\n"), "Kind", "{name}"),
    Place(FORMAT, section("Refusals"), "Refusal", "`refused {code} {name}`", "NoMemory"),
    Place(FORMAT, WHOLE, "Refusal", "{code} {name}"),
    # The forms of lines, by which bad ones are explained. `Power` is `off` and `on`, and each of `Outside` is a line of its own.
    Place(LINES, block("const BENCH:", "];"), "BenchLine", 'LineForm("{kebab}",'),
    Place(LINES, block("const SITE:", "];"), "SiteLine", 'LineForm("{kebab}",', "Outside"),
    Place(LINES, block("const SITE:", "];"), "Outside", 'LineForm("{kebab}",', "Power"),
    Place(LINES, line('    LineForm("pump", "['), "Trouble", "{word}", "None"),
    Place(MISTAKES, line("            Mistake::NoTrouble"), "Trouble", "`{word}", "None"),
    # What programs end with.
    Place(FORMAT, table("| END |"), "End", "`{name}`"),
    Place(FORMAT, table("| END |"), "Fault", "`halt {name}`"),
    Place(FORMAT, table("| END |"), "Outcome", "| `{name}` |", "Ended Halted"),
    Place(FORMAT, section("Exit statuses and faults"), "ReplayFault", "`replay: {name}`"),
    Place(FORMAT, section("Exit statuses and faults"), "ThreadsFault", "`threads: {name}`"),
    Place(FORMAT, section("What `run`, `check` and `replace` say of gear"), "Place", "{name}`", "NotAsked Nobody Another"),
    Place(FORMAT, section("Exit statuses of `dali_commission`"), "Failure", "`{name}`", "Console Store NotReplaced"),
    Place(FORMAT, section("Exit statuses of `dali_commission`"), "Failure", "| {code} |", "Console"),
    Place(FORMAT, section("Exit statuses of `dali_commission`"), "ConsoleFault", "`{name}`", "BadCommandLine"),
    Place(FORMAT, section("Exit statuses of `dali_commission`"), "ConsoleFault", "| {code} |"),
    Place(FORMAT, section("Exit statuses of `dali_commission`"), "End", "{name}`"),
    Place(FORMAT, section("Exit statuses of `dali_commission`"), "Fault", "`ended: {name}`", "Store"),
    Place(FORMAT, section("Exit statuses of `dali_commission`"), "DriverFault", "`{name}`", "Memory"),
    Place(INSTALLER, section("What `replace` refuses"), "ReplaceRefusal", "`{name}`", SAYS_WHAT_TO_DO),
    Place(INSTALLER, table("| Status | What it means |"), "End", "`{name}`", "AllFound"),
    Place(INSTALLER, table("| Status | What it means |"), "Fault", "`{name}`", "Store"),
    Place(INSTALLER, table("| Status |"), "Failure", "| {code} |", "Console Spent"),
    Place(INSTALLER, section("How a run ends"), "End", "| `{name}` |"),
    Place(INSTALLER, section("How a run ends"), "Fault", "| `halt {name}` |"),
    Place("docs/RULES.md", section("What a controller does next (*profile*)"), "End", "the end {Name}"),
    # What happens on a site.
    Place("docs/MODEL.md", table("| Event | Does |"), "Event", "| `{Name}"),
    Place("crates/dali_world/README.md", table("| Call | Event that it adds |"), "Event", "`{Name}"),
    # Stores and records.
    Place(FORMAT, section("Refusals of stores and records"), "KeepError", "- {code} {Name}:"),
    Place(FORMAT, line("- `kind` is"), "Record", "{code} {Name}:"),
    Place(FORMAT, line("- a kind is none of"), "Record", "{code}"),
    Place("docs/STORES.md", table("| Kind | The record says |"), "Record", "| {code} |"),
    Place("crates/dali_reserve/README.md", table("| Refusal | Number |"), "KeepError", "| {Name} | {code} |"),
    # What is told of a frame, and a vendor of the library for C.
    Place(ADAPTERS, table("| Answer | When |"), "Answer", "| `{kebab}"),
    Place(ADAPTERS, table("| Answer | When |"), "Input", "| `{kebab}` |", NOT_OF_FRAMES),
    Place(VENDOR, table("| Order | What to do |"), "Order", "`DALI_{UPPER}`"),
    Place(VENDOR, table("| Order | What to do |"), "Answer", "`DALI_HEARD_{UPPER}`"),
    Place(VENDOR, table("| Order | What to do |"), "Input", "`DALI_{UPPER}`", "Start Survey Heard"),
    Place(VENDOR, table("| Status of `dali_records_add` |"), "AddError", "| `DALI_{UPPER}` |"),
    Place(VENDOR, table("| Tell | When |"), "Answer", "| `DALI_HEARD_{UPPER}` |"),
    Place(VENDOR, table("| Tell | When |"), "Input", "| `DALI_{UPPER}` |", NOT_OF_FRAMES),
    Place("adapters/lines.py", line("SILENCE,"), "Answer", '"{kebab}"', "Byte"),
    Place("adapters/lines.py", line("SILENCE,"), "Input", '"{kebab}"', NOT_OF_FRAMES),
    Place("adapters/template", block("# So this ends with", "def "), "Answer", "return lines.{UPPER}", "Byte"),
    Place("adapters/template", block("# So this ends with", "def "), "Input", "return lines.{UPPER}", NOT_OF_FRAMES),
    Place("adapters/tests/testing.py", line("                if told[-1] in"), "Input", '"{kebab}"', NOT_OF_FRAMES),
    # Stories: their format, the schema of a line, and the words of the viewer.
    Place(FORMAT, line("- **The end**"), "End", "`{name}`"),
    Place(FORMAT, line("- **The end**"), "Fault", "`halt-{name}`"),
    Place(SCHEMA, WHOLE, "Event", '"kind": {{"const": "{kebab}"}}'),
    Place(SCHEMA, WHOLE, "Order", '"order": {{"const": "{kebab}"}}'),
    Place(SCHEMA, block('"told": {', '"frame": {'), "Input", "{kebab}", "Heard"),
    Place(SCHEMA, block('"told": {', '"frame": {'), "Answer", "{kebab}", "Byte"),
    Place(SCHEMA, block('"acted-commit": {', "address"), "Record", '"{name}"'),
    Place(SCHEMA, block('"acted-done": {', "}\n    }"), "End", '"{name}"'),
    Place(SCHEMA, block('"acted-halt": {', "}\n    }"), "Fault", '"{name}"'),
    Place(SCHEMA, block('"stands": {', "]"), "End", '"{name}"'),
    Place(SCHEMA, block('"stands": {', "]"), "Fault", '"halt-{name}"'),
    Place(SCHEMA, line('        "state":'), "InitialisationState", '"{kebab}"'),
    Place(VIEWER, block('id="words"', "</script>"), "Event", '"{kebab}":'),
    Place(VIEWER, block('id="words"', "</script>"), "Order", '"order:{kebab}":'),
    Place(VIEWER, block('id="words"', "</script>"), "Input", '"told:{kebab}', "Heard"),
    Place(VIEWER, block('id="words"', "</script>"), "End", '"stands:{name}":'),
    Place(VIEWER, block('id="words"', "</script>"), "Fault", '"stands:halt-{name}":'),
    # The list of texts: each line of the program by its name, and in its words.
    Place(TEXTS, WHOLE, "Said", '"Said::{Name}', "At Mended Why"),
    Place(TEXTS, WHOLE, "Said", '["{name}",', "Far At Advice Wrote Mended HasLost ConflictAdvice Why"),
    Place(TEXTS, WHOLE, "Failure", '"Failure::{Name}', "Console Store"),
    Place(TEXTS, WHOLE, "Failure", '["{name}",', "Console Store NotReplaced"),
    Place(TEXTS, WHOLE, "Place", '"Place::{Name}"', "NotAsked Nobody"),
    Place(TEXTS, WHOLE, "Place", '{name}",', "NotAsked Nobody Another"),
    Place(TEXTS, WHOLE, "DriverFault", '"DriverFault::{Name}": ["{name}",', "Memory"),
    Place(TEXTS, WHOLE, "StoreFault", '"StoreFault::{Name}": ["{name}",', "Store"),
    Place(TEXTS, WHOLE, "KeepError", '"KeepError::{Name}": ["{name}",'),
    Place(TEXTS, WHOLE, "MendRefusal", '"MendRefusal::{Name}": ["{name}",'),
    Place(TEXTS, WHOLE, "ReplaceRefusal", '"ReplaceRefusal::{Name}": ["{name}",'),
    # The scripts of tools/.
    Place(REPLAY, line("ANSWER ="), "Answer", "{kebab}"),
    Place(REPLAY, line("COMMIT ="), "Record", "{name}"),
    Place(REPLAY, WHOLE, "Refusal", '"{code} {name}"', "StoreDisagrees NoMemory"),
    Place(REPLAY, block("SITE = {", "\n}"), "Trouble", '"pump {word}":', "None"),
    Place(THREADS, line("DONE ="), "End", '"{name}"'),
    Place(THREADS, block("ENDS = {", "}"), "Fault", '"halt {name}"'),
    Place(THREADS, block("ENDS = {", "}"), "Outcome", '"{name}"', "Ended Halted"),
    Place(THREADS, line("GEAR ="), "InitialisationState", "{kebab}"),
    Place(FORMS, block("causes = (", "\n    )"), "PlanError", '("{name}",', "NoMemory"),
    Place("tools/lib/site_script.py", block("FRAME_TROUBLES = {", "\n}"), "Trouble", '"{word}":', "None"),
    Place("tools/check/troubles", line("TROUBLES ="), "Trouble", '"{word}', "None"),
    Place(SITE, line("ENDS ="), "End", '"{name}"'),
    Place(LIBRARY, line("ENDS ="), "End", '{UPPER}: "{words}"'),
)


def variants(text: str, name: str) -> list[str]:
    """The variants of an enum in a file of code."""
    found = re.search(rf"^pub enum {name}(?:<[^>]*>)? \{{\n(.*?)^\}}", re.sub(r"//.*", "", text), re.M | re.S)
    return re.findall(r"^    (\w+)", found[1], re.M) if found else []


def code_of(text: str, of: str) -> str | None:
    """The number that code has for a variant, or None."""
    found = re.search(rf"\b{of}\b(?:\([^)]*\))?(?: \| [\w:|(). ]+)? => \(?(\d+)", text)
    found = found or re.search(rf"\b(\d+) => Some\({of}\b", text)
    return found and found[1]


def name_of(text: str, of: str) -> str | None:
    """What code calls a variant: the text of its `error`, or that behind its arrow; or None."""
    found = re.search(rf'#\[error\("([^"]+)"(?:, [^\n]*)?\)\]\s+{of.split("::")[1]}\b', text)
    found = found or re.search(rf'\b{of}\b(?:\([^)]*\))? => (?:(?!=>|\n\n)[^"]|"")*?"([^"]+)"', text)
    return found and found[1]


def word_of(text: str, of: str) -> str | None:
    """The word that code reads as a variant, or None."""
    found = re.search(rf'b"([\w-]+)"\.as_slice\(\) \{{\s*Some\({of}\b', text)
    return found and found[1]


def spelled(form: str, text: str, of: str) -> tuple[str | None, str | None]:
    """How a variant is spelled by a form; or what the code lacks of it."""
    variant = of.split("::")[1]
    snake = re.sub(r"(?<!^)([A-Z])", r"_\1", variant).lower()
    forms = {"Name": variant, "UPPER": snake.upper(), "kebab": snake.replace("_", "-"), "words": snake.replace("_", " ")}
    forms |= {"code": code_of(text, of), "name": name_of(text, of), "word": word_of(text, of)}
    lacking = [key for key in re.findall(r"\{(\w+)\}", form) if forms[key] is None]
    return (None, lacking[0]) if lacking else (form.format(**forms), None)


def pattern(wanted: str) -> str:
    """What finds a variant as a whole. Something stands for each place of its name."""
    inner = re.sub(r"\\\{\w*\\\}", r"(?:[A-Z]+|\\d+|{\\w+})", re.escape(wanted))
    return rf"(?<![\w-]){inner}(?![\w-])"


def missing(root: pathlib.Path, place: Place) -> collections.abc.Iterator[str]:
    """What a place lacks, in lines of text."""
    texts = [(root / file).read_text() if (root / file).exists() else "" for file in ENUMS[place.enum]]
    found, without = variants(texts[0], place.enum), place.without.split()
    if not found:
        yield f"{ENUMS[place.enum][0]}: there is no enum {place.enum}"
    for it in without:
        if it not in found:
            yield f"{ENUMS[place.enum][0]}: there is no {place.enum}::{it}, which {place.file} leaves out"
    text = (root / place.file).read_text() if (root / place.file).exists() else ""
    at = re.search(place.find, text, re.M | re.S)
    if not at:
        yield f"{place.file}: no list of {place.enum} is found by {place.find!r}"
    for variant in found if at else ():
        if variant not in without:
            yield from missing_of(place, "\n\n".join(texts), at, f"{place.enum}::{variant}")


def missing_of(place: Place, text: str, at: re.Match[str], of: str) -> collections.abc.Iterator[str]:
    """Whether the list at this match lacks a variant."""
    wanted, lacking = spelled(place.form, text, of)
    if lacking:
        yield f"{ENUMS[place.enum][-1]}: there is no {lacking} of {of}"
    elif not re.search(pattern(wanted), at[0]):
        number = at.string[: at.start()].count("\n") + 1
        yield f"{place.file}:{number}: the list that begins here lacks '{wanted}', which {of} is"
