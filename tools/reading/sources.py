"""What the header, definitions and code say of statuses, limits and codes: what tools/declared puts into pages.

Each pattern has to be found, so that a source in another form ends in a fault and not in a shorter page."""
import glob
import os
import re
import textwrap

TOP = os.path.dirname(os.path.dirname(os.path.dirname(os.path.realpath(__file__))))
FAULTS = "crates/lsp_stream/src/fault.rt"
LINES = "crates/lspsync/specs/FaultText.antt"
STATUSES = "crates/lspsync/specs/Run.antt"
HELP = "crates/lspsync/src/command_line/help.rt"
HEADER = "crates/laspidru/include/laspidru.h"
CALLS = "crates/laspidru/src/**/*.rt"
PROGRAMS = "docs/LSPSYNC.md"
CODES_PAGE = "crates/laspidru/include/CODES.md"

# What docs/PROTOCOL.md calls what a number of the header is for
CODES = {
    "OUT_OF_MEMORY": "F9, M3, S9, V2, C3, P6", "TOO_LONG": "S3, S8", "INSIDE_CHARACTER": "E1", "REVERSED_RANGE": "E2",
    "BAD_ENCODING": "BadEncoding", "ENDED": "V1", "NOT_OPEN": "S4", "ALREADY_OPEN": "S1", "TOO_MANY_DOCUMENTS": "S2", "STALE_VERSION": "S5",
    "TOO_MANY_CHANGES": "S6", "INVALID_PARAMS": "M4", "CUT": "P4", "BAD_FRAME": "F1 to F7, P3", "BODY_TOO_LONG": "P5", "BAD_LOG": "P8",
    "TOO_MANY_TURNS": "P7; no call returns it", "FAILED": "F8", "WRONG_PHASE": "C1", "NOT_AN_ANSWER": "NotAnAnswer",
    "ERROR_ANSWER": "ErrorAnswer", "NO_SYNC": "NoSync",
}
# The codes that each call on a full handle may return first, in this order
FIRST = ["NOT_UTF8", "BAD_ENCODING", "BAD_LENGTH", "IN_USE", "EMPTY", "OTHER_KIND"]


def text_of(path):
    with open(os.path.join(TOP, path), encoding="utf-8") as file:
        return file.read()


def all_in(pattern, text, where):
    found = re.findall(pattern, text, re.MULTILINE)
    if not found:
        raise SystemExit(f"tools/declared: {where} has nothing of the form {pattern}")
    return found


def commented(lines):
    """Returns the text of doc comments."""
    return " ".join(it.strip().lstrip("/").strip() for it in lines.strip().split("\n"))


# ---- statuses of lspsync


def fault_lines():
    """Returns the line of each fault by its variant, without a number that it ends with: the definitions that the program is proved to write."""
    text = text_of(LINES)
    ended = lambda words: words + ("N" if words.endswith(" ") else "")
    lines = {name: ended(words) for name, words in all_in(r'^fault_text \(?engine\.(\w+).* = codes "([^"]*)"', text, LINES)}
    frame = all_in(r'^frame_text \(frame\.\w+ \w+\) = codes "([^"]*)"', text, LINES)[0]
    return {**lines, "Frame": ended(frame)}


def statuses_of_faults():
    text = text_of(STATUSES)
    found = dict(all_in(r"^status_of (\w+) = (\d)$", text, STATUSES))
    return lambda variant: found.get(variant, found["fault"])


def limits_block():
    """Returns the options that all commands of lspsync have, with their defaults."""
    text = text_of(HELP)
    listed = all_in(r"static LIMITS: .*\n((?:    .*\n)*)", text, HELP)[0]
    rows = []
    for name, kind, says in all_in(r'\("([a-z-]+)", (.*), (\w+)\),$', listed, HELP):
        words = all_in(rf'const {says}: &str = "([^"]*)"', text, HELP)[0].replace("\n", " ")
        default = re.search(r'Some\("(\d+)"\)', kind)
        rows.append((f"--{name}" + (" N" if default else ""), words + (f" [{default[1]}]" if default else "")))
    wide = max(len(name) for name, _ in rows)
    return "".join(f"    {name.ljust(wide)}  {words}\n" for name, words in rows)


def statuses_block():
    """Returns each status of lspsync, with the line on standard error, the fault's code, and what it means."""
    said = all_in(r"(?:Exit status: |, )(\d) ([^,]*?)(?=, \d |\.)", text_of(HELP).replace("\n", " "), HELP)
    rows = [(status, "", "", words) for status, words in said if int(status) < 3]
    missing = all_in(r'^missing_text \S+ = codes "(.*)"', text_of(STATUSES), STATUSES)
    rows[2:2] = [("1", f"lspsync: {text}", "", "") for text in missing]
    lines, status_of = fault_lines(), statuses_of_faults()
    faults = []
    for comment, variant in all_in(r"((?:^ +/// .*\n)+)(?:^ +#\[.*\n)*^ +(\w+)(?: \{.*\}|\(.*\))?,$", text_of(FAULTS), FAULTS):
        code, says = commented(comment).split(": ", 1)
        says = re.sub(r"\. `\w+` is", "; N is", says.rstrip(".")).replace("\n", " ")
        faults.append((status_of(variant), f"lspsync: {lines[variant]}", code, says))
    rows += sorted(faults)
    if {it[0] for it in rows} != {it for it, _ in said}:
        raise SystemExit(f"tools/declared: {HELP} has other statuses than its definitions")
    wide = max(len(it[1]) for it in rows)
    return "".join(f"    {status}  {line.ljust(wide)}  {code.ljust(2)}  {says}".rstrip() + "\n" for status, line, code, says in rows)


# ---- codes of the library


def numbers():
    """Returns the codes of the header: name, number, and what is said of each."""
    listed = all_in(r"/\* Codes\.[^*]*\*/\nenum \{\n((?:.*\n)*?)\};", text_of(HEADER), HEADER)[0]
    found = all_in(r"^    LASPIDRU_(\w+) = (\d+),?(?: +/\* (.*) \*/)?$", listed, HEADER)
    strange = [it for it in CODES if it not in [name for name, _, _ in found]]
    if strange:
        raise SystemExit(f"tools/declared: {HEADER} has no code {strange[0]}")
    return found


def filled(line):
    return textwrap.fill(line, 140, subsequent_indent="  ", break_long_words=False, break_on_hyphens=False) + "\n"


def numbers_block():
    """Returns the number and the name of each code of the library that docs/PROTOCOL.md has too, and what it calls it."""
    return "".join(filled(f"- {number} {name}: {CODES[name]}") for name, number, _ in numbers() if name in CODES)


def codes_said(comment):
    """Returns what the doc comment of a call says of its codes, without what is said of their cause and cost."""
    said = re.search(r"\bCodes(?: and cost)?(?:(?:, in this order)?: | are (?=those of))(.*)", comment)
    if not said:
        return None
    kept = [it for it in re.split(r"(?<=\.) (?=[A-Z])", said[1]) if re.search(r"[A-Z]{3}|those of", it)]
    text = "; ".join(it.rstrip(".") for it in kept if not it.startswith(("After ", "With ", "Costs ")))
    text = re.sub(r"(?<=; )(?:[Tt]hen |([A-Z])(?=[a-z ]))", lambda it: (it[1] or "").lower(), text)
    text = text.replace(", which change nothing", "").replace("2^64 - 1", "2^64-1")
    text = re.sub(r"\[(`\w+`)\]\([^)]*\)", r"\1", text)  # a link of its name alone
    return re.sub(r"those of \[?`laspidru_(\w+)`\]?", r"those of `\1`", text).replace("`laspidru_", "`")


def after_first(said):
    """Returns the codes that come after those with which each call on a full handle begins. The others there are to be in order."""
    first, end, rest = said.partition("OTHER_KIND")
    if not end:
        return said
    order = [FIRST.index(it) for it in re.findall(r"[A-Z_0-9]{3,}", first) if it not in ("URI", "OR")]
    if [it for it in order if it] != sorted(it for it in order if it):
        raise SystemExit(f"tools/declared: these codes come in another order: {said}")
    return rest.lstrip(",; ")


def calls_block():
    """Returns which codes the calls return, a row of the header for those with the same."""
    text = "".join(text_of(it) for it in sorted(glob.glob(CALLS, root_dir=TOP, recursive=True)))
    groups = {}
    for comment, name in all_in(r'((?:^///.*\n)+)(?:^#\[.*\n)*^pub extern "C" fn laspidru_(\w+)', text, CALLS):
        said = codes_said(commented(comment))
        if said and after_first(said):
            groups.setdefault(after_first(said), []).append(f"`{name}`")
    rows = (f"{', '.join(sorted(names))}: {said}".replace("`", "") for said, names in sorted(groups.items(), key=lambda it: min(it[1])))
    return "".join(textwrap.fill(it, 120, initial_indent="   ", subsequent_indent="      ", break_on_hyphens=False) + "\n" for it in rows)


def header():
    """Returns the header with the codes of its calls, which are the comment that begins with these words."""
    text = text_of(HEADER)
    begin, _, rest = all_in(r"((?:.*\n)*/\* ---- Codes of each call\.\n(?:   \S.*\n)*\n)((?:   .*\n)*)(\*/\n(?:.*\n)*)", text, HEADER)[0]
    return begin + calls_block() + rest


# ---- what a change mostly needs no proof for


def free_files(crate):
    """Returns the files of a crate's src/ that have functions, and no proof by hand; and the others that have functions."""
    names = [it.removesuffix(".rt") for it in glob.glob("**/*.rt", root_dir=f"{TOP}/{crate}/src", recursive=True)]
    free, bound = [], []
    for name in sorted(it for it in names if not re.match(r"tests\b", it) and re.search(r"^ *(?:pub )?fn ", text_of(f"{crate}/src/{it}.rt"), re.MULTILINE)):
        proofs = glob.glob("**/*.antt", root_dir=f"{TOP}/{crate}/proofs/{name}", recursive=True)
        others = tuple(f"{it[len(name) + 1:]}/" for it in names if it.startswith(f"{name}/"))
        (bound if any(not it.startswith(others) for it in proofs) else free).append(f"`src/{name}.rt`")
    return free, bound


def page_of_crate(page):
    """Returns the page of a crate with its line on them, which is the last one."""
    free, bound = free_files(os.path.dirname(page))
    what = ", ".join(free) if len(free) <= 2 * len(bound) else f"All of `src/` but {', '.join(bound)}"
    link = "(../../docs/DEVELOPING.md#what-needs-no-proof)"
    needs = "need" if what.startswith("`") and len(free) > 1 else "needs"
    line = f"{what} {needs} [no proof]{link}." if what else f"Each change needs a [proof]{link}."
    kept = re.split(r"\n\n(?=.*(?:\n.+)*#what-needs-no-proof)", text_of(page))[0].rstrip("\n")
    return f"{kept}\n\n" + textwrap.fill(line, 140, break_long_words=False, break_on_hyphens=False) + "\n"


# ---- the files


def with_block(text, heading, begins, block):
    """Returns a page with another block or list under a heading: the first lines there that begin so, or go on with blanks."""
    at = re.compile(rf"^{re.escape(begins)}", re.MULTILINE).search(text, re.compile(rf"^##+ {heading}", re.MULTILINE).search(text).end()).start()
    end = re.compile(rf"^(?!{re.escape(begins)}|  )", re.MULTILINE).search(text, at).start()
    return text[:at] + block + text[end:]


def made():
    """Returns each file of which a part is made, and what is to be in it."""
    programs = with_block(text_of(PROGRAMS), "Options", "    ", limits_block())
    return {HEADER: header(), CODES_PAGE: with_block(text_of(CODES_PAGE), "Numbers", "- ", numbers_block()),
            PROGRAMS: with_block(programs, "Exit status", "    ", statuses_block()),
            **{it: page_of_crate(it) for it in sorted(glob.glob("crates/*/README.md", root_dir=TOP))}}
