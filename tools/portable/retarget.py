"""Rewrites the LLVM module of a proved crate for another target than the one that the kit made it for.

The module is the one that the kit hands to its clang for aarch64-unknown-linux-gnu: not optimised yet, with pointers of 64 bits and little
endian bytes. It is rewritten as text, line by line, since no library that Debian has reads modules of LLVM 22. Each rewriting below is a function
of a line. It states the form that it takes, and a line of the same kind in another form is refused: the error names it. All but `narrowed`
leave the meaning of each instruction as it is.

`narrowed` is for wasm32, whose pointers have 32 bits. The layout of memory stays that of 64 bits: sizes are i64, and each pointer in memory
keeps its 8 bytes, of which the high 4 are 0."""
import itertools
import re

SOURCE = "aarch64-unknown-linux-gnu"
# The data layout of clang 22 for WebAssembly. For the others clang takes the target's own.
LAYOUTS = {"wasm32": "e-m:e-p:32:32-p10:8:8-p20:8:8-i64:64-i128:128-n32:64-S128-ni:1:10:20"}
# The processors: as the kit has them for its own targets.
PROCESSORS = {"aarch64": "generic", "x86_64": "x86-64-v2", "wasm32": "lime1"}
# What a program asks of a C library, by the names that system.c and program.js have.
FOREIGN = {"main": "rattle_main", "__sysv_signal": "rattle_signal", "__xpg_strerror_r": "rattle_strerror",
           **{name: f"rattle_{name}" for name in ("open", "close", "read", "write", "isatty", "statx")}}
NAME = r'(?:%|@)(?:"[^"]*"|[\w.$-]+)'
TYPE = r"(?:ptr|i\d+|float|double|<\d+ x i\d+>|\[\d+ x i\d+\])"


class Refused(Exception):
    """A line in a form that no rewriting takes."""


def architecture(target):
    return {"arm64": "aarch64"}.get(target.partition("-")[0], target.partition("-")[0])


def header(line, target):
    """The triple and the data layout. Form: `target triple = ".."`, `target datalayout = ".."`."""
    if line.startswith("target triple = "):
        return f'target triple = "{target}"'
    layout = LAYOUTS.get(architecture(target))
    return f'target datalayout = "{layout}"' if layout else ""


def attributes(line, target):
    """What functions say of the processor, the stack's probe and the frame pointer. Form: `attributes #N = { word ".."=".." .. }`, with
    these four keys alone. WebAssembly has no probe and no frame pointer, Windows a probe of its own, and x86-64 keeps no frame pointer."""
    arch = architecture(target)
    keys = set(re.findall(r'"([^"]*)"=', line))
    if not keys <= {"frame-pointer", "probe-stack", "stack-probe-size", "target-cpu"}:
        raise Refused("an attribute that it doesn't know")
    if arch != "aarch64":
        line = re.sub(r' "frame-pointer"="[^"]*"', "", line)
    if arch in LAYOUTS or "windows" in target:
        line = re.sub(r' "(probe-stack|stack-probe-size)"="[^"]*"', "", line)
    own = f' "target-cpu"="{PROCESSORS[arch]}"'
    if arch in LAYOUTS:
        own += ' "target-features"="+simd128" "no-builtin-bcmp" "no-builtin-memcmp" "no-builtin-strlen"'
    return re.sub(r' "target-cpu"="[^"]*"', own, line)


def foreign(line):
    """The names of a C library in a program. Form: `@name`."""
    return re.sub(r"@(%s)(?![\w.$])" % "|".join(FOREIGN), lambda it: f"@{FOREIGN[it[1]]}", line)


def numbers(values):
    return "<16 x i32> <%s>" % ", ".join(f"i32 {it}" for it in values)


def lookup(own, lines):
    """A table lookup by the processor's own, whose numbers `lines` make of %i: that gives 0 for each from 16 on, as AArch64's does."""
    return [*lines, f"  %r = call <16 x i8> @{own}(<16 x i8> %t, <16 x i8> %n)", "  ret <16 x i8> %r", "}", "",
            f"declare <16 x i8> @{own}(<16 x i8>, <16 x i8>)"]


# AArch64's own vector instructions that the kit's library asks for, as functions in terms of each other processor.
SUMS = [
    f"  %e = shufflevector <16 x i8> %a, <16 x i8> %b, {numbers(range(0, 32, 2))}",
    f"  %o = shufflevector <16 x i8> %a, <16 x i8> %b, {numbers(range(1, 32, 2))}",
    "  %r = add <16 x i8> %e, %o", "  ret <16 x i8> %r", "}"]
NARROW = "<16 x i8> @llvm.wasm.narrow.unsigned.v16i8.v8i16(<8 x i16>"
# (an engine has shuffles of two vectors slower)
SUMS_OF_WASM = [
    line.replace("_", it) for it in "ab" for line in (
        "  %_16 = bitcast <16 x i8> %_ to <8 x i16>", "  %_o = lshr <8 x i16> %_16, splat (i16 8)",
        "  %_s = add <8 x i16> %_16, %_o", "  %_r = and <8 x i16> %_s, splat (i16 255)")
] + [f"  %r = call {NARROW} %ar, <8 x i16> %br)", "  ret <16 x i8> %r", "}", "", f"declare {NARROW}, <8 x i16>)"]
LOOKUP = {
    # (of pshufb's numbers the highest bit says 0)
    "x86_64": lookup("llvm.x86.ssse3.pshuf.b.128", [
        "  %out = icmp ugt <16 x i8> %i, splat (i8 15)", "  %n = select <16 x i1> %out, <16 x i8> splat (i8 -1), <16 x i8> %i"]),
    "wasm32": lookup("llvm.wasm.swizzle", ["  %n = or <16 x i8> %i, zeroinitializer"]),
}


def intrinsic(line, target):
    """An instruction of AArch64 alone: its declaration becomes a function, and its calls name that. Form: `llvm.aarch64.neon.addp.v16i8`
    and `llvm.aarch64.neon.tbl1.v16i8`."""
    arch = architecture(target)
    if arch == "aarch64":
        return [line]
    sums = SUMS_OF_WASM if arch in LAYOUTS else SUMS
    bodies = {"llvm.aarch64.neon.addp.v16i8": ("%a, <16 x i8> %b", sums), "llvm.aarch64.neon.tbl1.v16i8": ("%t, <16 x i8> %i", LOOKUP[arch])}
    name = re.search(r"@(llvm\.aarch64\.[\w.]+)", line)[1]
    if name not in bodies:
        raise Refused("an instruction of one processor")
    own = name.replace("llvm.aarch64", "rattle")
    if not line.startswith("declare "):
        return [line.replace(f"@{name}(", f"@{own}(")]
    parameters, body = bodies[name]
    return [f"define internal <16 x i8> @{own}(<16 x i8> {parameters}) alwaysinline nounwind {{", *body]


def pair(line):
    """A pair that C returns, as Windows and WebAssembly have it: into memory that the caller has. The declaration becomes a function over that,
    which calls name. Form: `declare [2 x i64] @name(TYPE noundef, ..)`, and `%x = call [2 x i64] @name(`."""
    found = re.fullmatch(r"declare \[2 x i64\] (@\w+)\(((?:\w+(?: noundef)?(?:, )?)*)\)(.*)", line)
    if found:
        name, given, place = found[1], [f"{it.split()[0]} %a{at}" for at, it in enumerate(found[2].split(", "))], "ptr sret([2 x i64]) align 8"
        return [f"declare void {name}({', '.join([place, *(it.split()[0] for it in given)])}){found[3]}", "",
                f"define internal [2 x i64] {name}.pair({', '.join(given)}) alwaysinline nounwind {{", "  %at = alloca [2 x i64], align 8",
                f"  call void {name}({', '.join([f'{place} %at', *given])})", "  %pair = load [2 x i64], ptr %at, align 8", "  ret [2 x i64] %pair", "}"]
    if not re.fullmatch(r"  %\w+ = call \[2 x i64\] @\w+\(.*", line):
        raise Refused("a pair of another form")
    return [re.sub(r"(@\w+)\(", r"\1.pair(", line, count=1)]


def wide(text):
    """The pointers of a pair are integers of 64 bits. Form: `{ T, T }` in a type."""
    return re.sub(r"\{ [^{}]* \}", lambda it: re.sub(r"\bptr\b", "i64", it.group()), text)


# Each way below has the lines that take the place of one; %W is a name that nothing else has.
def load(space, to, address, rest):
    rest = re.sub(r", !(nonnull|dereferenceable|align) !\d+", "", rest)
    return [f"{space}%W = load i64, ptr {address}{rest}", f"{space}{to} = inttoptr i64 %W to ptr"]


def store(space, value, address, rest):
    return [f"{space}%W = ptrtoint ptr {value} to i64", f"{space}store i64 %W, ptr {address}{rest}"]


def extract(space, to, kind, whole, at):
    if kind.strip("{} ").split(", ")[int(at)] != "ptr":
        return [f"{space}{to} = extractvalue {wide(kind)} {whole}, {at}"]
    return [f"{space}%W = extractvalue {wide(kind)} {whole}, {at}", f"{space}{to} = inttoptr i64 %W to ptr"]


def copy(space, call, first, length, rest):
    """(no object has 2 ^ 31 bytes or more: heap.c and module.js ask for none, and the stack is smaller)"""
    if length.isdigit():
        return [f"{space}{call}.i32({first}, i32 {length}, i1 false){rest}"]
    return [f"{space}%W = trunc i64 {length} to i32", f"{space}{call}.i32({first}, i32 %W, i1 false){rest}"]


# The instructions of wasm32 in which a pointer's size matters, and those in which it doesn't. A line that says `ptr` has one of these forms.
NARROWED = [(re.compile(form), way) for form, way in (
    (rf"(\s+)({NAME}) = load ptr, ptr ({NAME})((?:, align \d+)?(?:, !\w+ !\d+)*)", load),
    (rf"(\s+)store ptr ({NAME}|null), ptr ({NAME})((?:, align \d+)?)", store),
    (rf"(\s+)({NAME}) = extractvalue (\{{ {TYPE}, {TYPE} \}}) ({NAME}), (\d)", extract),
    (rf"(\s+)({NAME}) = alloca ptr, align 8", lambda space, to: [f"{space}{to} = alloca i64, align 8"]),
    (rf"(\s+)({NAME}) = ptrtoaddr ptr ({NAME}) to i64", lambda space, to, of: [f"{space}{to} = ptrtoint ptr {of} to i64"]),
    (r"(\s+)((?:tail )?call void @llvm\.(?:memset\.p0|memmove\.p0\.p0|memcpy\.p0\.p0))\.i64\((.*), i64 (\S+), i1 false\)((?: #\d+)?)", copy),
)]
ARGUMENTS = r"\((?:[^(){}]|sret\(\[2 x i64\]\))*\)"
UNCHANGED = re.compile("|".join((
    rf"\s+{NAME} = load (?!ptr){TYPE}, ptr {NAME}(, align \d+)?(, !\w+ !\d+)*", rf"\s+store (?!ptr){TYPE} \S.*, ptr {NAME}(, align \d+)?",
    rf"\s+{NAME} = load \{{ {TYPE}, {TYPE} \}}, ptr {NAME}, align \d+", rf"\s+ret (\{{ {TYPE}, {TYPE} \}}|ptr) {NAME}",
    rf"\s+{NAME} = getelementptr (inbounds )?(nuw )?i8, ptr ({NAME}|null), i64 ({NAME}|-?\d+)",
    rf"\s+{NAME} = icmp (eq|ne|ult|ule|ugt|uge) ptr {NAME}, ({NAME}|null)", rf"\s+{NAME} = load atomic i64, ptr {NAME} seq_cst, align 8",
    rf"\s+{NAME} = atomicrmw (add|sub) ptr {NAME}, i64 \S+ seq_cst, align 8",
    rf"\s+{NAME} = cmpxchg ptr {NAME}, i64 \S+, i64 \S+ seq_cst seq_cst, align 8",
    rf"\s+({NAME} = )?call ({TYPE}|void|\{{ {TYPE}, {TYPE} \}})( \(ptr, i32, \.\.\.\))? {NAME}{ARGUMENTS}( #\d+)?",
)))
CONSTANT = re.compile(r"\bptr (getelementptr inbounds \([^()]*\)|getelementptr \([^()]*\)|@[^,\s]+|null)")


def global_(line):
    """A constant: 4 bytes of zero follow each pointer. Form: a packed struct, `<{ T, .. }> <{ T value, .. }>`."""
    if not re.search(r"\bptr\b", line):
        return line
    kind, middle, value = line.partition("}> <{")
    if not middle or len(re.findall(r"\bptr\b", kind)) != len(CONSTANT.findall(value)) or \
            "{" in value + kind.partition("<{")[2] or " x ptr" in kind:
        raise Refused("a pointer in a constant of another form")
    return re.sub(r"\bptr\b", "ptr, [4 x i8]", kind) + middle + CONSTANT.sub(lambda it: f"{it.group()}, [4 x i8] zeroinitializer", value)


def narrowed(line, fresh):
    """A line where pointers have 32 bits. Forms: those of NARROWED and UNCHANGED, a definition, a declaration and a constant."""
    # (what quotes have is a name or bytes)
    quoted, numbered = re.findall(r'"[^"]*"', line), itertools.count()
    bare = re.sub(r'"[^"]*"', lambda it: f'"{next(numbered)}"', line)
    lines = [bare]
    if bare.startswith("@"):
        lines = [global_(bare)]
    elif bare.startswith("declare "):
        lines = [re.sub(r"(@llvm\.mem\w+\S*)\.i64\((.*), i64, i1 immarg\)", r"\1.i32(\2, i32, i1 immarg)", wide(bare))]
    elif bare.startswith("define "):
        lines = [wide(bare)]
    elif bare.startswith(" ") and re.search(r"\bptr\b|@llvm\.mem|\{ ", bare):
        lines = next((way(*found.groups()) for found, way in ((form.fullmatch(bare), way) for form, way in NARROWED) if found), None)
        if not lines and (re.search(r"\bptr\b.*@llvm|@llvm.*\bptr\b", bare) or not UNCHANGED.fullmatch(bare)):
            raise Refused("a pointer in a form that it doesn't know")
        lines = lines or [wide(bare)]
    name = f"%w32.{next(fresh)}"
    return [re.sub(r'"(\d+)"', lambda it: quoted[int(it[1])], re.sub(r"%W\b", name, it)) for it in lines]


def rewritten(line, target, fresh):
    """The lines that stand for one line of the module."""
    arch = architecture(target)
    if line.startswith("target "):
        return [header(line, target)]
    if line.startswith("attributes #"):
        return [attributes(line, target)]
    if "@llvm.aarch64." in line:
        return intrinsic(line, target)
    line = foreign(line)
    lines = pair(line) if "[2 x i64] @" in line and (arch in LAYOUTS or "windows" in target) else [line]
    return [it for one in lines for it in narrowed(one, fresh)] if arch == "wasm32" else lines


def retargeted(text, target):
    """The module for a target. Raises Refused, with the number and the text of a line that it doesn't know."""
    lines, fresh = [], itertools.count()
    for number, line in enumerate(text.split("\n"), 1):
        try:
            lines += rewritten(line, target, fresh)
        except Refused as why:
            raise Refused(f"line {number}: {why}: {line.strip()[:200]}") from None
    return "\n".join(lines)
