"""What laspidru.h declares: its constants, structs and functions, and what crates/laspidru has of them."""
import itertools
import re

SIZES = {"void *": 8, "size_t": 8, "uint64_t": 8, "uint32_t": 4, "int32_t": 4, "bool": 1}
PLAIN = {"laspidru_size": "size_t", "laspidru_u32": "uint32_t", "laspidru_i32": "int32_t", "laspidru_u64": "uint64_t",
         "laspidru_bool": "bool"}
# The structs of the crate for those of the header that have another name there
NAMES = {"position": "CPosition", "fault": "FaultAt", "length": "Size"}
RUST = {"usize": "size_t", "u64": "uint64_t", "u32": "uint32_t", "i32": "int32_t", "bool": "bool", "*mut u8": "void *"}


def crate_name(struct):
    return NAMES.get(struct, "".join(part.title() for part in struct.split("_")))


class Header:
    """The header, by its text: `constants` by name, `structs` by name as pairs of a type and a member, `functions` by name as a result
    and pairs of a type and a parameter."""

    def __init__(self, text):
        text = re.sub(r"/\*.*?\*/", "", text, flags=re.S)
        self.constants = {name: int(value) for name, value in re.findall(r"\bLASPIDRU_(\w+) = (\d+)", text)}
        self.version = tuple(re.search(rf"#define LASPIDRU_{it} (.*)", text)[1].strip('"') for it in ("VERSION", "VERSION_NUMBER"))
        self.structs, self.functions = {}, {}
        for body, name in re.findall(r"typedef struct laspidru_\w+ \{(.*?)\} laspidru_(\w+);", text, re.S):
            self.structs[name] = [self._declared(it) for it in body.split(";") if it.strip()]
        for result, name, all_ in re.findall(r"^(laspidru_u32|void) laspidru_(\w+)\((.*?)\);", text, re.S | re.M):
            given = [] if all_ == "void" else [self._declared(it) for it in all_.split(",")]
            self.functions[name] = (PLAIN.get(result, result), given)

    @staticmethod
    def _declared(text):
        kind, name = re.fullmatch(r"\s*(.*?)\s*(\w+)\s*", text, re.S).groups()
        kind = re.sub(r"\s+", " ", kind)
        return PLAIN.get(kind) or re.sub(r"laspidru_(size|u32|i32|u64|bool)\b", lambda it: PLAIN[it[0]], kind), name

    def size_of(self, kind):
        """The size and the alignment of a type."""
        if kind in SIZES:
            return SIZES[kind], SIZES[kind]
        at = self.layout(kind.replace("laspidru_", ""))
        return at.pop("size"), max(self.size_of(it)[1] for it, _ in self.structs[kind.replace("laspidru_", "")])

    def layout(self, struct):
        """The offset of each member of a struct, and its size."""
        found, used, most = {}, 0, 1
        for kind, name in self.structs[struct]:
            size, align = self.size_of(kind)
            used = -(-used // align) * align
            found[name], used, most = used, used + size, max(most, align)
        return {**found, "size": -(-used // most) * most}

    def stripped(self):
        """The declarations for a compiler's or a foreign function interface, a line for each."""
        lines = []
        for name, members in self.structs.items():
            runs = [(kind, [it for _, it in run]) for kind, run in itertools.groupby(members, lambda it: it[0])]
            lines.append("typedef struct { " + " ".join(f"{joined((kind, ', '.join(run)))};" for kind, run in runs) + f" }} laspidru_{name};")
        for name, (result, given) in self.functions.items():
            lines.append(f"{result} laspidru_{name}({', '.join(map(joined, given)) or 'void'});")
        return lines


def joined(pair):
    return "".join(pair) if pair[0].endswith("*") else " ".join(pair)


def crate_structs(sources):
    """The structs for C of the crate, by name."""
    found = {}
    for name, body in re.findall(r"#\[repr\(C\)\]\n(?:#\[derive[^\n]*\n)*pub struct (\w+) \{\n(.*?)\n\}", sources, re.S):
        members = re.findall(r"^    (?:pub )?(\w+): ([^{}\n]*),$", body, re.M)
        found[name] = [(kind, member) for member, kind in members if kind != "Global"]
    return found


def crate_functions(sources):
    """The exported functions of the crate, by name, with the types as C has them."""
    found = {}
    for name, given, result in re.findall(r'extern "C" fn laspidru_(\w+)\((.*?)\)(?: -> (\w+))?\n', sources, re.S):
        kinds = []
        for it in re.findall(r"\w+: ([^,]+)", given):
            kinds += [] if it == "Global" else [it.strip()]
        found[name] = (result or "void", kinds)
    return found


def as_passed(header, kind):
    """The types of C that stand for one of the crate's."""
    names = {crate_name(it): it for it in header.structs}
    if kind in ("&[u8]", "&mut [u8]"):
        return ["const unsigned char *" if kind == "&[u8]" else "unsigned char *", "size_t"]
    if found := re.fullmatch(r"&\[(\w+)\]", kind):
        return [f"const laspidru_{names[found[1]]} *", "size_t"]
    if found := re.fullmatch(r"&(mut )?(\w+)", kind):
        it = f"laspidru_{names[found[2]]}" if found[2] in names else RUST[found[2]]
        return [f"{'' if found[1] else 'const '}{it} *"]
    return [f"laspidru_{names[kind]}" if kind in names else RUST[kind]]


def faults_of_crate(header, sources, version):
    """Yields in what the crate differs from the header."""
    structs, functions = crate_structs(sources), crate_functions(sources)
    for name, members in header.structs.items():
        as_rust = [(RUST.get(kind) or as_passed(header, kind)[0], member) for kind, member in structs.get(crate_name(name), [])]
        if as_rust != members:
            yield f"laspidru_{name} has {members}, and {crate_name(name)} has {as_rust}"
    for name, (result, given) in header.functions.items():
        its_result, kinds = functions.pop(name, ("none", []))
        passed = [it for kind in kinds for it in as_passed(header, kind)]
        if [kind for kind, _ in given] != passed or RUST.get(its_result, its_result) != result:
            yield f"laspidru_{name} has {[kind for kind, _ in given]}, and the crate has {passed}"
    yield from (f"the crate exports laspidru_{name}, and the header has none" for name in functions)
    numbers = {name: int(value) for name, value in re.findall(r"^pub const (\w+): u32 = (\d+);", sources, re.M)}
    numbers |= {name.upper(): int(value) for value, name in re.findall(r"^        (\d+) => Some\(CommandName::(\w+)\)", sources, re.M)}
    numbers |= {name.upper(): int(value) for value, name in re.findall(r"^        (\d+) => Ok\(Encoding::(\w+)\)", sources, re.M)}
    numbers |= {f"PHASE_{name.upper()}": int(value) for name, value in re.findall(r"^        Phase::(\w+)(?:\(\w+\))? => \((\d), ", sources, re.M)}
    if numbers.pop("VERSION", None) != int(header.version[1]):
        yield f"LASPIDRU_VERSION_NUMBER is {header.version[1]}, and VERSION of the crate isn't"
    if header.version[0] != version or int(header.version[1]) != sum(int(it) * of for it, of in zip(version.split("."), (10000, 100, 1))):
        yield f"the header has the version {header.version}, and the file VERSION has {version}"
    for name in sorted(numbers.keys() | header.constants.keys()):
        if numbers.get(name) != header.constants.get(name):
            yield f"LASPIDRU_{name} is {header.constants.get(name)}, and {numbers.get(name)} in the crate"
    texts = re.findall(r'^    "([A-Z0-9_]+): .*",$', sources, re.M)
    for number, name in enumerate(texts):
        if header.constants.get(name) != number:
            yield f"the text of the code {number} is that of {name}"
