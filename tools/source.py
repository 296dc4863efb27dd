"""What the files of the crates hold, for the checks and for what prints pages from them: items, public functions with comment and contract,
definitions with what they name, and what the must-fail edits say."""
import re
from collections import namedtuple
from pathlib import Path

ROOT = Path(__file__).resolve().parent.parent
LIST, PROGRAMS = "crates.txt", "programs"
WING, CRATE = re.compile(r"# ([a-z]+_) +(\S.*)"), re.compile(r"(\w+)(?: +staticlib)? *:(.*)")
NOT_CODE = re.compile(r"""//.*|"(?:\\.|[^"\\])*"|'(?:\\.|[^'\\])'""")
ITEM = re.compile(r"^[ \t]*(pub )?(?:extern +)?(fn|struct|enum|const|mod|impl)\b(?:<[^>]*>)? (\w+)|[{};]", re.M)
CLAUSE = re.compile(r"\b(?:requires|ensures)\b|[{}]")
SUBJECT = re.compile(r"# (?:\w+::)?([^\s:]+): (\S[^`|]*)")
BLOCK = re.compile(r"^(?:(?:abbrev|unfoldable|pub) )*(?:(record|data) ([^\s:(){}]+)|([^\s:(){}]+) :(?= |$))(.*)", re.M)
USE = re.compile(r"^(?:ghost )?use Rattle\.(\w+)\.(?:specs|proofs)\.[^\s{]*?(?:\.\{([^}]*)\}| as ([^\s;]+));?$", re.M)
PLACES = {"now", "old", "new"}  # of a parameter: what stands before them is no definition

Item = namedtuple("Item", "full name path line public at")
Function = namedtuple("Function", "full name path line comment clauses text")
Definition = namedtuple("Definition", "path line is_type names comment")


def lines(page):
    """Numbered from 1, as a fault prints them."""
    return list(enumerate((ROOT / page).read_text("utf-8").split("\n"), 1))


WINGS = dict(m.groups() for _, text in lines(LIST) for m in [WING.fullmatch(text)] if m)
WINGS[PROGRAMS] = "named as users type them; they use any crate"
USES = {m.group(1): (line, m.group(2).split()) for line, text in lines(LIST) for m in [CRATE.match(text)] if m}


def listed():
    """The crates of crates.txt, in its order."""
    return [m.group(1) for _, text in lines(LIST) for m in [CRATE.match(text)] if m]


def main_file(crate):
    """The file whose first lines say what is in the crate."""
    main = f"crates/{crate}/src/main.rt"
    return main if (ROOT / main).is_file() else f"crates/{crate}/src/lib.rt"


def wing_of(crate):
    """What the name begins with; nothing where it is neither a crate of a wing nor a program."""
    wing = next((wing for wing in WINGS if crate.startswith(wing)), "")
    return wing or (PROGRAMS if main_file(crate).endswith("main.rt") else "")


def lowest_first(crates):
    """By what they use, then by name: crates.txt has them in another order, for the gate's speed. A ring, which rt refuses, ends too."""
    placed, rest = [], sorted(crates)
    while rest:
        placed.append(next((crate for crate in rest if not set(USES[crate][1]) & set(rest)), rest[0]))
        rest.remove(placed[-1])
    return placed


def files(crate, pattern):
    """Path from the top and text of each file, in one order on every machine."""
    return [(path.relative_to(ROOT), path.read_text("utf-8")) for path in sorted((ROOT / "crates" / crate).glob(pattern))]


def code(text):
    """The text with blanks for comments and for what stands in quotes, so that every place stays where it is."""
    return NOT_CODE.sub(lambda m: re.sub(r"[^\n]", " ", m[0]), text)


def items(crate):
    """What src/ holds. Braces say which impl or mod an item is in; of src/x.rt the names are crate::x::name."""
    for path, text in files(crate, "src/**/*.rt"):
        module = [crate] + [part for part in path.relative_to(f"crates/{crate}/src").with_suffix("").parts if part not in ("lib", "main")]
        scopes, opens, bare = [], None, code(text)
        for m in ITEM.finditer(bare):
            public, kind, name = m.groups()
            if kind:
                full = "::".join(module + [scope for scope in scopes if scope] + [name])
                yield Item(full, name, path, bare.count("\n", 0, m.start(3)) + 1, bool(public) and kind == "fn", m.end())
            elif m[0] == "{":
                scopes.append(opens)
            elif m[0] == "}":
                scopes = scopes[:-1]
            opens = name if kind in ("mod", "impl") else None


def clauses(text, start):
    """The clauses between a function's name and its body, each with what its braces hold; these are counted, since a clause may hold some."""
    found, depth, word, begins = [], 0, "", 0
    for m in CLAUSE.finditer(text, start):
        if m[0] == "{" and not depth and not word:
            break
        if m[0] == "{":
            begins, depth = begins if depth else m.end(), depth + 1
        elif m[0] == "}":
            depth -= 1
            found += [] if depth else [(word, " ".join(text[begins:m.start()].split()))]
            word = word if depth else ""
        elif not depth:
            word = m[0]
    return found


def above(text, line, mark):
    """The comment that stands right above a line, as one text; attributes may stand between them."""
    found, rows = [], [row.strip() for row in text.split("\n")[:line - 1]]
    while rows and rows[-1].endswith("]") and any(row.startswith("#[") for row in rows[-5:]):
        while not rows.pop().startswith("#["):
            pass
    while rows and rows[-1].startswith(mark):
        found.insert(0, rows.pop()[len(mark):].strip())
    return " ".join(found)


def head(text, mark):
    """The comment at the head of a file, as one text."""
    found = []
    for row in text.split("\n"):
        if not row.startswith(mark):
            break
        found.append(row[len(mark):].strip())
    return " ".join(found)


def functions(crate):
    """Every public function, methods too, with the text of its file."""
    texts = dict(files(crate, "src/**/*.rt"))
    for item in items(crate):
        if item.public:
            text = texts[item.path]
            yield Function(item.full, item.name, item.path, item.line, above(text, item.line, "//"), clauses(code(text), item.at), text)


def named(part, text):
    """The definitions that a part of a file names, as crate and name: `use` says whose they are, one by one or by a word for a file."""
    known, whole = {}, {}
    for crate, several, one in USE.findall(text):
        whole.update({one: crate} if one else {})
        known.update({item.split(" as ")[-1].strip(): (crate, item.split(" as ")[0].strip()) for item in several.split(",")})
    plain = re.sub("(?:--|//).*|^(?:ghost )?use .*", "", part, flags=re.M)
    words = [word.rstrip(".").partition(".") for word in re.findall(r"[^\s(){}\[\];,]+", plain)]
    alone = {known[first] for first, _, rest in words if first in known and rest.split(".")[0] not in PLACES}
    return alone | {(whole[first], rest) for first, _, rest in words if first in whole}


def definitions(crates):
    """Each definition of specs/ by crate and name: where it stands, whether it is a type, the definitions that it names, its comment."""
    found = {}
    for crate, path, text in [(crate, path, text) for crate in crates for path, text in files(crate, "specs/**/*.antt")]:
        blocks = list(BLOCK.finditer(text))
        own = ", ".join(m.group(2) or m.group(3) for m in blocks)
        for m, end in zip(blocks, [m.start() for m in blocks[1:]] + [len(text)]):
            name, part, line = m.group(2) or m.group(3), text[m.start():end], text.count("\n", 0, m.start()) + 1
            said = re.split(rf"\n{re.escape(name)} ", re.sub("--.*", "", part))[0]
            is_type = bool(m.group(1) or re.search(r"[:→] Type \d\s*$", said))
            names = named(part, f"{text}\nuse Rattle.{crate}.specs.Own.{{{own}}}")
            before = found.get((crate, name))  # two files of a crate may use one name
            if before:
                is_type, names = is_type or before.is_type, names | before.names
            found[crate, name] = Definition(path, line, is_type, names, above(text, line, "--"))
    return found


def reached(found, names):
    """These and all that they name, and so on."""
    seen, open_ = set(), [name for name in names if name in found]
    while open_:
        name = open_.pop()
        if name not in seen:
            seen.add(name)
            open_ += [other for other in found[name].names if other in found]
    return seen


def tried_words(crate):
    """What a crate's edits say, by subject: those that the gate tries first, then the others, each in the order of their names."""
    said = {}
    for folder in ("must-fail", "must-fail-more"):
        for _, text in files(crate, f"{folder}/*.edit"):
            m = SUBJECT.fullmatch(text.split("\n")[0])
            said.setdefault(m.group(1) if m else "", []).append(m.group(2).strip() if m else "")
    return said
