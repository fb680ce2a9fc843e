"""What the fast checks read of the sources: functions with their clauses, definitions, and what a crate exports."""
import pathlib
import re
from dataclasses import dataclass, field

STRING_OR_COMMENT = re.compile(
    r'r(?P<marks>#*)".*?"(?P=marks)|"(?:\\.|[^"\\])*"|//[^\n]*|/\*.*?\*/|b?\'(?:\\[^\'\n]+|[^\'\\\n])\'', re.S)
FUNCTION = re.compile(r"\b(?P<public>pub(?P<within>\([a-z]+\))?\s+)?(?:const\s+|unsafe\s+)*fn\s+(?P<name>[a-z_]\w*)")
CLAUSE = re.compile(r"(?P<kind>requires|ensures)\*?\s*(?P<name>[a-z_]\w*)?\s*\{")
BLOCK = re.compile(r"^[ \t]*(?:pub(?:\([a-z]+\))?\s+)?(?P<word>impl|trait|mod)\b(?P<head>[^;{}]*)\{", re.M)
IMPORT = re.compile(r"ghost use Rattle\.(?P<crate>\w+)\.specs\.(?P<path>[\w.]+?)(?:\.\{(?P<names>[^}]*)\}| as (?P<alias>\w+))?;")
DEFINITION = re.compile(
    r"^(?P<indent> *)(?:(?:abbrev|unfoldable) +(?:pub +)?(?P<function>[^\s:]+) *:|(?:pub +)?(?:record|data) +(?P<type>[^\s:({]+))")
NAME = re.compile(r"(?<![\w.'])([A-Za-z_][\w']*)(?:\.([A-Za-z_][\w']*))?")


@dataclass
class Clause:
    kind: str  # requires or ensures
    name: str  # empty where the clause has none
    text: str
    line: int
    columns: int  # on one line, its leading blanks counted


@dataclass
class Function:
    crate: str
    file: pathlib.Path
    line: int
    name: str  # with the type or the trait that it belongs to
    is_public: bool
    is_test: bool
    lines: int  # of its body, between the braces
    clauses: list = field(default_factory=list)

    def names(self, kind):
        return [clause.name for clause in self.clauses if clause.kind == kind]


def masked(text):
    """The text with blanks in place of strings, characters and comments, each offset as it was."""
    return STRING_OR_COMMENT.sub(lambda found: re.sub(r"[^\n]", " ", found[0]), text)


def behind(text, at, opening, closing):
    """The offset behind the bracket that closes the one at `at`."""
    depth = 0
    for offset in range(at, len(text)):
        if text[offset] == opening:
            depth += 1
        elif text[offset] == closing and text[offset - 1:offset + 1] != "->":
            depth -= 1
            if depth == 0:
                return offset + 1
    return len(text)


def line_at(text, offset):
    return text.count("\n", 0, offset) + 1


def without_generics(head):
    head = head.strip()
    if head.startswith("<"):
        head = head[behind(head, 0, "<", ">"):].strip()
    return head.split(" where ")[0]


def owner_of(word, head):
    """The trait, and the type or trait, to which the functions of a block belong."""
    head = without_generics(head)
    parts = head.split(" for ") if word == "impl" else [head]
    names = [re.match(r"[&\s]*(?:\w+::)*(\w+)", part.strip()) for part in parts]
    names = [name[1] if name else "" for name in names]
    return (names[0], names[-1]) if word == "impl" and len(names) == 2 else ("", names[0])


def clauses_of(text, blank, at):
    """The clauses behind a parameter list that ends at `at`, and the offset of the body or of the semicolon."""
    clauses = []
    while at < len(blank):
        found = CLAUSE.match(blank, at)
        if found:
            end = behind(blank, found.end() - 1, "{", "}")
            start = blank.rfind("\n", 0, at) + 1
            words = " ".join(text[at:end].split())
            inside = " ".join(text[found.end():end - 1].split())
            clauses.append(Clause(found["kind"], found["name"] or "", inside, line_at(text, at), at - start + len(words)))
            at = end
        elif blank.startswith("ghost", at) and not blank[at - 1].isalnum():
            at = behind(blank, blank.index("{", at), "{", "}")
        elif blank[at] in "([":
            at = behind(blank, at, blank[at], ")" if blank[at] == "(" else "]")
        elif blank[at] in "{;":
            break
        else:
            at += 1
    return clauses, at


def exports_of(folder):
    """What the crate's root exports of each module: the name that it has there, and the one that others see."""
    root = folder / "src/lib.rt"
    if not root.exists():
        return {}
    text = masked(root.read_text())
    modules = {module: {} for module in re.findall(r"^\s*(?:pub )?mod (\w+)\s*;", text, re.M)}
    for path, names, single in re.findall(r"^pub use (?:crate::)?(\w+(?:::\w+)*?)::(?:\{([^}]*)\}|(\w+(?: as \w+)?));", text, re.M):
        parts = path.split("::")
        if parts[0] not in modules:
            continue
        for name in filter(None, (name.strip() for name in (names or single).split(","))):
            own, _, seen = name.partition(" as ")
            modules.setdefault(parts[-1], {})[own] = seen or own
    return modules


def test_modules(folder):
    """The modules that are built for tests alone."""
    found = set()
    for file in folder.glob("src/**/*.rt"):
        found.update(re.findall(r"#\[cfg\(test\)\]\s*(?:pub )?mod (\w+)", file.read_text()))
    return found


def functions_of(folder):
    """All functions of a crate, with their clauses."""
    exports, tests, functions = exports_of(folder), test_modules(folder), []
    for file in sorted(folder.glob("src/**/*.rt")):
        text = file.read_text()
        blank = masked(text)
        module = list(file.relative_to(folder / "src").with_suffix("").parts)
        exported = exports.get(module[-1], {})
        blocks = [(found.start(), behind(blank, found.end() - 1, "{", "}"), found["word"], found["head"]) for found in BLOCK.finditer(blank)]
        for found in FUNCTION.finditer(blank):
            at = found.end()
            if blank[at:at + 1] == "<":
                at = behind(blank, at, "<", ">")
            clauses, at = clauses_of(text, blank, behind(blank, blank.index("(", at), "(", ")"))
            end = behind(blank, at, "{", "}") if blank[at:at + 1] == "{" else at
            around = [block for block in blocks if block[0] < found.start() < block[1]]
            word, head = around[-1][2:] if around else ("", "")
            is_test = any(part in tests for part in module) or any(b[2] == "mod" and b[3].strip() in tests for b in around)
            of_trait, owner = owner_of(word, head) if word in ("impl", "trait") else ("", "")
            is_open = bool(found["public"]) and not found["within"]
            is_root = module == ["lib"]
            if owner:
                is_public = (is_root or owner in exported) and (is_open or word == "trait" or bool(of_trait and clauses))
            else:
                is_public = is_open and (is_root or found["name"] in exported)
            name = f"{exported.get(owner, owner)}::{found['name']}" if owner else exported.get(found["name"], found["name"])
            functions.append(Function(folder.name, file, line_at(text, found.start("name")), name, is_public and not is_test,
                                      is_test, max(line_at(text, end) - line_at(text, at) - 1, 0), clauses))
    return functions


def imports_of(file):
    """The names of definitions that a file's clauses may cite: each with its crate, its file and its own name."""
    names, modules = {}, {}
    for found in IMPORT.finditer(file.read_text()):
        path = found["path"].replace(".", "/")
        if path.startswith("declared"):
            continue
        if found["names"] is None:
            modules[found["alias"] or path.split("/")[-1]] = (found["crate"], path)
        for name in (found["names"] or "").split(","):
            own, _, alias = name.strip().partition(" as ")
            names[(alias or own).strip()] = (found["crate"], path, own.strip())
    return names, modules


def cited_by(clause, names, modules):
    """The definitions that a clause cites."""
    cited = set()
    for first, second in NAME.findall(re.sub(r'"[^"]*"', "", clause.text)):
        if first in names:
            cited.add(names[first])
        elif first in modules and second:
            cited.add((*modules[first], second))
    return cited


def definitions_of(file):
    """The definitions of a file of `specs/`: name, line, and whether a line in words stands above."""
    lines, found, mutual, record = file.read_text().splitlines(), [], False, -1
    for number, line in enumerate(lines):
        indent = len(line) - len(line.lstrip())
        if not line.strip() or line.lstrip().startswith("--"):
            continue
        if indent == 0:
            mutual = bool(re.match(r"(?:(?:abbrev|unfoldable) +)?mutual\b", line))
        if indent <= record:
            record = -1
        definition = DEFINITION.match(line)
        name = (definition["function"] or definition["type"]) if definition else None
        if not definition and mutual and record < 0:
            inner = re.match(r" +(?:pub +)?([^\s:()]+) :", line)
            name = inner[1] if inner else None
        if name and record < 0:
            above = lines[number - 1].strip() if number else ""
            found.append((name, number + 1, above.startswith("--") and not above.startswith("-- --")))
            if definition and definition["type"]:
                record = indent
    return found
