"""Where the functions of a source stand: which one holds a place of its text, and by which name a check calls it."""

import re
import typing

# comments, texts, characters and lifetimes: what may hold a brace that is none
HIDDEN = re.compile(
    r"""//[^\n]*|/\*.*?\*/|[bc]?r(#*)".*?"\1|[bc]?"(?:[^"\\]|\\.)*"|b?'(?:\\[^\n]|[^'\\\n])'""",
    re.S,
)
CLAUSE = re.compile(r"(requires|ensures)\b(?:\s*\*)?(?:\s+\w+)?\s*(?=\{)")
FUNCTION = re.compile(r"\bfn\s+(\w+)\s*(?=[<(])")
TYPE = re.compile(r"^(?:pub(?:\([a-z]+\))? )?(?:struct|enum) (\w+)", re.M)
BLOCK = re.compile(r"^(?:pub(?:\([a-z]+\))? )?(?:unsafe )?(impl|trait)\b", re.M)


class Function(typing.NamedTuple):
    """A function with a body: its name, the type and the trait of the block that it stands in, and where it stands."""

    name: str
    owner: str
    trait: str
    start: int
    body: int
    end: int


def blanked(text):
    """The text with blanks in the place of comments and texts, of the same length."""
    return HIDDEN.sub(lambda it: re.sub(r"[^\n]", " ", it[0]), text)


def closed(text, at):
    """Where the block ends that opens here."""
    depth = 0
    for it in re.compile(r"[{}]").finditer(text, at):
        depth += 1 if it[0] == "{" else -1
        if not depth:
            return it.end()
    return len(text)


def body_of(text, at):
    """Where a function's body begins and ends, from the end of its name; None where it has none."""
    depth = 0
    while at < len(text):
        clause = CLAUSE.match(text, at) if not depth else None
        if clause and not text[at - 1].isalnum() and text[at - 1] != "_":
            at = closed(text, clause.end())
            continue
        it = text[at]
        if it in "([":
            depth += 1
        elif it in ")]":
            depth -= 1
        elif it == "{" and not depth:
            return at, closed(text, at)
        elif it == "{":
            at = closed(text, at) - 1
        elif it == ";" and not depth:
            return None
        at += 1
    return None


def without_parameters(text):
    """A path without what stands in its angle brackets."""
    kept, depth = [], 0
    for at, it in enumerate(text):
        if it == "<":
            depth += 1
        elif it == ">" and text[at - 1 : at] != "-":
            depth -= 1
        elif not depth:
            kept.append(it)
    return "".join(kept)


def blocks(text):
    """The type, the trait and the place of each impl and trait."""
    for found in BLOCK.finditer(text):
        opens = text.find("{", found.start())
        header = without_parameters(text[found.end() : opens]).partition(" where ")[0]
        trait, word, owner = header.rpartition(" for ")
        if found[1] == "trait":
            trait, owner = "", header.partition(":")[0]
        # (a check names `&mut W` RefMut, and u8 U8)
        owner = re.sub(r"^&mut .*", "RefMut", owner.strip())
        owner = owner[:1].upper() + owner[1:]
        names = [it.strip().split("::")[-1].strip(" &") for it in (owner, trait if word else "")]
        yield re.match(r"\w*", names[0])[0], re.match(r"\w*", names[1])[0], opens, closed(text, opens)


def functions(text):
    """The functions of a source that have a body."""
    text = blanked(text)
    owners = list(blocks(text))
    for found in FUNCTION.finditer(text):
        body = body_of(text, found.end())
        if body:
            own = [it for it in owners if it[2] < found.start() < it[3]]
            owner, trait = own[-1][:2] if own else ("", "")
            yield Function(found[1], owner, trait, found.start(), *body)


def without_clauses(lines):
    """Lines of code without contracts, those of closures too: each ends before the line that begins by the brace of the
    body."""
    kept, is_clause = [], False
    for line in lines:
        is_clause = re.match(r" *(requires|ensures)\b", line) or is_clause and not line.strip().startswith("{")
        if not is_clause:
            kept.append(line)
    return kept


def begin_of(text, function):
    """Where a function begins, with its attributes and its docstring."""
    at = text.rfind("\n", 0, function.start) + 1
    while at:
        before = text.rfind("\n", 0, at - 1) + 1
        line = text[before:at].strip()
        if not line or line[-1] in "{};" and not line.startswith("//"):
            break
        at = before
    return at


def is_marked(text, function, attribute):
    """Whether an attribute of a function begins so."""
    return f"#[{attribute}" in text[begin_of(text, function) : function.start]


def emptied(text, names):
    """The text with bodies that never end in place of those of these functions."""
    made, at = [], 0
    for function in functions(text):
        if named(function) in names and function.body >= at:
            made += [text[at : function.body], "{ loop {} }"]
            at = function.end
    return "".join([*made, text[at:]])


def named(function):
    return function.owner, function.trait, function.name


def function_named(text, name):
    """The function of this name."""
    return next(it for it in functions(text) if named(it) == name)


def module_of(path):
    """The module of a source below src, as a check names it."""
    words = re.sub(r"\.rt$", "", path).split("/")[1:]
    return [it for it in words if it not in ("lib", "main", "mod")]


def modules_of_types(texts):
    """The module of each type that these sources declare, by its name."""
    sources = [(path, text) for path, text in texts.items() if path.endswith(".rt")]
    return {name: module_of(path) for path, text in sources for name in TYPE.findall(text)}


def is_name_of(symbol, crate, module, function):
    """Whether a name that a check has printed may be that of this function of a module, or of a closure in it."""
    module = "::".join([crate, *module, ""])
    if not symbol.startswith(module):
        return False
    words = symbol[len(module) :].split("::")
    if words[0] == "fn":
        return function.name in words[1:-1] and (not function.owner or words[1].startswith(function.owner))
    of_type = words[0] if len(words) == 2 else ""
    is_of_type = of_type.startswith(function.owner + function.trait) if function.trait else of_type == function.owner
    return len(words) <= 2 and words[-1] == function.name and is_of_type
