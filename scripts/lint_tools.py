"""What the project says of the tools, beside the table of their names, options and arguments, tool_table.py of helpers.
`lint.py` runs this. Each difference is a line that names the file and the tool.

The sources of pnm_chain have the same tools. The help text, the page and the README give each tool the options that the
table has; the help text has as many arguments, and the page tells the range of each value. The help text of tests is
the program's. A list of tools names all of them, wherever it stands, and so does each file that shows each tool.
"""

import os
import re

import lint_documents
from places import ROOT
from tool_table import ALL_WAYS, OLD_NAMES, OPTIONS, TOOLS, TYPE

TABLE = "helpers/tool_table.py"
NAMES, VALUES = "crates/pnm_chain/src/options.rt", "crates/pnm_chain/src/settings.rt"
LIMITS = ["crates/pnm_image/src/limits.rt", "crates/pnm_tools/src/limits.rt"]
PROGRAM = "crates/pnm_command_line/src/command_line.rt"
HELP = "crates/pnmpipe/src/tests/help.rt"
PAGE, README = "man/pnmpipe.1", "README.md"

# files that show each tool: cases, whose answers are stored beside them, recipes, and pictures, which the README shows
OF_EACH = ["docs/RECIPES.md", "crates/pnm_flow_cases/stdin", "crates/pnm_tools_cases/stdin"]
OF_EACH += ["crates/pnmpipe/commands/images", "scripts/pictures.py"]

# as many arguments as a tool's line has dots for
MANY = 3

# at least so many tools one after another are a list of all, by the names of the table or by older ones
LIST = 6
BETWEEN = r"(?:\W|\b(?:and|or|Xr|1|pnmpipe-\w+)\b)+"
# folders of texts in which lists are looked for
FOLDERS = "bench|completions|debian|docs|helpers|library|man|scripts"
OF_LISTS = re.compile(rf"Makefile|README\.md|(?:{FOLDERS})/.*|crates/.*\.rt")


def differences(path, told, wanted):
    """Tools of which a file says another thing than a function of the table wants."""
    for name in {**TOOLS, **told}:
        of_file, of_table = told.get(name, "nothing"), wanted(name) if name in TOOLS else "nothing"
        if of_file != of_table:
            yield f"{path} has {of_file} of {name}, and {TABLE} {of_table}"


# --- the sources


def arguments_of(text, limits):
    """The arguments of each variant, by the arms of `arguments`: the fewest, the most, and what each is."""

    def number(written):
        return eval(written.replace(" as usize", ""), {}, limits)  # pylint: disable=eval-used

    body = text.split("fn arguments(self)")[1].split("\n    }\n")[0]
    for variants, made in re.findall(r"((?:ToolName::\w+[ |]+)+)=> ((?:(?!ToolName).|\n)*)", body):
        fields = dict(re.findall(r"(\w+): ([^,:]+),", made))
        base = re.search(r"numbers\(([^,]+), ([^)]+)\)", made)
        if base:
            fields = {"fewest": base[1], "most": base[1], "least": "1", "greatest": base[2], **fields}
        fewest, most, least, greatest = (number(fields[it]) for it in ("fewest", "most", "least", "greatest"))
        taken = (fewest, most, (least, greatest) if most else None)
        yield from ((variant, taken) for variant in re.findall(r"ToolName::(\w+)", variants))


def values_of(text, most):
    """What each option takes, by the arms of `set`; one that isn't there takes no value."""
    kinds = {"edge": (-most, most), "extent": (1, most)}
    values = {option: kinds[kind] for option, kind in re.findall(r"ToolOption::(\w+) => set_(\w+)\(", text)}
    return {**values, **dict.fromkeys(re.findall(r"ToolOption::(\w+) if word.len\(\) <= \w+ =>", text), TYPE)}


def in_sources(read):
    """What the sources have of each tool: its arguments, what its options take, and those that mean the same."""
    text, found = read(NAMES), re.findall(r"^pub const (\w+): \w+ = ([\d_]+);", "".join(map(read, LIMITS)), re.M)
    limits = {name: int(number) for name, number in found}
    arguments, values = dict(arguments_of(text, limits)), values_of(read(VALUES), limits["MAX_EXTENT"])
    spelled = {}
    for function, body in re.findall(r"\bfn (\w+)\((?:.|\n)*?\n *\{\n((?:.|\n)*?)\n *\}\n", text):
        pairs = re.findall(r'spelled\(name, b"(\w+)", Tool(?:Name|Option)::(\w+(?:\([\w:]+\))?)', body)
        spelled[function] = dict(pairs)
    arms = dict(re.findall(r"^ +ToolName::(\w+) => (.*_option\(name\).*),$", text, re.M))
    for name, variant in spelled["named"].items():
        meanings = {}
        for function in re.findall(r"(\w+)\(name\)", arms.get(variant, "")):
            meanings.update(spelled[function])
        taken = {option: values.get(it) for option, it in meanings.items()}
        yield name, (*arguments[variant], taken, together(meanings))


def together(meanings):
    """The options that mean the same."""
    return sorted(sorted(it for it in meanings if meanings[it] == meaning) for meaning in set(meanings.values()))


# --- the help text, the page and the README


def in_help(text):
    """The options of each tool in the help text, and how many arguments it has there."""
    lines = text.split("Tools:\n")[1].split("\n\n")[0]
    for name, first, others in re.findall(r"^  (\w+)(.*)((?:\n   .*)*)", lines, re.M):
        words = re.findall(r"\b[A-Z]+\b(?:\.\.\.)?", re.sub(r"\[.*?\]", "", first))
        count = MANY if any(word.endswith("...") for word in words) else len(words)
        yield name, (sorted(re.findall(r"-(\w+)", first + others)), count)


def meant(tool):
    """What each option means: of those that mean the same the first."""
    return {it: ALL_WAYS.get(it, it) for it in TOOLS[tool].options} if tool in TOOLS else {}


def in_page(text):
    """The options of each tool in the page, and what it says of the tool."""
    options, told = {}, {}
    lines = text.split(".Sh TOOLS\n")[1].split("\n.El\n")[0].replace("\\\n", "").replace("\\-", "-")
    for part in lines.split("\n.It Ic ")[1:]:
        head, *others = part.split("\n")
        name = head.split(" ")[0]
        options[name] = sorted(options.get(name, []) + re.findall(r"Fl (\w+)", head))
        told[name] = " ".join([told.get(name, ""), *others])
    return options, told


def faults_of_ranges(told):
    """The page tells the range of each argument and value, and how many arguments there are if they may be many."""
    for name, form in TOOLS.items():
        ranges = [it for it in (*form.options.values(), form.argument) if isinstance(it, tuple)]
        for least, most in dict.fromkeys(ranges + [(form.least, form.most)] * (form.most > 2)):
            if f"{least:,} to {most:,}" not in told.get(name, ""):
                yield f"{PAGE} doesn't tell {least:,} to {most:,} of {name}, which {TABLE} has"


def in_readme(text):
    """The options of each tool in the README: of those that mean the same it may have one."""
    told, name = {}, None
    for first, rest in re.findall(r"^\| (`\w+`|) ?\| (.*?) \|", text.split("\n## Usage\n")[1], re.M):
        name = first.strip("`") or name
        meaning = meant(name)
        told.setdefault(name, set()).update(meaning.get(it, it) for it in re.findall(r"`-(\w+)", rest))
    return told


def faults_of_lists(path, text):
    """Lists of tools that don't name each."""
    if sum(name in text for name in TOOLS) < LIST:
        return
    any_name = rf"\b(?:{'|'.join([*OPTIONS, *OLD_NAMES])})\b"
    for found in re.finditer(rf"{any_name}(?:{BETWEEN}{any_name})+", text):
        lacking = [name for name in TOOLS if name not in re.findall(r"\w+", found[0])]
        if lacking and len(TOOLS) - len(lacking) >= LIST:
            line = text.count("\n", 0, found.start()) + 1
            yield f"{path}:{line} lists tools without {', '.join(lacking)}"


def faults(read=lint_documents.read):
    """Each difference, where a function reads the project's files."""
    own = re.search(r'AFTER_HELP: &str = "([^"]*)"', read(PROGRAM))[1]
    found = [*differences(NAMES, dict(in_sources(read)), lambda name: (*TOOLS[name][:4], together(meant(name))))]
    found += differences(PROGRAM, dict(in_help(own)), lambda name: (sorted(meant(name)), min(TOOLS[name].most, MANY)))
    options, told = in_page(read(PAGE))
    found += [*differences(PAGE, options, lambda name: sorted(meant(name))), *faults_of_ranges(told)]
    found += differences(README, in_readme(read(README)), lambda name: set(meant(name).values()))
    if f'\n\n{own}\n";\n' not in read(HELP):
        found.append(f"{HELP} has another text than {PROGRAM}")
    for path in OF_EACH:
        text = read(path)
        found += [f"{path} has nothing of {name}" for name in TOOLS if not re.search(rf"\b{name}\b", text)]
    for path in sorted(filter(OF_LISTS.fullmatch, lint_documents.all_files())):
        if os.path.isfile(os.path.join(ROOT, path)) and not path.endswith((".png", ".ppm", ".tsv")):
            found += faults_of_lists(path, read(path))
    return found
