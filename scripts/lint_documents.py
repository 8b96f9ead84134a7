"""What pages, documents and completions say, beside what the sources do. `lint.py` runs this.

The page's SYNOPSIS is the usage line of the program, and the page names each fault that the crates name; that of the
library has the numbers of all. The pages and the helpers have the options of `tables.py`. What is said of tools is read
by `lint_tools.py`. The pages' text has at most 80 columns, and where mandoc is installed, it has to find nothing in
them.

Lines of documents have at most 100 columns. Each link of the README, CONTRIBUTING and docs leads to a file, and to a
heading of it, but for those in comments. Each picture stands in one of these documents. Each file and folder that a
document names is there: a name without its folders is that of some file, and words like NAME and FILE stand for any. So
is each item that it names by its crate, as `pnm_flow::run`, each script that a source, a page or a script names, each
goal of the Makefile that one of all these names, and each edit that docs/PROMISES.md names. Each word of
docs/DEFINITIONS.md is defined in the file of its row, and each of its laws is one. `make help` has each goal. Figures
of the documents' tables are those of docs/figures.tsv, which `make bench` writes.
"""

import glob
import os
import re
import shutil
import subprocess

import tables
from places import ROOT, read

# what mandoc finds, but for pages of other packages that aren't installed
FINDING = re.compile(r": (STYLE|WARNING|ERROR|UNSUPP|FATAL|SYSERR|BADARG): (?!referenced manual not found)")


def all_sources():
    return glob.glob(os.path.join(ROOT, "crates/*/src/**/*.rt"), recursive=True)


def synopsis(page):
    """The words of the section SYNOPSIS, as they are printed."""
    words = []
    for line in page.split(".Sh SYNOPSIS\n")[1].split(".Sh ")[0].split("\n"):
        line = re.sub(r"\bFl (\S+)", r"-\1", line).replace(" Ar ", " ")
        if line.startswith(".Op "):
            words.append(f"[{line[4:]}]")
        elif line.startswith((".Nm ", ".Ar ")):
            words.append(line[4:])
    return " ".join(words)


def usage():
    found = re.findall(r'USAGE: &str = "([^"]*)"', read("crates/pnm_command_line/src/command_line.rt"))
    return found[0] if found else "no usage line"


def fault_names():
    """Each name that a fault is printed by: those with numbers, and those that fault_line.rt has in its texts."""
    own = re.findall(r'"([A-Z]\w+)"', read("crates/pnm_command_line/src/fault_line.rt"))
    return {it["printed"] for it in tables.codes() if it["number"] > 100} | set(own)


def faults_of_page():
    page = read("man/pnmpipe.1")
    found = []
    if synopsis(page) != usage():
        found.append(f"man/pnmpipe.1 has the synopsis {synopsis(page)!r}, the program {usage()!r}")
    if f"pnmpipe: usage: {usage()}" not in page:
        found.append("man/pnmpipe.1 has another usage line among its diagnostics")
    code, version = read("crates/pnm_command_line/src/command_line.rt"), read("VERSION").strip()
    for constant in (f'VERSION: &str = "{version}";', f'VERSION_LINE: &str = "pnmpipe {version}\\n";'):
        if constant not in code:
            found.append(f"command_line.rt has no {constant}, by the file VERSION")
    for path in glob.glob(os.path.join(ROOT, "helpers/pnmpipe-*")):
        if f'VERSION = "{read("VERSION").strip()}"' not in read(path):
            found.append(f"{os.path.basename(path)} has another version than VERSION")
    if not read("debian/changelog").startswith(f"pnmpipe ({version}) "):
        found.append("debian/changelog has another version than VERSION")
    told = page.split(".Sh DIAGNOSTICS\n")[1]
    for name in sorted(fault_names()):
        if not re.search(rf"^\.It .*\b{name}\b", told, re.M):
            found.append(f"man/pnmpipe.1 has no row for {name}")
    return found


def faults_of_numbers(reading=read):
    """The page of the library has the first and the last number of each class of faults."""
    page, numbers = reading("man/pnmpipe.3"), [it["number"] for it in tables.codes()]
    for part in range(1, 6):
        own = [it for it in numbers if it // 100 == part]
        if f".It {own[0]} to {own[-1]}\n" not in page:
            yield f"man/pnmpipe.3 doesn't tell of {own[0]} to {own[-1]}"


def options_of(page):
    """The long options that a page names."""
    return set(re.findall(r"(?:Fl|,) -([\w-]+)", "\n".join(re.findall(r"^\.It .*", page, re.M))))


def faults_of_options(reading=read):
    """Options of a program that its page lacks, or has beside these, and those that a helper doesn't name."""
    for program in tables.PROGRAMS:
        own = {name for those, rows in tables.PROGRAM_OPTIONS.items() if program in those for name, *_ in rows}
        own |= {"help", "version"}
        for option in sorted(own ^ options_of(reading(f"man/{program}.1"))):
            yield f"man/{program}.1 and tables.py don't both have --{option} of {program}"
        helper = reading(f"helpers/{program}") if program != "pnmpipe" else ""
        named = set(re.findall(r'"--([\w-]+)"', helper)) - own
        named |= {it for it in own if helper and not re.search(rf"--{it}\b", helper)} - {"help"}
        for option in sorted(named):
            yield f"helpers/{program} and tables.py don't both have --{option}"


OF_DOCS = ["README.md", "CONTRIBUTING.md"]
OF_DOCS += sorted(f"docs/{name}" for name in os.listdir(f"{ROOT}/docs") if name.endswith(".md"))
DOCUMENTS = [*OF_DOCS, "CHANGELOG.md", "library/python/README.md", "model/README.md"]
COLUMNS = 100
# a row of a table can't be broken, and the table of this document is to become a list
WIDE_TABLES = {"docs/DECISIONS.md"}


def anchors(text):
    """The names by which links lead to the headings of a document."""
    headings = re.findall(r"^#+ (.*)$", re.sub(r"^```.*?^```$", "", text, flags=re.M | re.S), re.M)
    return {re.sub(r"[^\w -]", "", heading.lower()).replace(" ", "-") for heading in headings}


def shown(text):
    """A document without its comments."""
    return re.sub(r"<!--.*?-->", "", text, flags=re.S)


def faults_of_pictures(names, texts):
    for name in sorted(names):
        if not any(f"pictures/{name}" in shown(text) for text in texts):
            yield f"docs/pictures/{name} stands in no document"


def faults_of_links(path, text):
    text = shown(text)
    named = dict(re.findall(r"^\[(\w+)\]: (\S+)$", text, re.M))
    for name in sorted(set(re.findall(r"!\[[^\]]*\]\[(\w+)\]", text)) ^ set(named)):
        yield f"{path} has the name {name} for a link without its use, or the other way round"
    for link, anchor in [*re.findall(r"\]\(([^)#:]*)#?([^)]*)\)", text), *((to, "") for to in named.values())]:
        to = os.path.normpath(os.path.join(os.path.dirname(path), link)) if link else path
        if ":" in anchor:
            continue
        if not os.path.exists(os.path.join(ROOT, to)):
            yield f"{path} leads to {link}, which isn't there"
        elif not re.match(r"docs/|[A-Z]+(\.md)?$", to):
            yield f"{path} leads to {link}, which the archive of the built program lacks"
        elif anchor and anchor not in anchors(read(to)):
            yield f"{path} leads to #{anchor} of {to}, which has no such heading"


def faults_of_edits():
    edits = {os.path.basename(path)[:-5] for path in glob.glob(os.path.join(ROOT, "crates/*/must-fail/*.edit"))}
    for block in re.findall(r"^- Edits: ((?:.+\n)(?:  .+\n)*)", read("docs/PROMISES.md"), re.M):
        for name in re.findall(r"`(\w+)`", block):
            if name not in edits:
                yield f"docs/PROMISES.md names the edit {name}, which no crate has"


FILE = re.compile(r"[\w.*/-]+\.(?:antt|c|edit|h|map|md|pml|py|rt|sh|tsv)")
IN_FOLDER = re.compile(r"(?:bench|completions|crates|docs|helpers|library|man|model|scripts)/[\w.*/-]*")
IN_CRATE = re.compile(r"pnm_\w+/[\w.*/-]*")
# what stands for any word in the name of a file
ANY = re.compile(r"NAME|FILE|FUNCTION|TYPETRAIT|TYPE|METHOD|CRATE|\*")
# files that a recipe makes, or its reader has
OF_READERS = {"new.sh", "old.sh"}
# what a source names of the project's own files
NAMED = re.compile(r"\b(?:bench|docs|helpers|library|man|model|scripts)/[\w/.-]*\.(?:c|h|md|py|sh|tsv|txt)\b")
LEFT_OUT = {".git", "__pycache__", "bin", "dist", "out"}


def all_files():
    """Each file and folder of the project, by its path."""
    for at, folders, files in os.walk(ROOT):
        folders[:] = [name for name in folders if name not in LEFT_OUT]
        yield from (os.path.normpath(os.path.join(os.path.relpath(at, ROOT), name)) for name in [*files, *folders])


def ends_of(paths):
    """Each path, and its ends, from a folder or the file alone on."""
    return {"/".join(parts[at:]) for parts in (path.split("/") for path in paths) for at in range(len(parts))}


def code_in(text):
    """The pieces of code of a document: blocks line by line, and what stands between two backquotes."""
    blocks = re.findall(r"^```.*\n((?:.*\n)*?)```$", text, re.M)
    text = re.sub(r"^```.*\n(?:.*\n)*?```$", "", text, flags=re.M)
    lines = re.findall(r"^ {4}(\S.*)$", text, re.M)
    spans = [" ".join(span.split()) for span in re.findall(r"`([^`]+)`", text)]
    return [*(line for block in blocks for line in block.split("\n")), *lines, *spans]


def is_there(name, ends):
    """Whether a name, with words that stand for any, is the end of a file's path, or of a folder's."""
    name = name.rstrip("/")
    form = re.compile(r"[\w.-]*".join(map(re.escape, ANY.split(name))))
    return name in ends or ANY.search(name) is not None and any(map(form.fullmatch, ends))


def names_in(piece):
    """The names of files and folders in a piece of code; in one of several words those that have a folder."""
    words = piece.split()
    for word in words:
        is_name = FILE.fullmatch(word) and ("/" in word or not words[1:])
        if is_name or IN_FOLDER.fullmatch(word) or IN_CRATE.fullmatch(word):
            if word not in OF_READERS and not LEFT_OUT & set(word.split("/")):
                yield word


def faults_of_names(path, text, ends):
    for name in sorted({name for piece in code_in(text) for name in names_in(piece)}):
        if not is_there(name, ends):
            yield f"{path} names {name}, which isn't there"


def is_defined(word, text):
    """Whether a file of specs defines the word."""
    return re.search(rf"^(?:(?:pub|abbrev|unfoldable|record|data) )+{word}(?: |$)", text, re.M) is not None


def faults_of_words(path, text, specs):
    """Words of tables that the file of their row doesn't define. Heads of sections name the crates."""
    for crates, section in re.findall(r"^## .*?((?:`\w+/specs`(?:, )?)+).*\n((?:(?!## ).*\n)*)", text, re.M):
        for words, file in re.findall(r"^\| (`[^|]+`) \|[^|]*\| `(\w+)` \|$", section, re.M):
            texts = [specs.get((crate, file), "") for crate in re.findall(r"`(\w+)/", crates)]
            for word in re.findall(r"\w+", words):
                if not any(is_defined(word, text) for text in texts):
                    yield f"{path} has {word} in {file}, which doesn't define it"


def faults_of_laws(path, text, specs, laws):
    """Laws that no function of the crate's `laws` states by a word of the file that is named behind them."""
    for crate, section in re.findall(r"^## .*?`(\w+)/specs`.*\n((?:(?!## ).*\n)*)", text, re.M):
        for paragraph in re.findall(r"^Laws: ((?:.+\n)+)", section, re.M):
            for names, file in re.findall(r"((?:`\w+`,?\s+)+)\(`(\w+)`\)", paragraph):
                for name in re.findall(r"\w+", names):
                    clauses = re.findall(rf"\bfn {name}\(\)((?:.|\n)*?)\n\{{", laws.get(crate, ""))
                    cited = re.findall(r"\w+", clauses[0]) if clauses else []
                    if not any(is_defined(word, specs.get((crate, file), "")) for word in cited):
                        yield f"{path} has the law {name} of {file}, which isn't there"


def faults_of_definitions():
    """What docs/DEFINITIONS.md names that isn't defined, or no law, where it says."""
    path, specs, laws = "docs/DEFINITIONS.md", {}, {}
    for file in glob.glob(os.path.join(ROOT, "crates/*/specs/*.antt")):
        crate, name = file.split(os.sep)[-3], os.path.basename(file)[: -len(".antt")]
        specs[crate, name] = read(file)
    for file in glob.glob(os.path.join(ROOT, "crates/*/src/laws.rt")):
        laws[file.split(os.sep)[-3]] = read(file)
    yield from faults_of_words(path, read(path), specs)
    yield from faults_of_laws(path, read(path), specs, laws)


ITEM = re.compile(r"(pnm_\w+|pnmpipe)(?:::\w+)*::(\w+)")


def faults_of_items(path, text):
    """Items of crates, as `pnm_flow::run`, that the document names and the crate doesn't have."""
    for piece in sorted(set(code_in(text))):
        found = ITEM.fullmatch(piece)
        if found:
            of_crate = glob.glob(os.path.join(ROOT, "crates", found[1], "src/**/*.rt"), recursive=True)
            code = "\n".join(map(read, of_crate))
            if not re.search(rf"\b(?:fn|struct|enum|trait|mod|const|type) {found[2]}\b", code):
                yield f"{path} names {piece}, which the crate doesn't have"


def goals():
    """The goals of the Makefile."""
    return {goal for line in re.findall(r"^([a-z][a-z -]*):(?!=)", read("Makefile"), re.M) for goal in line.split()}


def faults_of_goals(path, pieces, known):
    for goal in sorted({goal for piece in pieces for goal in re.findall(r"\bmake ([a-z][a-z-]*)", piece)}):
        if goal not in known:
            yield f"{path} names make {goal}, and the Makefile has no such goal"


# goals that other goals call
WITHIN = {"all", "built", "gate", "install-library", "toolchain"}


def faults_of_help(known):
    told = set(re.findall(r"make ([a-z-]+)", " ".join(re.findall(r"^## (.*)", read("Makefile"), re.M))))
    for goal in sorted(known - WITHIN - told):
        yield f"make help lacks make {goal}"


def faults_of_sources(files, ends, known):
    """Files and goals that sources, pages and scripts name."""
    of_folders = [path for path in files if path.startswith(("bench/", "helpers/", "man/", "model/", "scripts/"))]
    paths = ["Makefile", ".ci/run", *(path for path in of_folders if os.path.isfile(os.path.join(ROOT, path)))]
    for path in sorted(paths + [os.path.relpath(path, ROOT) for path in all_sources()]):
        text = read(path)
        # (the tests of lint have names that lead nowhere)
        for name in sorted(set(NAMED.findall(text))) if path != "scripts/tests/test_lint.py" else ():
            if not is_there(name, ends):
                yield f"{path} names {name}, which isn't there"
        yield from faults_of_goals(path, re.findall(r"`(make [^`]*)`", text), known)


def faults_of_documents():
    files, known = list(all_files()), goals()
    ends = ends_of(files)
    found = [*faults_of_edits(), *faults_of_help(known), *faults_of_sources(files, ends, known)]
    found += faults_of_definitions()
    found += faults_of_pictures(os.listdir(os.path.join(ROOT, "docs/pictures")), list(map(read, OF_DOCS)))
    for path in DOCUMENTS:
        text = read(path)
        for number, line in enumerate(text.split("\n"), 1):
            if len(line) > COLUMNS and not (path in WIDE_TABLES and line.startswith("|")):
                found.append(f"{path}:{number} has {len(line)} columns")
        if path in OF_DOCS:
            found += faults_of_links(path, text)
        found += faults_of_names(path, text, ends)
        found += faults_of_items(path, text)
        found += faults_of_goals(path, code_in(text), known)
    return found


PLAIN_IMAGES = {"PBM": "scan", "PPM": "color", "PGM": "gray16"}
# chains that PERFORMANCE names in its table of narrow rows
NAMED_CHAINS = {
    "three tools": "pamcut -left 8 -right -9 | pamflip -lr | pnminvert",
    "three tools, 75 cut off": "pamcut -left 75 -right -76 | pamflip -lr | pnminvert",
    "four tools": "pamcut -left 8 -right -9 | pamflip -lr | pnminvert | pamenlarge 2",
    "cut of four sides": "pamcut -left 8 -right -9 -top 8 -bottom -9",
    "three cuts of nothing": "pamcut | pamcut | pamcut",
}


def figures_of_performance():
    """Each image and tool of its tables beside Netpbm, of turned images, of narrow rows and of plain text, with the
    figures of the program and of Netpbm's tools."""
    text = read("docs/PERFORMANCE.md")
    for tool, *figures in re.findall(r"^\| `([^`]+)` \| (\S+) \| (\S+) \| \S+ \| (\S*) \| (\S*) \|", text, re.M):
        yield "scan", tool, figures[:2]
        if figures[2]:
            yield "color", tool, figures[2:]
    for image, way, *figures in re.findall(r"^\| ([\w, ]+) \| `(-\w+)` \| (\S+) \| (\S+) \|", text, re.M):
        yield image.replace("gray, 16 bits", "gray16"), f"pamflip {way}", figures
    chains = "|".join(map(re.escape, NAMED_CHAINS))
    narrow = rf"^\| ([\w ]+) \| (`.*?`|{chains}) \| (\S+) / \S+ \| (\S+) / \S+ \| [\d., ]+ \|$"
    for image, tools, *figures in re.findall(narrow, text, re.M):
        yield image, NAMED_CHAINS.get(tools) or " | ".join(re.findall("`([^`]+)`", tools)), figures
    for kind, *figures in re.findall(r"^\| (P[BGP]M), [^|]*\| (\S+) \| \S+ \| (\S+) \|", text, re.M):
        yield PLAIN_IMAGES[kind], "--plain pnminvert", figures


def faults_of_figures():
    """A figure that isn't that of the file that `make bench` writes, as far as its digits go."""
    lines = [line.split("\t") for line in read("docs/figures.tsv").splitlines() if not line.startswith("#")]
    measured = {(image, tool): figures for image, tool, *figures in lines}
    tables, found = list(figures_of_performance()), []
    for image, tool, figures in tables:
        for figure, seconds in zip(figures, measured.get((image, tool), ("nan", "nan"))):
            half = 0.5 * 10 ** -len(figure.partition(".")[2])
            if not abs(float(figure) - float(seconds)) <= half + 1e-9:
                told = f"{figure} for {tool} of {image}, and docs/figures.tsv {seconds}"
                found.append(f"docs/PERFORMANCE.md has {told}")
    return found if len(tables) > 40 else [f"docs/PERFORMANCE.md has {len(tables)} rows of figures"]


def wide_lines(path, page):
    """The lines of a page's text that mandoc finds too long, found without mandoc. A macro's line may be longer."""
    page = page.replace("\\\n", "\\")
    for line in page.split("\n"):
        if len(line) > 80 and not line.startswith("."):
            yield f"{path} has a line of text of {len(line)} columns, more than 80: {line[:40]}..."


def faults_of_mandoc():
    if shutil.which("mandoc") is None:
        print("lint: mandoc isn't installed, so the pages' form isn't looked at")
        return []
    pages = sorted(glob.glob(os.path.join(ROOT, "man/*.[13]")))
    lint = subprocess.run(["mandoc", "-Tlint", "-Wall", *pages], capture_output=True, text=True, check=False)
    return [line for line in (lint.stdout + lint.stderr).splitlines() if FINDING.search(line)]


def faults():
    """How many pages and documents there are, and what is wrong with them."""
    pages = glob.glob(os.path.join(ROOT, "man/*.[13]"))
    found = [*faults_of_page(), *faults_of_numbers(), *faults_of_options(), *faults_of_documents()]
    found += faults_of_figures()
    found += [fault for path in sorted(pages) for fault in wide_lines(os.path.relpath(path, ROOT), read(path))]
    return len(pages) + len(DOCUMENTS), found + faults_of_mandoc()
