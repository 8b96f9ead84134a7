#!/usr/bin/env python3
"""Tests of lint: what is just within each limit of sources passes, one line or column more is told, and so is a file
that rt fmt would change, which stays as it is; which names, goals, links, words and laws of documents are looked up,
and told if they lead nowhere; words of contracts in the wrong folder; exported functions without an edit; that each
difference between a file and the table of tools is told, by the file and the tool; and files whose lines aren't those
that `make tables` writes. `make scripts` runs it."""

import os
import tempfile
import unittest
from unittest import mock

import support  # first, since it finds the others

import lint
import lint_documents
import lint_edits
import lint_sources
import lint_tools
import lint_words
import tables
import tool_examples
from chain_text import read_chain
from tool_table import MAXVAL, OPTIONS, TOOLS, Form

RT, SPEC, PROOF = "crates/a/src/lib.rt", "crates/a/specs/Lib.antt", "crates/a/proofs/Lib.antt"


def function(count, head="fn f() {", indent="", before=()):
    lines = [head, *before, *["    step();"] * count, "}"]
    return "\n".join(indent + line for line in lines) + "\n"


class Limits(unittest.TestCase):
    def told(self, path, text):
        return list(lint_sources.findings(path, text))

    def test_columns(self):
        for path, limit in ((RT, 120), (SPEC, 120), (PROOF, 160)):
            with self.subTest(path):
                self.assertEqual(self.told(path, "x" * limit + "\n"), [])
                self.assertEqual(len(self.told(path, "first\n" + "x" * (limit + 1) + "\n")), 1)
                self.assertIn(f"{path}:2 has {limit + 1} columns", self.told(path, "first\n" + "x" * (limit + 1))[0])

    def test_letters_are_counted_and_not_bytes(self):
        self.assertEqual(self.told(SPEC, "≡" * 120 + "\n"), [])

    def test_long_texts_pass(self):
        self.assertEqual(self.told(RT, f'    let text = "{"a" * 130}";\n'), [])
        self.assertEqual(len(self.told(RT, f'    let text = "{"a" * 20}"; {"b" * 120}\n')), 1)

    def test_lines_of_a_file(self):
        self.assertEqual(self.told(SPEC, "x\n" * 500), [])
        self.assertEqual(len(self.told(SPEC, "x\n" * 501)), 1)

    def test_bodies(self):
        heads = {
            "a line": ("fn f() {", ()),
            "parameters": ("pub fn f(", ("    a: u8,", ") -> u8 {")),
            "clauses": ("pub(crate) fn f() -> u8", ("    ensures result { ", "        x }", "{")),
        }
        for what, (head, before) in heads.items():
            for indent in ("", "    "):
                with self.subTest(what, indent=indent):
                    self.assertEqual(self.told(RT, function(40, head, indent, before)), [])
                    told = self.told(RT, "\n" + function(41, head, indent, before))
                    self.assertEqual(told, [f"{RT}:2: the body of f has 41 lines, more than 40"])

    def test_each_function_is_counted_for_itself(self):
        text = function(30) + "\n" + function(30) + "\nfn told();\n" + function(41)
        self.assertEqual(len(self.told(RT, text)), 1)

    def test_clauses_of_closures_do_not_count(self):
        closure = ["    let it = || -> u8", "        requires { a", "            b }"]
        closure += ["        ensures { c }", "    { d };"]
        self.assertEqual(self.told(RT, function(38, before=closure)), [])
        self.assertEqual(len(self.told(RT, function(39, before=closure))), 1)


@unittest.skipUnless(lint_sources.formatter(), "there is no toolchain")
class Layout(unittest.TestCase):
    def told(self, name, text):
        with tempfile.TemporaryDirectory() as folder:
            path = os.path.join(folder, name)
            with open(path, "w", encoding="utf-8") as file:
                file.write(text)
            told = lint_sources.not_laid_out(lint_sources.formatter(), [path])
            with open(path, encoding="utf-8") as file:
                self.assertEqual(file.read(), text)
        return [it.replace(path, name) for it in told]

    def test_what_rt_fmt_would_change(self):
        self.assertEqual(self.told("lib.rt", "fn f() {}\n"), [])
        self.assertEqual(self.told("lib.rt", "fn  f() {}\n"), ["lib.rt is not in the layout"])
        self.assertEqual(self.told("Lib.antt", "pub mod Rows\n"), [])
        self.assertEqual(self.told("Lib.antt", "pub  mod Rows\n"), ["Lib.antt is not in the layout"])

    def test_what_rt_fmt_cannot_read(self):
        self.assertNotEqual(self.told("lib.rt", "fn f( {\n"), [])


class Documents(unittest.TestCase):
    PATHS = ["scripts/lint.py", "crates/pnm_read/src/scan.rt", "crates/pnm_read/specs", "helpers", "proofs/ALaws.antt"]

    def setUp(self):
        self.ends = lint_documents.ends_of(self.PATHS)

    def names(self, text):
        return list(lint_documents.faults_of_names("page", text, self.ends))

    def test_names_that_are_there(self):
        for name in ("scripts/lint.py", "lint.py", "src/scan.rt", "helpers/", "pnm_read/specs", "crates/NAME/src/*.rt"):
            with self.subTest(name):
                self.assertEqual(self.names(f"before `{name}` behind"), [])
        self.assertEqual(self.names("`proofs/NAMELaws.antt`, `sh scripts/lint.py FOLDER`, `bin/proved`, `old.sh`"), [])

    def test_names_that_are_not(self):
        for name in ("scripts/line.py", "ant.py", "src/scan", "helpers/more", "pnm_read/proofs", "crates/NAME/x/*.rt"):
            with self.subTest(name):
                told = [] if name == "src/scan" else [f"page names {name}, which isn't there"]
                self.assertEqual(self.names(f"before `{name}` behind"), told)
        self.assertEqual(len(self.names("`sh scripts/gone.sh FOLDER`\n\n    sh scripts/left.sh\n")), 2)
        self.assertEqual(len(self.names("```sh\nsh scripts/gone.sh\n```\n")), 1)

    def test_items(self):
        text = "`pnm_flow::run`, `pnm_flow::runs`, `pnm_none::run`, `a::b`"
        told = list(lint_documents.faults_of_items("page", text))
        self.assertEqual([it.split()[2] for it in told], ["pnm_flow::runs,", "pnm_none::run,"])

    def test_words(self):
        text = "abbrev pub cut : ℕ\npub record IsRow (n : ℕ) : Type 0 where\n-- pub abbrev said : ℕ\n"
        specs = {("pnm_a", "Rows"): text}
        page = "## Rows (`pnm_a/specs`)\n\n| `cut`, `IsRow` | what | `Rows` |\n"
        self.assertEqual(list(lint_documents.faults_of_words("page", page, specs)), [])
        for word, file in (("cu", "Rows"), ("said", "Rows"), ("n", "Rows"), ("cut", "Cuts")):
            told = list(lint_documents.faults_of_words("page", f"{page}| `{word}` | what | `{file}` |\n", specs))
            self.assertEqual(told, [f"page has {word} in {file}, which doesn't define it"])
        other = page.replace("pnm_a", "pnm_b")
        self.assertEqual(len(list(lint_documents.faults_of_words("page", other, specs))), 2)
        both = page.replace("`pnm_a/specs`", "`pnm_b/specs`, `pnm_a/specs`")
        self.assertEqual(list(lint_documents.faults_of_words("page", both, specs)), [])

    def test_laws(self):
        specs = {("pnm_a", "Laws"): "abbrev pub RowsHold : Type 0\n", ("pnm_a", "More"): ""}
        laws = {"pnm_a": "pub fn rows_hold()\n    ensures { RowsHold }\n{}\n"}
        page = "## Rows (`pnm_a/specs`)\n\nLaws: `rows_hold`\n(`Laws`).\n"
        self.assertEqual(list(lint_documents.faults_of_laws("page", page, specs, laws)), [])
        for right, wrong in (("`Laws`", "`More`"), ("rows_hold", "rows"), ("pnm_a", "pnm_b")):
            told = list(lint_documents.faults_of_laws("page", page.replace(right, wrong), specs, laws))
            self.assertEqual(len(told), 1)

    def test_code_goes_on_in_the_next_line(self):
        self.assertEqual(lint_documents.code_in("so `make\nscripts` does\n"), ["make scripts"])

    def test_goals(self):
        pieces = ["make lint", "make", "make soak-x SECONDS=n"]
        told = list(lint_documents.faults_of_goals("page", pieces, {"lint", "soak"}))
        self.assertEqual(told, ["page names make soak-x, and the Makefile has no such goal"])
        self.assertLess({"all", "near", "pass", "dist", "deb", "lint", "install-library"}, lint_documents.goals())

    def test_help(self):
        known = lint_documents.goals()
        self.assertEqual(list(lint_documents.faults_of_help(known)), [])
        self.assertEqual(list(lint_documents.faults_of_help(known | {"more"})), ["make help lacks make more"])

    def test_wide_lines_of_a_page(self):
        page = f"{'a' * 80}\n.It {'b' * 90} \\\n{'c' * 90}\n"
        self.assertEqual(list(lint_documents.wide_lines("man/page.1", page)), [])
        told = list(lint_documents.wide_lines("man/page.1", page + "d" * 81))
        self.assertEqual(told, [f"man/page.1 has a line of text of 81 columns, more than 80: {'d' * 40}..."])

    def test_links(self):
        for link in ("docs/PROOFS.md", "docs/PROOFS.md#answer-a-goal", "#coming-from-netpbm", "https://example.org/#a"):
            with self.subTest(link):
                self.assertEqual(list(lint_documents.faults_of_links("README.md", f"[x]({link})")), [])
        named = "![card][card]\n\n[card]: docs/pictures/card.png\n"
        self.assertEqual(list(lint_documents.faults_of_links("README.md", named)), [])
        self.assertEqual(len(list(lint_documents.faults_of_links("README.md", named.replace("d.png", "t.png")))), 1)
        self.assertEqual(len(list(lint_documents.faults_of_links("README.md", "![card][card]"))), 1)
        for link in ("docs/NONE.md", "docs/PROOFS.md#none", "scripts/lint.py"):
            with self.subTest(link):
                self.assertEqual(len(list(lint_documents.faults_of_links("README.md", f"[x]({link})"))), 1)
                hidden = f"a <!-- b\n[x]({link}) --> c"
                self.assertEqual(list(lint_documents.faults_of_links("README.md", hidden)), [])

    def test_pictures(self):
        texts = ["![a](docs/pictures/a.png) <!-- ![b](docs/pictures/b.png)\n-->", "[c]: pictures/c.png"]
        told = list(lint_documents.faults_of_pictures(["a.png", "b.png", "c.png"], texts))
        self.assertEqual(told, ["docs/pictures/b.png stands in no document"])


class Words(unittest.TestCase):
    """A crate with an exported function, one that isn't, a trait's member and a method."""

    TREE = {
        "src/lib.rt": "mod held;\nmod rows;\n\npub use rows::{Reads, Row, width};\n",
        "src/rows.rt": """ghost use Rattle.a.specs.Rows.{IsWidth, IsRead, IsTaken, IsOther};

pub trait Reads {
    ghost left: { IsRead };
}

impl Row {
    pub fn take(&self)
        ensures { IsTaken self.now }
    {}
}

impl Other {
    pub fn take(&self)
        ensures { IsOther self.now }
    {}
}

pub fn width() -> u32
    ensures { IsWidth result }
{
    1
}
""",
        "src/held.rt": """ghost use Rattle.a.specs.Internal.Held.{IsHeld};

pub fn hold() -> u32
    ensures { IsHeld result }
{
    1
}
""",
        "specs/Rows.antt": """abbrev pub IsWidth : ℕ → Type 0
IsWidth width = IsSmall width

abbrev pub IsSmall : ℕ → Type 0
IsSmall width = width ≡ 1

abbrev pub IsRead : ℕ → Type 0
abbrev pub IsTaken : ℕ → Type 0
""",
        "specs/Internal/Held.antt": """use Rattle.a.specs.Rows.{IsSmall}

abbrev pub IsHeld : ℕ → Type 0
IsHeld width = IsSmall width
""",
    }

    def told(self, **changed):
        with tempfile.TemporaryDirectory() as root:
            for path, text in {**self.TREE, **changed}.items():
                path = os.path.join(root, "crates/a", path)
                os.makedirs(os.path.dirname(path), exist_ok=True)
                with open(path, "w", encoding="utf-8") as file:
                    file.write(text)
            return list(lint_words.faults(root))

    def test_each_in_its_folder(self):
        self.assertEqual(self.told(), [])

    def test_a_word_that_no_promise_reaches(self):
        more = self.TREE["specs/Rows.antt"] + "abbrev pub IsOther : ℕ → Type 0\n"
        told = "crates/a/specs/Rows.antt: IsOther: no promise reaches it, so it belongs in Internal"
        self.assertEqual(self.told(**{"specs/Rows.antt": more}), [told])

    def test_a_word_of_a_promise_that_stands_apart(self):
        lib = self.TREE["src/lib.rt"] + "pub use held::hold;\n"
        told = "crates/a/specs/Internal/Held.antt: IsHeld: a promise reaches it"
        self.assertEqual(self.told(**{"src/lib.rt": lib}), [told])


    def told_of_edits(self, edit):
        with tempfile.TemporaryDirectory() as root:
            tree = {path: text for path, text in self.TREE.items() if path.startswith("src/")}
            for path, text in {**tree, "must-fail/turned.edit": edit}.items():
                path = os.path.join(root, "crates/a", path)
                os.makedirs(os.path.dirname(path), exist_ok=True)
                with open(path, "w", encoding="utf-8") as file:
                    file.write(text)
            return list(lint_edits.faults(root))

    def test_edits_of_exported_functions(self):
        told = "crates/a/src/rows.rt: no edit in must-fail changes "
        turned = "file: src/rows.rt\nold:     1\nnew:     2\n"
        self.assertEqual(self.told_of_edits(turned), [told + "Row::take"])
        elsewhere = "file: src/held.rt\nold:     1\nnew:     2\n"
        self.assertEqual(self.told_of_edits(elsewhere), [told + "Row::take", told + "width"])

    def test_lines_of_edits_are_read(self):
        turned = "file: src/rows.rt\nold:     1\nnew:     2\n# new:     { 1 }\n#new:     1\n"
        told = "crates/a/must-fail/turned.edit: a line that isn't read: #new:     1"
        self.assertEqual(self.told_of_edits(turned)[0], told)


class Tools(unittest.TestCase):
    """Differences that are planted: a file, a text of it and what stands in its place, and the line that is told."""

    def told(self, path, *pairs):
        def read(name):
            text = lint_documents.read(name)
            for old, new in pairs if name == path else ():
                self.assertIn(old, text)
                text = text.replace(old, new, 1)
            return text

        of_programs = [*lint_documents.faults_of_options(read), *lint_documents.faults_of_numbers(read)]
        return [*lint_tools.faults(read), *tables.faults(read), *of_programs]

    def test_no_difference(self):
        self.assertEqual(self.told(None), [])

    def test_written(self):
        for path, names in tables.FILES.items():
            for found in tables.WRITTEN.finditer(lint_documents.read(path)):
                with self.subTest(path, name=found[3]):
                    wanted = [f"{path} hasn't what `make tables` writes: {', '.join(names)}"]
                    last = found[0].split("\n")[-2]
                    self.assertEqual(self.told(path, (f"{last}\n{found[6]}", f"{last} x\n{found[6]}")), wanted)
                    self.assertEqual(self.told(path, (found[2], f"# {found[3]}\n")), wanted)

    def test_planted(self):
        sources, values, program, page = lint_tools.NAMES, lint_tools.VALUES, lint_tools.PROGRAM, lint_tools.PAGE
        for path, old, new, tool in (
            (sources, 'b"xscale"', 'b"zscale"', "pamenlarge"),
            (sources, "Way(FlipWay::LeftRight)", "Way(FlipWay::TopBottom)", "pamflip"),
            (sources, "Arguments::numbers(2, ", "Arguments::numbers(3, ", "pnmtile"),
            (sources, "least: 0", "least: 1", "pamchannel"),
            (sources, '.or(spelled(name, b"pnmtile", ToolName::Tile))', "", "pnmtile"),
            (values, "ToolOption::Top => set_edge(", "ToolOption::Top => set_extent(", "pamcut"),
            (values, "TupleType if word.len() <=", "TupleType if word.len() <", "pamchannel"),
            (lint_tools.LIMITS[0], "65_535", "65_536", "pamdepth"),
            (page, "Fl yscale Ar N", "Ar N", "pamenlarge"),
            (page, "Oo Fl top Ar N Oc ", "", "pamcut"),
            (page, "Fl xscale Ar N", "Fl zscale Ar N", "pamenlarge"),
            (page, ".It Ic pnmtile", ".It Ic pnmtiles", "pnmtiles"),
            (lint_tools.README, "`-tb`, ", "", "pamflip"),
            (lint_tools.README, "| `pnmtile` ", "| `pnmtiles` ", "pnmtile"),
            (program, "pamdepth MAXVAL", "pamdeep MAXVAL", "pamdepth"),
            (program, "[-yscale N]", "", "pamenlarge"),
            (program, "pnmtile WIDTH", "pnmtile", "pnmtile"),
            (program, "PLANE...", "PLANE", "pamchannel"),
        ):
            with self.subTest(path, new=new):
                lines = [line for line in self.told(path, (old, new)) if f" of {tool}, and {lint_tools.TABLE} " in line]
                self.assertEqual(len(lines), 1)
                teller = sources if path in (values, *lint_tools.LIMITS) else path
                self.assertTrue(lines[0].startswith(f"{teller} has "))
        has = f", which {lint_tools.TABLE} has"
        for path, old, new, wanted in (
            ("scripts/pictures.py", "pnmtile 144", "pnmtiles 144", "has nothing of pnmtile"),
            ("library/python/README.md", "`pamcut`, ", "", "lists tools without pamcut"),
            ("crates/pnm_tools/src/lib.rt", "pamdepth(1), ", "", "lists tools without pamdepth"),
            (page, "1 to 65,535", "1 to 65,536", f"doesn't tell 1 to 65,535 of pamdepth{has}"),
            (page, "1 to 256 numbers", "some", f"doesn't tell 1 to 256 of pamchannel{has}"),
            (page, "\\-16,777,216 to", "0 to", f"doesn't tell -16,777,216 to 16,777,216 of pamcut{has}"),
            (lint_tools.HELP, "WIDTH HEIGHT", "W H", f"has another text than {program}"),
            ("man/pnmpipe-files.1", " , Fl -names0 Ar LIST", "", "don't both have --names0 of pnmpipe-files"),
            ("man/pnmpipe-translate.1", "Fl f , -file", "Fl f", "don't both have --file of pnmpipe-translate"),
            ("helpers/pnmpipe-split", '"--start"', '"--first"', "don't both have --first"),
            ("man/pnmpipe.3", ".It 201 to 216", ".It 201 to 215", "doesn't tell of 201 to 216"),
        ):
            with self.subTest(path, new=new):
                lines = [line for line in self.told(path, (old, new)) if line.endswith(wanted)]
                self.assertEqual(len(lines), 1)
                self.assertTrue(lines[0].startswith(path))

    def test_examples(self):
        """Each tool has some; each is one stage, of the tool that it stands for."""
        for name, stages in tool_examples.EXAMPLES.items():
            self.assertNotEqual(stages, [])
            self.assertTrue(all(read_chain(f"{name} {it}") for it in TOOLS[name].offered))
            self.assertEqual([[it.name for it in read_chain(stage)] for stage in stages], [[name]] * len(stages))

    def test_untried(self):
        told = tool_examples.untried(["pnminvert | pamdepth 9"])
        self.assertEqual([it.split()[0] for it in told], [it for it in TOOLS if it not in ("pnminvert", "pamdepth")])
        self.assertEqual(tool_examples.untried(tool_examples.STAGES), [])

    def test_an_eighth_tool(self):
        """A tool that the table has and nothing else: each file is told once, and lists at each of their lines."""
        form = {"pamgreater": Form(1, 1, MAXVAL, offered=(7,))}
        with mock.patch.dict(TOOLS, form), mock.patch.dict(OPTIONS, {"pamgreater": ([], [])}):
            told = self.told(None)
        paths = {line.split()[0].split(":")[0] for line in told}
        self.assertLess({lint_tools.PAGE, lint_tools.PROGRAM, lint_tools.README, lint_tools.NAMES}, paths)
        self.assertLess({*lint_tools.OF_EACH, tables.BASH, tables.ZSH, tables.FISH, "helpers/netpbm-shim"}, paths)


class Scripts(unittest.TestCase):
    def test_what_is_read(self):
        pythons, shells = lint.scripts()
        self.assertLess({"helpers/pnmpipe-files", "scripts/lint.py", "bench/bench.py", "model/check.py"}, set(pythons))
        self.assertLess({"helpers/netpbm-shim", "scripts/package.sh", ".ci/run"}, set(shells))

    def test_what_cannot_be_read(self):
        with tempfile.NamedTemporaryFile("w", suffix=".py") as file:
            file.write("x = 1\nif x\n")
            file.flush()
            told = list(lint.faults_in_python(file.name))
            self.assertTrue(told[0].startswith(f"{file.name}:2: "), told)
            self.assertEqual(len(lint.faults_by(["sh", "-c", "echo wrong; exit 1"], [])), 1)
            self.assertEqual(lint.faults_by(["sh", "-c", "echo well"], []), [])


if __name__ == "__main__":
    unittest.main()
