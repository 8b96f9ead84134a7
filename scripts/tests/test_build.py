#!/usr/bin/env python3
"""Tests of build.py, change.py, gate_crates.py and gate_library.py, over a small repository and stand-ins for rt and
rattle that prove nothing.

The stand-ins note each call and leave what the toolchain leaves. `make scripts` runs this.
"""

import os
import shutil
import signal
import subprocess
import sys
import time
import types
import unittest
import unittest.mock

from support import SCRIPTS, Folder

import build
import crates

CRATES = """low:
left: low thiserror
right: low
longest: left
top: longest right
pnmpipe: top right clap
pnm_c staticlib: right
shared_by_tests: low
top_tests: top shared_by_tests
right_tests: right
right_cases: right low
"""

# FAULT is the crate, or rt's command, or `link`, that fails; SECONDS how long a proof takes, but of the lowest crate
RT = r'''#!/usr/bin/env python3
import os, sys
sys.path.insert(0, os.environ["SCRIPTS"])
import crates

words, name, root = sys.argv[1:], os.path.basename(os.getcwd()), os.path.dirname(os.path.dirname(os.getcwd()))
fault = os.environ.get("FAULT")


def note(line):
    with open(os.environ["NOTES"], "a") as notes:
        notes.write(line + "\n")


def build(crate):
    out = f"{root}/crates/{crate}/out/rlib"
    if not os.path.exists(out):
        note(f"proves {crate} in the {'checkout' if root == os.environ['CHECKOUT'] else 'copy'}")
        os.makedirs(out)


TOLD = {"doc": os.path.join(os.environ["KIT"], "START-HERE.md"), "version": "the version of a stand-in"}
if words[0] in ("doc", "version", "help"):
    print(TOLD.get(words[0], os.environ.get("HELP")))
    sys.exit(0)
note(" ".join(words) + (f" ({name})" if os.path.basename(os.path.dirname(os.getcwd())) == "crates" else ""))
if words[0] == "run":
    known = crates.read_crates()
    for crate in known:
        if crate in crates.below(known, name):
            build(crate)
    print(sys.stdin.read().upper(), end="")
if words[0] == "ci":
    note("ci sees " + " ".join(sorted(os.listdir("crates"))))
    edited = [it for it in sorted(os.listdir("crates")) if os.path.isdir(f"crates/{it}/must-fail")]
    note(" ".join(["ci has edits of", *edited]))
    read = [at for at, _, files in os.walk(".") if any(it.endswith((".rt", ".antt")) for it in files)]
    if not all(at.startswith("./crates/") for at in read):
        sys.exit("no check reads a source")
    for crate in os.listdir("crates"):
        os.makedirs(f"crates/{crate}/out/rlib/{crate}.rlib")
sys.exit(1 if fault == words[0] else 0)
'''

RATTLE = r'''#!/usr/bin/env python3
import os, sys, time

words = sys.argv[1:]
given = {flag: [words[at + 1] for at, it in enumerate(words) if it == flag] for flag in words if flag.startswith("-")}
name, made = given["--crate-name"][0], given["-o"][0]
libraries = dict(it.split("=") for it in given["--extern"])
with open(os.environ["NOTES"], "a") as notes:
    notes.write(f"{name} over {' '.join(libraries)}, {given['--jobs'][0]} jobs\n")
for library, folder in libraries.items():
    if not os.path.isdir(folder):
        print(f"there is no {library} at {folder}")
        sys.exit(2)
if not os.path.isfile(words[words.index("--crate-name") + 2]) or words[0] != "build":
    print("there is no such crate")
    sys.exit(2)
time.sleep(float(os.environ.get("SECONDS", "0")) if name != "low" else 0)
if os.environ.get("FAULT") == name:
    print("a goal is open")
    sys.exit(1)
if "--statements" in words:
    os.makedirs(f"{made}/interface/lang/src", exist_ok=True)
    open(f"{made}/interface/lang/src/lib.rt", "w").close()
else:
    with open(made, "w") as code:
        code.write("#!/bin/sh\ntr a-z A-Z\n")
'''

# what makes the C library of the static one, as far as it has to leave a file
TOOL = r'''#!/bin/sh
tool=${0##*/}
echo "$tool" >> "$NOTES"
[ "$FAULT" != "$tool" ] || exit 1
case $tool in
    ar) echo archive > "$2" ;;
    cc | ld) while [ "$1" != -o ]; do shift; done && echo "$tool" > "$2" ;;
esac
'''
TOOLS = ("cc", "ld", "objcopy", "ar", "strip")

# about how many lines the crates of this repository had once, in hundreds: what is begun first goes by these
HUNDREDS = {
    **{"pnm_streams": 1, "pnm_samples": 16, "pnm_image": 10, "pnm_read": 28, "pnm_tools": 9, "pnm_write": 17},
    **{"pnm_row_tools": 18, "pnm_repeat_tools": 12, "pnm_transpose": 13, "pnm_filters": 7, "pnm_chain": 8},
    **{"pnm_stages": 11, "pnm_lanes": 12, "pnm_serial": 6, "pnm_io_loop": 6, "pnm_flow": 11},
    **{"pnm_command_line": 5, "pnmpipe": 1, "pnm_memory": 5, "pnm_c": 1},
}

# notes which crates' edits are tried, and over which statements
EDITS = r'''import os, sys
with open(os.environ["NOTES"], "a") as notes:
    names = " ".join(sorted(sys.argv[3:])) or "all"
    notes.write(f"edits of {names} over {' '.join(sorted(os.listdir(sys.argv[2])))}\n")
sys.exit(os.environ.get("FAULT") == "edits")
'''

LINK = r'''#!/bin/sh
[ "$FAULT" != link ] || exit 1
while [ "$1" != -o ]; do shift; done
cp "$3" "$2" && chmod 755 "$2"
'''


class Repository(Folder):
    def setUp(self):
        super().setUp()
        self.folder = os.path.realpath(self.folder)
        self.root = self.path("root")
        own = ("build", "change", "crates", "gate_crates", "gate_library", "library", "places")
        self.write("root/scripts/edits.py", EDITS)
        for file in own:
            shutil.copy(os.path.join(SCRIPTS, f"{file}.py"), self.path("root/scripts"))
        self.write("root/crates.txt", CRATES)
        self.write("root/HANDLES", "Handles allowed: none.\n")
        for line in CRATES.splitlines():
            name = line.partition(":")[0].split()[0]
            # (the lines say which chain is the longest)
            file = "main" if name in ("pnmpipe", "right_cases") else "lib"
            self.write(f"root/crates/{name}/src/{file}.rt", "#[test]\n" * (9 if name.endswith("_tests") else 2))
            self.write(f"root/crates/{name}/must-fail/one.edit", "")
        for name in ("pnmpipe", "right_cases"):
            self.write(f"root/crates/{name}/stdin", "given")
            self.write(f"root/crates/{name}/stdout", "GIVEN")
        for file in ("pnmpipe.c", "pnmpipe.h", "pnmpipe.map"):
            self.write(f"root/library/{file}", "    pnmpipe_run;\n")
        self.write("root/VERSION", "1.2.3\n")
        tools = [(f"bin/{tool}", TOOL) for tool in TOOLS]
        for file, text in (("bin/rt", RT), ("kit/bin/rattle", RATTLE), ("kit/bin/rattle-link", LINK), *tools):
            self.write(file, text, 0o755)
        for library in ("std", "thiserror", "clap"):
            os.makedirs(self.path(f"kit/rlibs/{library}.rlib"))
        os.mkdir(self.path("tmp"))

    def write(self, name, text, mode=0o644):
        return super().write(name, text.encode(), mode)

    def notes(self):
        """What the stand-in has noted since the last call."""
        if not os.path.exists(self.path("notes")):
            return []
        with open(self.path("notes"), encoding="utf-8") as file:
            lines = file.read().splitlines()
        os.remove(self.path("notes"))
        return lines

    def start(self, *words, **variables):
        path = f"{self.path('bin')}:{os.path.dirname(sys.executable)}:{os.environ['PATH']}"
        own = {"PATH": path, "TMPDIR": self.path("tmp"), "NOTES": self.path("notes"), "CHECKOUT": self.root}
        own["KIT"] = self.path("kit")
        environment = {**os.environ, **own, "SCRIPTS": self.path("root/scripts"), "PYTHONDONTWRITEBYTECODE": "1"}
        environment.pop("RT_JOBS", None)
        return subprocess.Popen(
            [sys.executable, self.path(f"root/scripts/{words[0]}"), *words[1:]],
            env={**environment, **variables},
            stdout=subprocess.PIPE,
            stderr=subprocess.STDOUT,
            text=True,
        )

    def run_script(self, *words, **variables):
        """The status and what was printed; no copy is left."""
        child = self.start(*words, **variables)
        printed, _ = child.communicate(timeout=60)
        self.assertEqual(os.listdir(self.path("tmp")), [], "copies are left")
        return child.returncode, printed


class Building(Repository):
    def proved(self):
        """The crates that were checked since the last call, in their order."""
        return [line.split()[0] for line in self.notes()]

    def test_each_crate_is_proved_once_over_what_it_names(self):
        status, printed = self.run_script("build.py", RT_JOBS="4", SECONDS="0.3")
        self.assertEqual(status, 0, printed)
        notes = self.notes()
        self.assertEqual(sorted(it.split()[0] for it in notes), ["left", "longest", "low", "pnmpipe", "right", "top"])
        self.assertEqual(notes[0], "low over std, 4 jobs")
        self.assertEqual(notes[-1], "pnmpipe over std top right clap, 4 jobs")
        with open(self.path("root/bin/pnmpipe"), encoding="utf-8") as program:
            self.assertEqual(program.read(), "#!/bin/sh\ntr a-z A-Z\n")
        self.assertIn("6 of 6: pnmpipe", printed)
        status, printed = self.run_script("build.py", RT_JOBS="4")
        self.assertEqual((status, self.proved()), (0, []))
        self.assertIn("6 were proved before", printed)

    def test_what_was_changed_is_proved_again_with_what_stands_on_it(self):
        self.assertEqual(self.run_script("build.py", RT_JOBS="2")[0], 0)
        self.proved()
        self.write("root/crates/right/specs/Lib.antt", "another specification")
        self.assertEqual(self.run_script("build.py", RT_JOBS="2")[0], 0)
        self.assertEqual(self.proved(), ["right", "top", "pnmpipe"])
        self.write("root/crates.txt", CRATES.replace("top: longest right", "top: longest right thiserror"))
        self.assertEqual(self.run_script("build.py", RT_JOBS="2")[0], 0)
        self.assertEqual(self.proved(), ["top", "pnmpipe"])
        os.remove(self.path("root/bin/proved/longest.tar"))
        self.assertEqual(self.run_script("build.py", RT_JOBS="2")[0], 0)
        self.assertEqual(self.proved(), ["longest", "top", "pnmpipe"])

    def test_what_was_changed_while_it_was_proved_is_proved_again(self):
        child = self.start("build.py", RT_JOBS="1", SECONDS="0.5")
        self.wait_for_note("right over")
        self.write("root/crates/right/src/lib.rt", "other code")
        printed, _ = child.communicate(timeout=60)
        self.assertEqual(child.returncode, 0, printed)
        self.proved()
        self.assertEqual(self.run_script("build.py", RT_JOBS="1")[0], 0)
        self.assertEqual(self.proved(), ["right", "top", "pnmpipe"])

    def test_a_second_build_waits(self):
        first = self.start("build.py", RT_JOBS="1", SECONDS="0.3")
        self.wait_for_note("low over")
        status, printed = self.run_script("build.py", RT_JOBS="1")
        self.assertEqual((status, first.wait(10)), (0, 0), printed)
        self.assertIn("waits until another build", printed)
        self.assertIn("6 were proved before", printed)
        first.communicate()

    def begun(self, proved, at_work=(), number=4, most=4, targets=(build.PROGRAM,)):
        """What a build of crates as this repository has begins once these are proved, on how many processors, beside
        others."""
        toolchain = types.SimpleNamespace(sum=lambda name, sums: f"no sum of {name}")
        self.ways = {}
        lines = unittest.mock.patch.object(build, "lines_of", HUNDREDS.get)
        with lines, unittest.mock.patch.dict(os.environ, {"RT_JOBS": str(number)}):
            this = build.Build(toolchain, most, self.folder, targets)
            this.done = set(proved)
            this.runs = [types.SimpleNamespace(name=name, jobs=jobs) for name, jobs in at_work]
            this.left = [name for name in this.crates if name not in {*proved, *(name for name, _ in at_work)}]
            found = []

            def begin(name, jobs, way):
                this.left.remove(name)
                this.runs.append(types.SimpleNamespace(name=name, jobs=jobs))
                found.append((name, jobs))
                self.ways[name] = way

            this.begin = begin
            this.fill()
            return found

    def test_a_crate_of_a_short_chain_takes_no_processor_from_the_longest(self):
        # (beside a crate as long as that the chain from pnm_streams on is short)
        with unittest.mock.patch.dict(HUNDREDS, {"pnm_samples": 100}):
            self.assertEqual(self.begun([]), [("pnm_samples", 4)])
            self.assertEqual(self.begun([], [("pnm_samples", 3)]), [("pnm_streams", 1)])

    def test_long_chains_have_two_processors_where_there_are_four(self):
        low = ["pnm_streams", "pnm_samples", "pnm_image"]
        self.assertEqual(self.begun(low), [("pnm_read", 2), ("pnm_tools", 1), ("pnm_write", 1)])
        self.assertEqual(self.begun(low, number=2), [("pnm_read", 1), ("pnm_tools", 1)])
        self.assertEqual(self.begun(low, number=1), [("pnm_read", 1)])
        self.assertEqual(self.begun(low, most=1), [("pnm_read", 4)])
        low += ["pnm_tools", "pnm_read", "pnm_write"]
        beside = [("pnm_stages", 1), ("pnm_transpose", 1), ("pnm_repeat_tools", 1)]
        self.assertEqual(self.begun(low), [("pnm_row_tools", 2), *beside])
        # (from here on two chains are as long as each other)
        low += ["pnm_row_tools", "pnm_repeat_tools", "pnm_transpose", "pnm_chain", "pnm_stages"]
        self.assertEqual(self.begun(low), [("pnm_lanes", 2), ("pnm_serial", 2), ("pnm_filters", 1)])
        self.assertEqual((self.ways["pnm_lanes"], self.ways["pnm_serial"]), (0, 0))

    def test_shorter_chains_give_way_to_the_longest(self):
        low = ["pnm_streams", "pnm_samples", "pnm_image"]
        self.begun(low)
        self.assertEqual(self.ways["pnm_read"], 0)
        self.assertLess(4, self.ways["pnm_tools"])
        self.assertLess(self.ways["pnm_tools"], self.ways["pnm_write"])
        self.assertLess(self.ways["pnm_write"], 16)

    def test_the_longest_chain_has_what_others_leave(self):
        last = ["pnm_flow", "pnm_command_line", "pnmpipe"]
        low = [name for name in build.read_crates() if name not in last]
        self.assertEqual(self.begun(low), [("pnm_flow", 3), ("pnm_command_line", 1)])

    def test_the_library_takes_no_longer_than_the_program_beside_it(self):
        low = [name for name in build.read_crates() if name not in ("pnmpipe", "pnm_memory", "pnm_c")]
        made = self.begun(low, targets=(build.PROGRAM, build.LIBRARY))
        self.assertCountEqual(made, [("pnm_memory", 3), ("pnmpipe", 2)])
        self.assertEqual(set(self.ways.values()), {0})

    def test_the_library_is_proved_over_what_the_program_left(self):
        self.assertEqual(self.run_script("build.py", RT_JOBS="2")[0], 0)
        self.notes()
        status, printed = self.run_script("build.py", "library", RT_JOBS="2")
        self.assertEqual(status, 0, printed)
        self.assertEqual(self.notes(), ["pnm_c over std right, 2 jobs", "cc", "ld", "objcopy", "ar", "cc", "strip"])
        self.assertIn("bin/pnmpipe and bin/libpnmpipe.so.1 are built", printed)
        left = set(os.listdir(self.path("root/bin")))
        self.assertLess({"libpnmpipe.a", "libpnmpipe.so.1", "pnmpipe.h", "pnmpipe"}, left)
        self.assertEqual(self.run_script("build.py", "library", RT_JOBS="2")[0], 0)
        self.assertNotIn("pnm_c", self.proved())
        for fault in ("ld", "strip", "pnm_c"):
            self.write("root/crates/pnm_c/src/lib.rt", fault)
            self.assertEqual(self.run_script("build.py", "library", RT_JOBS="2", FAULT=fault)[0], 1, fault)
        self.assertEqual(set(os.listdir(self.path("root/bin"))), left)
        self.assertEqual(self.run_script("build.py", "lib")[0], 1)

    def test_the_library_is_proved_beside_the_program(self):
        status, printed = self.run_script("build.py", "library", RT_JOBS="4", SECONDS="1")
        self.assertEqual(status, 0, printed)
        proved = [line.split()[0] for line in self.notes() if " over " in line]
        self.assertCountEqual(proved, ["left", "longest", "low", "pnm_c", "pnmpipe", "right", "top"])
        self.assertLess(proved.index("pnm_c"), proved.index("pnmpipe"))
        self.assertLess({"libpnmpipe.so.1", "pnmpipe"}, set(os.listdir(self.path("root/bin"))))
        self.assertEqual(self.run_script("build.py", RT_JOBS="4")[0], 0)
        self.assertEqual(self.proved(), [])

    def test_one_processor_proves_one_at_a_time(self):
        status, printed = self.run_script("build.py", RT_JOBS="1")
        self.assertEqual(status, 0, printed)
        self.assertEqual([it for it in self.notes() if not it.endswith(", 1 jobs")], [])

    def test_faults_are_told_and_end_the_build(self):
        for fault in ("right", "longest"):
            # (what is proved beside the fault goes by the machine)
            shutil.rmtree(self.path("root/bin"), ignore_errors=True)
            status, printed = self.run_script("build.py", RT_JOBS="2", FAULT=fault, SECONDS="0.2")
            self.assertEqual(status, 1)
            self.assertIn("a goal is open\n", printed)
            self.assertIn(f"{fault} FAILED, status 1", printed)
        self.assertNotIn("top", self.proved())
        self.assertEqual(self.run_script("build.py", RT_JOBS="2", FAULT="link")[0], 1)
        self.write("root/crates/pnmpipe/stdout", "other")
        status, printed = self.run_script("build.py", RT_JOBS="2")
        self.assertEqual((status, "bin/stored-run isn't" in printed), (1, True), printed)
        self.assertFalse(os.path.exists(self.path("root/bin/pnmpipe")))

    def test_signals_end_what_was_started(self):
        for number in (signal.SIGINT, signal.SIGTERM):
            child = self.start("build.py", RT_JOBS="2", SECONDS="30")
            self.wait_for_note("left over")
            child.send_signal(number)
            printed, _ = child.communicate(timeout=10)
            self.assertEqual(child.returncode, 128 + number, printed)
            at_work = subprocess.run(["pgrep", "-f", self.path("kit/bin/rattle")], stdout=subprocess.PIPE)
            self.assertEqual(at_work.stdout, b"")

    def test_a_signal_while_a_command_starts_ends_it(self):
        runs, start = [], subprocess.Popen

        def started(*words, **how):
            # the signal comes as soon as the process is there
            child = start(*words, **how)
            os.kill(os.getpid(), signal.SIGTERM)
            return child

        for number in crates.SIGNALS:
            self.addCleanup(signal.signal, number, signal.getsignal(number))
        crates.end_by_signals()
        self.addCleanup(lambda: [run.stop() for run in runs])
        os.makedirs(self.path("root/bin/log"))
        places = unittest.mock.patch.object(build, "ROOT", self.root)
        with places, unittest.mock.patch.object(subprocess, "Popen", started), self.assertRaises(crates.Ended):
            build.Run(runs, "low", ["sleep", "30"])
        self.assertEqual(len(runs), 1)
        runs[0].stop()
        self.assertEqual(runs[0].child.returncode, -signal.SIGKILL)

    def wait_for_note(self, text):
        # (a note that comes between a look and a removal would be lost)
        for _ in range(200):
            if os.path.exists(self.path("notes")):
                with open(self.path("notes"), encoding="utf-8") as file:
                    if text in file.read():
                        self.notes()
                        return
            time.sleep(0.05)
        self.fail(f"there is no note of {text}")


class Changing(Repository):
    def test_near_goes_from_the_layout_to_what_stands_above(self):
        status, printed = self.run_script("change.py", "near", "longest", "right")
        self.assertEqual(status, 0, printed)
        calls = ["fmt (right)", "fmt (longest)", "check (right)", "check (longest)", "edits of longest right over "]
        calls += ["try --test --seconds 600 (right_tests)", "try --test --seconds 600 (longest)"]
        calls += ["run (right_cases)", "proves low in the checkout", "proves right in the checkout"]
        calls += [f"check ({name})" for name in ("right_tests", "right_cases", "top", "pnmpipe", "pnm_c", "top_tests")]
        self.assertCountEqual(self.notes(), calls)

    def test_near_runs_the_programs_that_name_a_crate_without_tests_of_its_name(self):
        status, printed = self.run_script("change.py", "near", "low")
        self.assertEqual(status, 0, printed)
        self.assertIn("run (right_cases)", self.notes())

    def test_near_wants_what_is_stored(self):
        for stored in ("GIVE", "GIVEN\n", "given"):
            self.write("root/crates/right_cases/stdout", stored)
            status, printed = self.run_script("change.py", "near", "right")
            self.assertEqual((status, "right_cases FAILED: line" in printed), (1, True), printed)

    def test_near_runs_the_stored_commands(self):
        self.write("root/scripts/tests/test_commands.py", "import sys; sys.exit(len(sys.argv) != 3)")
        status, printed = self.run_script("change.py", "near", "pnmpipe")
        self.assertEqual(status, 0, printed)
        self.assertIn("run -- pnminvert (pnmpipe)", self.notes())
        self.write("root/scripts/tests/test_commands.py", "import sys; sys.exit(1)")
        status, printed = self.run_script("change.py", "near", "pnmpipe")
        self.assertEqual((status, "a stored command FAILED" in printed), (1, True), printed)

    def test_near_ends_at_a_fault(self):
        for fault, calls in [("fmt", 1), ("check", 2), ("edits", 3), ("try", 4)]:
            self.assertEqual(self.run_script("change.py", "near", "top", FAULT=fault)[0], 1)
            self.assertEqual(len(self.notes()), calls)

    def test_pass_has_the_edits_of_what_was_changed_alone(self):
        status, printed = self.run_script("change.py", "pass", "right")
        self.assertEqual(status, 0, printed)
        copied = "right right_cases right_tests"
        libraries = " ".join(f"{it}.rlib" for it in f"low {copied}".split())
        edits = f"edits of {copied} over {libraries}"
        self.assertEqual(self.notes(), ["ci", f"ci sees low {copied}", "ci has edits of", edits])
        self.assertEqual(self.run_script("change.py", "pass", "pnmpipe", FAULT="ci")[0], 1)

    def test_names_have_to_be_crates(self):
        for words in (["near"], ["pass", "lows"], ["far", "low"]):
            self.assertEqual(self.run_script("change.py", *words)[0], 2)


# what is noted of the tests of the library: what they are given, and what the archive is
TESTS = r'''import os, sys
with open(os.environ["NOTES"], "a") as notes:
    given = dict(zip(sys.argv[1::2], sys.argv[2::2]))
    archive = given.pop("--archive", None)
    notes.write(f"tests of {open(archive).readline().strip() if archive else None}, {given}\n")
sys.exit(3 if os.environ.get("FAULT") == "tests" else 0)
'''


class Gate(Repository):
    def setUp(self):
        super().setUp()
        self.write("root/scripts/tests/test_library.py", TESTS)
        crates = sorted(line.partition(":")[0].split()[0] for line in CRATES.splitlines())
        self.calls = ["ci", f"ci sees {' '.join(crates)}", "ci has edits of"]
        self.calls += [f"edits of {' '.join(crates)} over {' '.join(f'{it}.rlib' for it in crates)}"]
        self.calls += [f"pnm_c over std right, {min(4, len(os.sched_getaffinity(0)))} jobs"]
        program = {"--program": os.path.join(self.root, "crates/pnmpipe/out/pnmpipe")}
        self.calls += [f"tests of #!/bin/sh, {program}"]

    def test_edits_are_tried_and_the_library_is_built_over_what_is_proved(self):
        status, printed = self.run_script("gate_crates.py")
        self.assertEqual((status, self.notes()), (0, self.calls), printed)

    def test_a_toolchain_that_keeps_what_passed_takes_nothing_over(self):
        self.assertEqual(self.run_script("gate_crates.py", HELP="ci [--anew]")[0], 0)
        self.assertEqual(self.notes(), ["ci --anew", *self.calls[1:]])

    def test_each_edit_is_tried_alone_too(self):
        self.assertEqual(self.run_script("gate_crates.py", "--alone")[0], 0)
        self.assertEqual(self.notes()[2], self.calls[1].replace("ci sees", "ci has edits of"))

    def test_faults_end_it(self):
        for fault, calls in (("ci", 3), ("edits", 4), ("pnm_c", 5), ("tests", 6)):
            status, printed = self.run_script("gate_crates.py", FAULT=fault)
            self.assertEqual((status, len(self.notes())), (3 if fault == "tests" else 1, calls), printed)

    def test_without_a_compiler_nothing_is_built(self):
        self.assertEqual(self.run_script("gate_crates.py", CC="no-compiler")[0], 0)
        self.assertEqual(self.notes(), [*self.calls[:4], "tests of None, {}"])


if __name__ == "__main__":
    unittest.main()
