#!/usr/bin/env python3
"""Tests of functions.py: a function's sum changes with its code, and not with a comment, a contract or the layout.
`make scripts` runs it."""

import os
import sys
import tempfile
import unittest

sys.dont_write_bytecode = True

import functions

SOURCE = """//! An end of a ring.

impl Sender {
    /// Whether there is room.
    pub fn has_room(&mut self) -> bool
        ensures ring { SameSender self.old self.new }
        ensures room { IsTrue result
            → 0 < known_free self.new }
    {
        self.ring.cached_slots() > self.kept_free
    }

    #[inline(never)]
    pub(crate) fn wait<R: Wait>(&mut self, rt: &R) {
        self.wake_receiver();
        self.waker.sleep(rt);
    }
}

impl<A, F: FnOnce() -> A> Task for Call<F> {
    fn run(self) -> A {
        let it = move || -> A
            requires { F.pre self.0 }
        { (self.0)() };
        it()
    }
}

impl<'a, R: Wait> Task
    for Dealer<'a, R> {
    fn run(self) -> DealDone {
        deal(self.rt, "//")
    }
}

trait Task {
    fn run(self) -> Self::Output
        requires { can_run self };
}

fn nothing() {}

fn wait(
    rt: &u8,
) -> bool {
    true
}
"""
FILE = "crates/a/src/a.rt"


class Names(unittest.TestCase):
    def test_each_function_has_its_code(self):
        self.assertEqual(
            dict(functions.functions(SOURCE)),
            {
                "Sender::has_room": "pub fn has_room(&mut self)->bool{self.ring.cached_slots()>self.kept_free}",
                "Sender::wait": "pub(crate)fn wait<R:Wait>(&mut self,rt:&R)"
                "{self.wake_receiver();self.waker.sleep(rt);}",
                "Call::run": "fn run(self)->A{let it=move||->A{(self.0)()};it()}",
                "Dealer::run": 'fn run(self)->DealDone{deal(self.rt,"//")}',
                "nothing": "fn nothing(){}",
                "wait": "fn wait(rt:&u8)->bool{true}",
            },
        )


class Changes(unittest.TestCase):
    def told(self, before, after):
        """What is found where the list was made for this source, and this part of it has changed."""
        self.assertIn(before, SOURCE)
        with tempfile.TemporaryDirectory() as root:
            path = os.path.join(root, FILE)
            os.makedirs(os.path.dirname(path))
            self.write(path, SOURCE)
            listed, _ = functions.compare(f"# all\n{FILE} Sender::has_room 0\n{FILE} Sender::wait 0\n", root)
            self.assertEqual(functions.compare(listed, root), (listed, []))
            self.write(path, SOURCE.replace(before, after, 1))
            anew, found = functions.compare(listed, root)
            if found and "gone" not in found[0]:
                self.assertNotEqual(anew, listed)
                self.assertEqual(functions.compare(anew, root), (anew, []))
            return found

    def write(self, path, text):
        with open(path, "w", encoding="utf-8") as file:
            file.write(text)

    def test_code(self):
        changed = [f"Sender::wait of {FILE} has changed"]
        self.assertEqual(self.told("        self.wake_receiver();\n", ""), changed)
        self.assertEqual(self.told("        self.wake_receiver();", "        // self.wake_receiver();"), changed)
        self.assertEqual(self.told("rt: &R) {", "rt: &R, other: bool) {"), changed)
        room = self.told("> self.kept_free", ">= self.kept_free")
        self.assertEqual(room, [f"Sender::has_room of {FILE} has changed"])

    def test_a_function_that_is_gone(self):
        gone = [f"Sender::wait of {FILE} is gone"]
        self.assertEqual(self.told("fn wait<R: Wait>", "fn sleep<R: Wait>"), gone)
        self.assertEqual(self.told("    #[inline(never)]\n", "}\n\nimpl Other {\n"), gone)

    def test_a_file_that_is_gone(self):
        with tempfile.TemporaryDirectory() as root:
            _, found = functions.compare(f"{FILE} Sender::wait 0\n", root)
            self.assertEqual(found, [f"Sender::wait of {FILE} is gone"])

    def test_a_heading_that_names_no_model(self):
        self.assertEqual(functions.models_gone("# all\n# rings.pml: ends\n# none.pml: all\n"), ["none.pml"])

    def test_comments_contracts_and_layout(self):
        wake = "        self.wake_receiver();"
        self.assertEqual(self.told("    /// Whether there is room.", "    /// Whether \"a place\" is free."), [])
        self.assertEqual(self.told(wake, f"{wake} // first"), [])
        self.assertEqual(self.told(wake, f"        /* first */\n{wake}"), [])
        self.assertEqual(self.told("self.waker.sleep(rt);", "self.waker.sleep(\n            rt,\n        );"), [])
        self.assertEqual(self.told("        ensures ring { SameSender self.old self.new }\n", ""), [])
        self.assertEqual(self.told("0 < known_free", "1 < known_free"), [])
        self.assertEqual(self.told("    fn run(self) -> A {", "    fn run(self) -> B {"), [])


if __name__ == "__main__":
    unittest.main()
