"""Wants an edit that must fail of each exported function that has a body and promises something, and each line of an
edit to be read. `lint.py` calls it."""

import glob
import os
import re

from definitions_of import contract, read_lines
from edit_steps import functions_of, steps_of
from lint_words import exported, known_items

# no body that compiles and returns breaks these: what they give is of a type of which nothing else is in reach
UNBROKEN = {
    ("pnm_image", "Device", "into_inner"),
    ("pnm_row_tools", "Samplewise", "new"),
    ("pnm_stages", "", "run_both"),
    ("pnm_stages", "Receiver", "peek_known"),
    ("pnm_streams", "Retry", "into_inner"),
    ("pnm_streams", "Retry", "new"),
}
# these hand on what another function gives, which has an edit: for what turns it here the prover stops at a limit, or
# at an answer that names the call
HANDED_ON = {
    ("pnm_image", "Rows", "as_slice"),
    ("pnm_image", "RowSlice", "bytes"),
    ("pnm_samples", "Samples", "sample"),
}


def promising(crate):
    """The exported functions of a crate, each by its file, its type and its name, but for laws, which do nothing."""
    src = os.path.join(crate, "src")
    modules = exported("\n".join(read_lines(os.path.join(src, "lib.rt"))))
    for path in glob.glob(os.path.join(src, "**/*.rt"), recursive=True):
        module = os.path.relpath(path, src)[: -len(".rt")].split(os.sep)[0]
        lines = read_lines(path) if module in modules and module != "laws" else []
        for at, owner, name in known_items(lines, modules.get(module)):
            head = contract(lines, at) if name else []
            has_body = head and not head[-1].endswith(";")
            if has_body and any(line.strip().startswith("ensures") for line in head):
                yield os.path.relpath(path, crate), owner, name


def edited(crate):
    """The functions that the crate's edits change."""
    texts = {}
    for path in glob.glob(os.path.join(crate, "src/**/*.rt"), recursive=True):
        texts[os.path.relpath(path, crate)] = "\n".join(read_lines(path))
    for path in glob.glob(os.path.join(crate, "must-fail/*.edit")):
        steps = steps_of("\n".join(read_lines(path)))
        if all(file in texts for file, _, _ in steps):
            for file, (owner, _, name) in functions_of(texts, steps)[0]:
                yield file, owner, name


def faults(root):
    """Each exported function of a crate with edits that none of them changes, and each line of an edit that is neither
    its own nor its control's."""
    for path in sorted(glob.glob(os.path.join(root, "crates/*/must-fail/*.edit"))):
        for line in read_lines(path):
            if line.strip() and not re.match(r"(# )?(file: |old: |new:)", line):
                yield f"{os.path.relpath(path, root)}: a line that isn't read: {line.strip()}"
    for folder in sorted(glob.glob(os.path.join(root, "crates/*/must-fail"))):
        crate = os.path.dirname(folder)
        if os.path.exists(os.path.join(crate, "src/lib.rt")):
            changed = set(edited(crate))
            for file, owner, name in promising(crate):
                is_left_out = (os.path.basename(crate), owner, name) in UNBROKEN | HANDED_ON
                if (file, owner, name) not in changed and not is_left_out:
                    told = f"{owner}::{name}" if owner else name
                    yield f"{os.path.relpath(crate, root)}/{file}: no edit in must-fail changes {told}"
