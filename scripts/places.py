"""The folders of the project, and its files as texts. Modules of `helpers`, which the installed helpers find beside
themselves, and those of the judge are found once this one is imported."""

import os
import sys

SCRIPTS = os.path.dirname(os.path.abspath(__file__))
ROOT = os.path.dirname(SCRIPTS)
HELPERS = os.path.join(ROOT, "helpers")

sys.path += [HELPERS, os.path.join(SCRIPTS, "judge")]


def read(path):
    """The text of a file of the project, by its path from the root."""
    with open(os.path.join(ROOT, path), encoding="utf-8") as file:
        return file.read()
