"""Tests of akl_steps and akl-picture over the examples: the steps are those of `akl`, and pictures show them all.

They run `akl` and `akl_steps` at the repository's top, or the programs that the variables AKL and AKL_STEPS name:
AKL=program AKL_STEPS=program python3 tools/test_akl_steps.py
"""

import os
import pathlib
import re
import subprocess
import sys
import unittest
from xml.dom import minidom

from akl_picture_svg import Picture, is_free, shaped
from akl_source import own_query
from akl_steps_text import read_run

TOP = pathlib.Path(__file__).resolve().parent.parent
AKL = os.environ.get("AKL") or str(TOP / "akl")
STEPS = os.environ.get("AKL_STEPS") or str(TOP / "akl_steps")

# What akl_steps prints of a small run, shortened.
SHOWN = """\
query: p(X)
    0.0 root box
      0.2 p(X), can fork
step 1 fork goal 0.2 by 1: p(X) becomes a choice of 2 alternatives
    0.0 root box
      0.2 p(X): a choice by ->, waits for X
        1.0 alternative 1, solved
          tells X = a
        1.2 alternative 2, solved
step 2 cut goal 0.2 of 1.0 by 2: the guard of alternative 1 of p(X) holds, and those to its right go
    0.0 root box
      X = a
      0.2 p(X): a choice by ->, can promote
        1.0 alternative 1, solved
answer 1
X = a
done
"""


def run(program, file, query, *words):
    """What a program prints for a file and a query, and its status."""
    command = [program, f"--query={query}", *words]
    ran = subprocess.run(command, input=file.read_bytes(), capture_output=True, check=False)
    return ran.stdout.decode(), ran.returncode


def labels(text):
    """The lines of a trace, without what stands behind a colon."""
    return re.findall(r"^step [0-9]+ [a-z]+ [a-z]+ [0-9.]+(?: of [0-9.]+)? by [0-9]+", text, re.MULTILINE)


class Reading(unittest.TestCase):
    """What is read back of a run that is shown, and its picture."""

    def test_places(self):
        found = read_run(SHOWN)
        self.assertEqual((found.query, found.outcome), ("p(X)", ["answer 1", "X = a", "done"]))
        self.assertEqual([it.worker for it in found.steps], [1, 2])
        self.assertEqual({it: list(place.states) for it, place in found.places.items()},
                         {"0.0": [0, 1, 2], "0.2": [0, 1, 2], "1.0": [1, 2], "1.2": [1]})
        self.assertEqual(found.places["1.0"].parent.name, "0.2")
        self.assertEqual(found.places["1.0"].states[1].lines, ["tells X = a"])
        self.assertTrue(found.places["0.2"].states[1].waits())

    def test_picture(self):
        picture = Picture(read_run(SHOWN)).svg()
        drawn = minidom.parseString(picture)
        marks = [it for it in drawn.getElementsByTagName("g") if it.getAttribute("class") == "mark"]
        self.assertEqual([it.getAttribute("data-step") for it in marks], ["1", "2"])
        self.assertEqual(picture.count("marker-end"), 2)  # The choice that waited is woken, and the legend.


class Examples(unittest.TestCase):
    """Runs of the examples."""

    def examples(self):
        for file in sorted((TOP / "examples").glob("*.akl")):
            with self.subTest(file=file.name):
                yield file, own_query(file.read_text(encoding="utf-8"))

    def test_labels(self):
        for file, query in self.examples():
            traced, status = run(AKL, file, query, "--trace", "--budget=300")
            shown, ended = run(STEPS, file, query, "--trace", "--budget=300")
            self.assertEqual(labels(shown), labels(traced))
            self.assertEqual(ended, status)
            self.assertTrue(shown.endswith(traced[len("\n".join(labels(traced))) :]))

    def test_workers(self):
        for file, query in self.examples():
            self.assertIn(run(STEPS, file, query, "--workers=3", "--budget=60")[1], range(4))

    def test_pictures(self):
        for file, query in self.examples():
            found = read_run(run(STEPS, file, query, "--trace", "--tree", "--to=60")[0])
            self.assertEqual(len(found.trees), len(found.steps) + 1)
            for place in found.places.values():
                self.assertEqual(sorted(place.states), list(range(place.born(), place.last() + 1)))
            for shape in (shaped(it, len(found.steps)) for it in found.roots):
                for k, inner in enumerate(shape.inside):
                    self.assertTrue(is_free(inner, inner.top, shape.inside[:k]))
            minidom.parseString(Picture(found).svg())

    def test_page(self):
        command = [sys.executable, str(TOP / "tools/akl-picture"), str(TOP / "examples/merge.akl")]
        page = subprocess.run(command, capture_output=True, text=True, env={**os.environ, "AKL_STEPS": STEPS}, check=True).stdout
        self.assertEqual(set(re.findall(r"https?://[^\"' ]*", page)), {"http://www.w3.org/2000/svg"})
        self.assertIn("17 steps, 1 answer: done.", page)
        found = subprocess.run([*command, "q("], capture_output=True, env={**os.environ, "AKL_STEPS": STEPS}, check=False)
        self.assertEqual(found.returncode, 6)


class Docs(unittest.TestCase):
    """The pictures that the docs show."""

    def test_pictures(self):
        for name in ("merge", "search"):
            command = [sys.executable, str(TOP / "tools/akl-picture"), "--svg", str(TOP / f"examples/{name}.akl")]
            drawn = subprocess.run(command, capture_output=True, env={**os.environ, "AKL_STEPS": STEPS}, check=True).stdout
            self.assertEqual((TOP / f"docs/pictures/{name}.svg").read_bytes(), drawn)


if __name__ == "__main__":
    unittest.main()
