"""Tests of akl-run over small programs: what is shown, and the exit status. Also of the runs in the docs.

They run the `akl` at the repository's top, or the program that the variable AKL names:
AKL=program python3 tools/test_akl_run.py
"""

import os
import pathlib
import re
import subprocess
import sys
import tempfile
import unittest

TOP = pathlib.Path(__file__).resolve().parent.parent
PROGRAM = os.environ.get("AKL") or str(TOP / "akl")

# A program, a query, the status, and for each place that is shown its line, its column and a part of the reason.
REFUSED = [
    ("p(a).\nq :- r, !.\n", "true", 5, [(2, 9, "there is no cut")]),
    ("p(a)\nq(b).\n", "true", 5, [(2, 1, "`:-` or a full stop is expected, but here is `q`")]),
    ("p(a). q(b", "true", 5, [(1, 10, "a comma or `)` is expected, but the text ends")]),
    ("p :- q ; r.", "true", 5, [(1, 8, "here is `;`")]),
    ("p :- q -> r -> s.", "true", 5, [(1, 13, "a part has one at most")]),
    ("p :- (q ; r.", "true", 5, [(1, 12, "here is the full stop")]),
    ("p(X) :- X == a.", "true", 5, [(1, 12, "there is no `==`")]),
    ("p(X) :- \\+ q(X).", "true", 5, [(1, 9, "there is no `\\+`")]),
    ("p :- X is 7 / 2.", "true", 5, [(1, 13, "`//` divides")]),
    ("p :- X = -Y.", "true", 5, [(1, 10, "a sign stands only directly before digits")]),
    ("p :- X = 1.5.", "true", 5, [(1, 11, "a full stop ends a clause only before")]),
    ('p :- X = "abc".', "true", 5, [(1, 10, "there are no strings")]),
    ("p. /* open", "true", 5, [(1, 4, "the comment isn't closed")]),
    ("p('a\n').", "true", 5, [(1, 3, "the quoted text isn't closed")]),
    ("p('é', é).", "true", 5, [(1, 8, "ASCII alone")]),
    ("p (a).", "true", 5, [(1, 3, "directly behind the name")]),
    ("P(a).", "true", 5, [(1, 1, "a name is expected, but here is `P`")]),
    ("p(X) :-\n\tX.", "true", 5, [(2, 3, "this term isn't a goal")]),
    ("p([a|b|c]).", "true", 5, [(1, 7, "here is `|`")]),
    ("p :- bagof(X, q).", "true", 5, [(1, 16, "three arguments")]),
    ("p(" + "[" * 200 + "]" * 200 + ").", "true", 5, [(1, 202, "more than 200 brackets")]),
    (f"p({2**127}).", "true", 5, [(1, 3, "an integer has 128 bits")]),
    ("a([],Y,Y).\nappend(X,X).\np :- apend(a,b).", "true", 5, [(3, 6, "`apend/2` isn't defined; `append/2` is")]),
    ("p :- (true ; -> q).", "true", 5, [(1, 14, "in `p/0`"), (1, 7, "none, which is `?`")]),
    ("p :- -> bagof(X, (q ; r(X)), _).", "true", 5, [(1, 19, "`q/0` isn't defined")]),
    ("p(a).\nq.\np(b) :- | true.", "true", 5, [(3, 9, "this has `|`"), (1, 1, "this has none, which is `?`")]),
    ("p :- q. send(a,b).", "true", 5, [(1, 9, "`send/2` has a meaning of its own")]),
    ("'='(a,b).", "true", 5, [(1, 1, "`'='/2` has a meaning of its own")]),
    ("p.\n" * 257, "true", 5, [(257, 1, "at most 256")]),
    ("p.\n" * 10_001, "true", 5, [(10_001, 1, "at most 10,000")]),
    ("q.\np(a,f(" + ",".join("a" * 33) + ")).", "true", 5, [(2, 5, "too many arguments: 33")]),
    ("q.\np([" + ",".join("_" * 257) + "]).", "true", 5, [(2, 1, "too many variables: 257")]),
    ("p.", "X = ", 6, [(1, 4, "a term is expected, but the text ends")]),
    ("p.", "X = a. Y = b", 6, [(1, 8, "nothing stands behind its full stop")]),
    ("p.", "p, pp", 6, [(1, 4, "`pp/0` isn't defined")]),
    ("p.", "(X = a -> true ; true)", 6, [(1, 18, "in one choice"), (1, 8, "this has `->`")]),
]

# A program, and the places at which --lint points.
LINTED = [
    ("p(X,_Y,_,Z) :- q(X).\nq(_).\n", [(1, 10, "`Z` occurs once")]),
    ("p(a).\nq.\np(b).\n", [(3, 1, "`p/1` has a clause in line 1")]),
    ("p(X) :- bagof(X, q(X), _).\nq(_).\n", [(1, 3, "`X` occurs once")]),
    ("p(L) :- bagof(X, bagof(X, q(X), X), L).\nq(_).\n", []),
    ("p(X,L) :- bagof(Y, q(X,Y), L).\nq(_,_).\n", []),
]


def akl_run(folder, program, *words):
    """Runs akl-run over a program; gives the status, what it printed, and what stands on standard error."""
    file = pathlib.Path(folder) / "p.akl"
    file.write_text(program, encoding="utf-8")
    command = [sys.executable, str(TOP / "tools/akl-run"), str(file), *words]
    ran = subprocess.run(command, capture_output=True, text=True, env={**os.environ, "AKL": PROGRAM}, check=False)
    return ran.returncode, ran.stdout, ran.stderr


def places(shown):
    """The places that are shown, each with its reason."""
    found = re.findall(r"^[^\n]*?(?:p\.akl|query):(\d+):(\d+): (.*)\n *\d+ \| .*\n +\| [ \t]*\^$", shown, re.MULTILINE)
    return [(int(line), int(column), reason) for line, column, reason in found]


class Runs(unittest.TestCase):
    """Runs of small programs."""

    def setUp(self):
        self.folder = tempfile.TemporaryDirectory()
        self.addCleanup(self.folder.cleanup)

    def run_akl(self, program, *words):
        return akl_run(self.folder.name, program, *words)

    def assert_places(self, shown, wanted):
        found = places(shown)
        self.assertEqual([it[:2] for it in found], [it[:2] for it in wanted], shown)
        for (_, _, reason), (_, _, part) in zip(found, wanted):
            self.assertIn(part, reason)

    def test_refusals(self):
        for program, query, status, wanted in REFUSED:
            with self.subTest(program=program[:60], query=query):
                ended, printed, shown = self.run_akl(program, query)
                self.assertEqual((ended, printed), (status, ""))
                self.assert_places(shown, wanted)

    def test_whole_text(self):
        _, _, shown = self.run_akl("p('é',\tq !).", "true")
        self.assertTrue(shown.endswith("p.akl:1:10: there is no cut: `->` behind a guard drops the clauses below\n"
                                       "    1 | p('é',\tq !).\n      |       \t  ^\n"), shown)

    def test_lint(self):
        for program, wanted in LINTED:
            with self.subTest(program=program):
                status, printed, shown = self.run_akl(program, "true", "--lint")
                self.assertEqual((status, printed), (0, "answer 1\ndone\n"))
                self.assert_places(shown, wanted)

    def test_own_query(self):
        program = "% A program.\n%\n%   p(X),\n%   X = b\n%\n% prints X = b.\n%   p(c)\np(a). p(b).\n"
        self.assertEqual(self.run_akl(program), (0, "answer 1\nX = b\ndone\n", ""))
        self.assertEqual(self.run_akl("p.\n%   p\n")[0], 4)

    def test_statuses(self):
        for query, status in (("p(c)", 1), ("p(a)", 0), ("X < 2", 2), ("-1 = X", 0)):
            self.assertEqual(self.run_akl("p(a). p(b).", "--", query)[0], status)
        self.assertEqual(self.run_akl("p(a). p(b).", "p(X)", "--budget", "1")[:2], (3, "budget\n"))
        self.assertIn("step 1 fork", self.run_akl("p(a). p(b).", "p(a)", "--trace", "--workers", "2")[1])
        self.assertEqual(
            self.run_akl("", "X < 2", "--why")[:2], (2, "waiting 1\ngoal 0.2 on X\nsuspended 1\n")
        )
        self.assertEqual(
            self.run_akl("", "X = a", "--model")[1], "answer 1\nX = a\nmodel\nX: #0\n#0 = a\ndone\n"
        )
        self.assertEqual(self.run_akl("p.", "p", "--budget", "0")[0], 4)
        self.assertEqual(self.run_akl("p.", "p", "--nothing")[0], 4)


class Docs(unittest.TestCase):
    """The programs and runs that the docs show."""

    def test_tutorial(self):
        text = (TOP / "docs/TUTORIAL.md").read_text(encoding="utf-8")
        shown = dict(re.findall(r"^\[(\w+\.akl)\]\([^)]*\):\n\n```\n(.*?)```$", text, re.MULTILINE | re.DOTALL))
        files = {it.name: it.read_text(encoding="utf-8") for it in (TOP / "examples/tutorial").iterdir()}
        self.assertEqual(shown, files)
        run = r'^\$ \./(?:akl|(akl_steps)) --query "(.*)"((?: --[a-z]+(?:=\d+)?)*) < examples/(.*)\n((?:.*\n)*?)```$'
        runs = [
            f"{steps and steps + ' '}{file}{options}: {query}\n{printed}"
            for steps, query, options, file, printed in re.findall(run, text, re.M)
        ]
        gate = (TOP / "crates/akl_steps/stdout").read_text(encoding="utf-8")
        self.assertEqual("".join(runs), gate[gate.index("\ntutorial/") + 1 :])

    def test_from_prolog(self):
        text = (TOP / "docs/FROM-PROLOG.md").read_text(encoding="utf-8").replace("\\|", "\0")
        rows = [line.split("|")[1:-1] for line in text.splitlines() if line.startswith("|") and "`" in line]
        self.assertGreater(len(rows), 40)
        for row in rows:
            program, query, printed = [re.findall("`([^`]*)`", cell.replace("\0", "|")) for cell in row[2:]]
            with self.subTest(query=query[0]):
                words = [PROGRAM, f"--query={query[0]}", *" ".join(query[1:]).split()]
                ran = subprocess.run(words, input="".join(program), capture_output=True, text=True, check=False)
                self.assertEqual((ran.stdout + ran.stderr).splitlines(), printed)


if __name__ == "__main__":
    unittest.main()
