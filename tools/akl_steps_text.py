"""What `akl_steps --trace --tree` prints, read back: the steps of a run, and its boxes and goals after each of them."""

import re
from dataclasses import dataclass, field

STEP = re.compile(
    r"step (?P<number>[0-9]+) (?P<rule>[a-z]+) (?P<kind>goal|box) (?P<place>[0-9.]+)"
    r"(?: of (?P<alternative>[0-9.]+))? by (?P<worker>[0-9]+): (?P<sentence>.*)"
)
LINE = re.compile(r"(?P<name>[0-9]+\.[0-9]+) (?P<text>.*?)(?P<state>(?:, solved)?(?:, (?:can [a-z ]+|fails|waits for .*))?)$")
BOX = re.compile(r"root box|alternative [0-9]+")


@dataclass
class Step:
    """A step: its number, its rule, its place, the alternative that it has, who made it, and its sentence."""

    number: int
    rule: str
    place: str
    alternative: str
    worker: int
    sentence: str


@dataclass
class State:
    """What a place shows after a step: its text, what it can do or waits for, and the lines of what it was told."""

    text: str
    state: str
    lines: list = field(default_factory=list)

    def waits(self):
        return ", waits for " in self.state

    def is_solved(self):
        return self.state.startswith(", solved")


@dataclass
class Place:
    """A box or a goal: its name, what it stands in, whether it is a box, and its states by the numbers of steps."""

    name: str
    parent: object
    is_box: bool
    states: dict = field(default_factory=dict)
    children: list = field(default_factory=list)

    def born(self):
        return min(self.states)

    def last(self):
        return max(self.states)


@dataclass
class Run:
    """A run: the query, the steps, the root boxes, the tree's text after each step, and the lines behind the last."""

    query: str = ""
    steps: list = field(default_factory=list)
    places: dict = field(default_factory=dict)
    roots: list = field(default_factory=list)
    trees: list = field(default_factory=list)
    outcome: list = field(default_factory=list)


def read_line(run, number, line, open_places):
    """A line of a tree: a place, or what the place before was told."""
    depth, text = len(line) - len(line.lstrip()), line.strip()
    while open_places and open_places[-1][0] >= depth:
        open_places.pop()
    parent = open_places[-1][1] if open_places else None
    found = LINE.match(text)
    if not found:
        parent.states[number].lines.append(text)
        return
    place = run.places.get(found["name"])
    if place is None:
        place = Place(found["name"], parent, bool(BOX.match(found["text"])))
        run.places[place.name] = place
        (parent.children if parent else run.roots).append(place)
    place.states[number] = State(found["text"], found["state"])
    open_places.append((depth, place))


def read_run(text):
    """The run that is shown."""
    run, open_places, number = Run(), [], 0
    for line in text.splitlines():
        step = STEP.match(line)
        if line.startswith("query: ") and not run.trees:
            run.query = line[len("query: ") :]
            run.trees.append([])
        elif step:
            number, open_places = int(step["number"]), []
            run.steps.append(
                Step(number, step["rule"], step["place"], step["alternative"], int(step["worker"]), step["sentence"])
            )
            run.trees.append([])
        elif line.startswith("    ") and not run.outcome:
            run.trees[-1].append(line[4:])
            read_line(run, number, line, open_places)
        else:
            run.outcome.append(line)
    return run
