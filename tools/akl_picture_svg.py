"""A run as a picture: its boxes and goals over its steps, drawn as SVG."""

import re
from dataclasses import dataclass, field
from html import escape

ROW, HEAD = 20, 46
SANS = "Helvetica, Arial, 'DejaVu Sans', sans-serif"
MONO = "'DejaVu Sans Mono', Menlo, Consolas, monospace"
CHARACTER = 6.65  # of 11 pixels in a font of one width
WORKERS = ["#1f6f8b", "#c2571a", "#3b7d3a", "#8a3ffc", "#a8326e", "#8a6d00", "#4a5a6a", "#0f7a6c"]
LETTERS = {
    "fork": "F", "tell": "T", "eval": "E", "open": "O", "send": "S",
    "fail": "×", "cut": "C", "promote": "P", "split": "/", "collect": "L",
}
LEGEND = {
    "F": "fork: a call becomes a choice", "T": "tell: an equation is told", "E": "eval: arithmetic",
    "O": "open: a port", "S": "send: to a port", "×": "fail: a box fails", "C": "cut: a guard holds",
    "P": "promote: the last alternative", "/": "split: a box and its copy", "L": "collect: solutions",
}

DEFINED = (
    '<defs><pattern id="waits" width="6" height="6" patternUnits="userSpaceOnUse" patternTransform="rotate(45)">'
    '<rect width="6" height="6" fill="#fdf3d3"/><line x1="0" y1="0" x2="0" y2="6" stroke="#e8cf7a" stroke-width="2.4"/></pattern>'
    + "".join(
        f'<marker id="{name}" viewBox="0 0 8 8" refX="7" refY="4" markerWidth="6" markerHeight="6" orient="auto">'
        f'<path d="M 0 0 L 8 4 L 0 8 z" fill="{fill}"/></marker>'
        for name, fill in (("arrow", "#2457a6"), ("copy", "#7d8b99"))
    )
    + "</defs>"
)


@dataclass
class Shape:
    """Where a place is drawn: from which step to which, and in which rows below those around it."""

    place: object
    begin: int
    end: int
    top: int = 0
    height: int = 1
    inside: list = field(default_factory=list)


def is_free(shape, top, others):
    """Whether a shape can stand so far below without touching one of the others."""
    return all(
        shape.end <= it.begin or it.end <= shape.begin or top + shape.height <= it.top or it.top + it.height <= top
        for it in others
    )


def shaped(place, last):
    """The shape of a place with those of what stands in it, each as high up as there is room."""
    shape = Shape(place, place.born(), min(place.last() + 1, last + 1))
    for child in place.children:
        inner, inner.top = shaped(child, last), 1
        while not is_free(inner, inner.top, shape.inside):
            inner.top += 1
        shape.inside.append(inner)
    shape.height = max([1, *(it.top + it.height for it in shape.inside)])
    return shape


def fitting(text, width):
    """A text as far as it fits."""
    count = int((width - 4) / CHARACTER)
    if len(text) <= count:
        return text
    return text[: count - 1] + "…" if count > 2 else ""


class Picture:
    """Draws a run, with its query as a title or without."""

    def __init__(self, run, is_titled=True):
        self.run, self.is_titled, self.parts, self.tops = run, is_titled, [], {}
        self.last = len(run.steps)
        self.marked = {}
        for step in run.steps:
            self.marked.setdefault(step.place, []).append(step.number)
        self.column = max(18, min(76, 1120 // (self.last + 1)))
        self.left = 14
        self.width = self.left + (self.last + 1) * self.column + 14

    def x(self, step):
        """Where a step is made; what it leaves is drawn to the right of it."""
        return self.left + step * self.column

    def add(self, text):
        self.parts.append(text)

    def text(self, x, y, text, size=11, fill="#1c2733", font=MONO, more=""):
        self.add(f'<text x="{x:.1f}" y="{y:.1f}" font-size="{size}" fill="{fill}" font-family="{font}" {more}>{escape(text)}</text>')

    def axis(self, bottom):
        """The numbers of the steps, and a line for each."""
        every = 1 if self.column >= 22 else 2
        for step in range(1, self.last + 1):
            x = self.x(step)
            self.add(f'<line x1="{x}" y1="{HEAD - 8}" x2="{x}" y2="{bottom}" stroke="#e3e8ee"/>')
            if step % every == 0:
                self.text(x, HEAD - 14, str(step), 10, "#6b7a8c", SANS, 'text-anchor="middle"')

    def bar(self, shape, y):
        """The bar of a place, with a part for each time at which it waits, can do something, or is solved."""
        place = shape.place
        x, width = self.x(shape.begin) + 2, (shape.end - shape.begin) * self.column - 4
        fill = "#dbe7f3" if place.is_box else "#ffffff"
        self.add(f'<rect x="{x}" y="{y + 2}" width="{width}" height="{ROW - 4}" rx="4" fill="{fill}" stroke="#9db0c4"/>')
        for step in range(shape.begin, shape.end):
            state = place.states.get(step)
            if state is None:
                continue
            fill = "url(#waits)" if state.waits() else "#cfe8cf" if state.is_solved() else "#f6d5d2" if "fails" in state.state else ""
            if fill:
                left = x if step == shape.begin else self.x(step)
                right = x + width if step + 1 == shape.end else self.x(step + 1)
                self.add(f'<rect x="{left}" y="{y + 3}" width="{right - left}" height="{ROW - 6}" fill="{fill}"/>')
        self.labels(place, shape, x, y, width)

    def widest(self, shape):
        """The longest time of a place between two marks: from which step to which."""
        ends = [shape.begin, *(it for it in self.marked.get(shape.place.name, []) if shape.begin < it < shape.end), shape.end]
        return max(zip(ends, ends[1:]), key=lambda it: it[1] - it[0])

    def labels(self, place, shape, x, y, width):
        """The text of a place, where there is most room between its marks; and as a tip all that is known of it."""
        begin, end = self.widest(shape)
        state = place.states.get(begin) or place.states[shape.begin]
        tip = "\n".join([f"{place.name} {state.text}{state.state}", *state.lines])
        self.add(f'<g><title>{escape(tip)}</title><rect x="{x}" y="{y}" width="{width}" height="{ROW}" fill="transparent"/>')
        text, room = state.text.replace("alternative ", ""), (end - begin) * self.column - 16
        text = re.sub(": (a choice by .*|collects)$", "", text)
        if place.is_box and room > 90 and state.lines:
            text += ": " + state.lines[0]
        self.text(self.x(begin) + (7 if begin == shape.begin else 11), y + 14, fitting(text, room))
        self.add("</g>")

    def draw(self, shape, row):
        """A place and what stands in it."""
        y = HEAD + row * ROW
        self.tops[shape.place.name] = y
        if shape.inside:
            x, width = self.x(shape.begin) + 0.5, (shape.end - shape.begin) * self.column - 1
            fill = "#f4f7fb" if shape.place.is_box else "#fbf8f1"
            stroke = "#9db0c4" if shape.place.is_box else "#d8cba8"
            self.add(f'<rect x="{x}" y="{y}" width="{width}" height="{shape.height * ROW}" rx="6" fill="{fill}" stroke="{stroke}"/>')
        self.bar(shape, y)
        for inner in shape.inside:
            self.draw(inner, row + inner.top)

    def marks(self):
        """A mark for each step at its place, with a curve to each place whose waiting it ends."""
        for step in self.run.steps:
            y = self.tops.get(step.place)
            if y is None:
                continue
            x, y = self.x(step.number), y + ROW / 2
            for woken in self.woken(step.number):
                to = self.tops[woken.name] + ROW / 2
                bend = x + min(26, self.column * 0.6)
                self.add(
                    f'<path d="M {x} {y} C {bend} {y}, {bend} {to}, {x + 5} {to}" fill="none" stroke="#2457a6"'
                    ' stroke-width="1.3" stroke-dasharray="3 2" marker-end="url(#arrow)"/>'
                )
        for step in self.run.steps:
            if step.place in self.tops:
                self.mark(step)

    def copies(self):
        """A curve from each split to the copy that it makes."""
        for step in self.run.steps:
            for place in self.run.places.values():
                if step.rule == "split" and place.is_box and place.born() == step.number and place.parent is self.run.places[step.place].parent:
                    x, y, to = self.x(step.number), self.tops[step.place] + ROW / 2, self.tops[place.name] + ROW / 2
                    self.add(
                        f'<path d="M {x} {y} C {x - 12} {y}, {x - 12} {to}, {x + 2} {to}" fill="none" stroke="#7d8b99"'
                        ' stroke-width="1.3" marker-end="url(#copy)"/>'
                    )

    def columns(self, bottom):
        """A line over all for each step, which a page may show."""
        for step in range(1, self.last + 1):
            x = self.x(step)
            self.add(f'<line class="column" data-step="{step}" x1="{x}" y1="{HEAD - 8}" x2="{x}" y2="{bottom}" stroke="none"/>')

    def mark(self, step):
        x, y = self.x(step.number), self.tops[step.place] + ROW / 2
        fill = WORKERS[(step.worker - 1) % len(WORKERS)]
        self.add(f'<g class="mark" data-step="{step.number}"><title>{escape(f"step {step.number}: {step.sentence}")}</title>')
        self.add(f'<circle cx="{x}" cy="{y}" r="7.5" fill="{fill}" stroke="#ffffff" stroke-width="1.2"/>')
        self.text(x, y + 3.7, LETTERS.get(step.rule, "?"), 10, "#ffffff", SANS, 'text-anchor="middle" font-weight="bold"')
        self.add("</g>")

    def woken(self, number):
        """The places that waited before a step, and don't any more."""
        for place in self.run.places.values():
            before, after = place.states.get(number - 1), place.states.get(number)
            if before and after and before.waits() and ", can " in after.state:
                yield place

    def legend(self, y):
        """What the marks and the bars mean."""
        used = {LETTERS[it.rule] for it in self.run.steps if it.rule in LETTERS}
        items = [(letter, meaning) for letter, meaning in LEGEND.items() if letter in used]
        x = self.left
        for letter, meaning in items:
            width = 26 + len(meaning) * 5.6
            if x + width > self.width:
                x, y = self.left, y + 20
            self.add(f'<circle cx="{x + 8}" cy="{y}" r="7" fill="#66788a"/>')
            self.text(x + 8, y + 3.6, letter, 10, "#ffffff", SANS, 'text-anchor="middle" font-weight="bold"')
            self.text(x + 20, y + 4, meaning, 11, "#41505f", SANS)
            x += width
        return self.keys(y + 22)

    def keys(self, y):
        """What the fills, the curves and the colors mean, as far as there are any."""
        x, states = self.left, [it for place in self.run.places.values() for it in place.states.values()]
        keys = [("url(#waits)", "waits for a variable", any(it.waits() for it in states))]
        keys += [("#cfe8cf", "solved", True), ("#f6d5d2", "about to fail", any("fails" in it.state for it in states))]
        for fill, meaning, is_used in keys:
            if is_used:
                self.add(f'<rect x="{x}" y="{y - 7}" width="18" height="13" fill="{fill}" stroke="#9db0c4"/>')
                self.text(x + 24, y + 4, meaning, 11, "#41505f", SANS)
                x += 40 + len(meaning) * 5.8
        curves = [("#2457a6", "arrow", "what ends a waiting", any(True for it in self.run.steps for _ in self.woken(it.number)))]
        curves += [("#7d8b99", "copy", "the copy of a split", any(it.rule == "split" for it in self.run.steps))]
        for stroke, marker, meaning, is_used in curves:
            if is_used:
                dashes = ' stroke-dasharray="3 2"' if marker == "arrow" else ""
                self.add(f'<path d="M {x} {y} h 20" stroke="{stroke}" stroke-width="1.3"{dashes} marker-end="url(#{marker})"/>')
                self.text(x + 28, y + 4, meaning, 11, "#41505f", SANS)
                x += 48 + len(meaning) * 5.8
        for worker in sorted({it.worker for it in self.run.steps}):
            self.add(f'<circle cx="{x + 8}" cy="{y}" r="7" fill="{WORKERS[(worker - 1) % len(WORKERS)]}"/>')
            self.text(x + 20, y + 4, f"worker {worker}", 11, "#41505f", SANS)
            x += 80
        return y + 16

    def svg(self):
        """The whole picture."""
        shapes = []
        for place in self.run.roots:
            shape = shaped(place, self.last)
            shape.height += 1  # Room below it.
            while not is_free(shape, shape.top, shapes):
                shape.top += 1
            shapes.append(shape)
        bottom = HEAD + max([1, *(it.top + it.height - 1 for it in shapes)]) * ROW
        if self.is_titled:
            self.text(self.left, 18, self.run.query, 13, "#1c2733", MONO, 'font-weight="bold"')
        self.axis(bottom + 4)
        for shape in shapes:
            shape.height -= 1
            self.draw(shape, shape.top)
        self.copies()
        self.columns(bottom + 4)
        self.marks()
        width, height = max(self.width, 640), self.legend(bottom + 24)
        return (
            f'<svg xmlns="http://www.w3.org/2000/svg" width="{width}" height="{height}" viewBox="0 0 {width} {height}"'
            f' role="img" aria-label="{escape(self.run.query)}">{DEFINED}<rect width="{width}" height="{height}" fill="#ffffff"/>\n'
            + "\n".join(self.parts)
            + "\n</svg>\n"
        )
