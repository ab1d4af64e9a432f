"""The text of programs and queries: tokens, clauses and their faults, with places counted in bytes.

A text is read as docs/LANGUAGE.md says. It is given as `latin-1`, so that a place in it is that of a byte.
"""

import re
from dataclasses import dataclass, field

LAYOUT = re.compile(r"(?:[\t-\r ]|%[^\n]*|/\*.*?\*/)*", re.DOTALL)
TOKEN = re.compile(
    r"""(?P<name>[a-z][A-Za-z0-9_]*)
    |(?P<variable>[A-Z_][A-Za-z0-9_]*)
    |(?P<integer>[0-9]+)
    |(?P<quoted>'(?:[^'\\\x00-\x1f\x7f]|''|\\['\\nt])*'(?!'))
    |(?P<mark>:-|->|=:=|=\\=|=<|>=|//|[()\[\],;|?=<>+*-])
    |(?P<end>\.(?=[\t-\r %]|\Z))
    |(?P<other>.)""",
    re.VERBOSE | re.DOTALL,
)
SIGNED = re.compile("-[0-9]+")
RELATIONS = {"=", "is", "<", ">", "=<", ">=", "=:=", "=\\="}
SUMS, PRODUCTS = {"+", "-"}, {"*", "//", "mod"}
OPERATORS = {"->", "|", "?"}
RESERVED = {f"{name}/2" for name in RELATIONS | {"open_port", "send"}} | {"true/0", "fail/0", "bagof/3"}
ESCAPES = {"''": "'", "\\'": "'", "\\\\": "\\", "\\n": "\n", "\\t": "\t"}

# What the text begins with where no token is expected, and what to write in its place.
HINTS = {
    "!": "there is no cut: `->` behind a guard drops the clauses below",
    '"': "there are no strings: quoted text is written 'so'",
    "\\+": "there is no `\\+`: a conditional guard asks whether something is so",
    "\\=": "there is no `\\=`: a conditional whose guard is the equation fails where it holds",
    "^": "there is no `^`: a variable that occurs in the goal alone is a new one in each solution",
    "/*": "the comment isn't closed",
    "/": "there is no `/`: `//` divides without a fraction",
    ":": "there is no `:`, as there are no modules",
    ".": "a full stop ends a clause only before a space, the line's end or a comment",
    "'": "the quoted text isn't closed in its line, or has an escape that there isn't",
}


class Fault(Exception):
    """What a text is refused for, and where."""

    def __init__(self, at, reason):
        super().__init__(reason)
        self.at, self.reason = at, reason


@dataclass
class Token:
    """A token: its kind, its text, its place, and whether it is a bracket directly behind a name."""

    kind: str
    text: str
    at: int
    is_call: bool = False

    def is_mark(self, *texts):
        """Whether it is one of these marks, relations or operators."""
        return self.kind == "mark" and self.text in texts


@dataclass
class Part:
    """The operator of a clause or of a part in brackets, and where it stands, or the part begins without one."""

    at: int
    operator: str = "?"
    is_written: bool = False


@dataclass
class Clause:
    """A clause or a query: the key and place of its head, its operator, and what stands in it, each with its place."""

    at: int
    key: str = ""
    part: Part = None
    calls: list = field(default_factory=list)  # (key, place) of each goal
    choices: list = field(default_factory=list)  # (place, parts) of each choice in brackets
    variables: list = field(default_factory=list)  # (name, places) of each variable
    widest: tuple = (0, 0)  # the number of arguments, and the place, of the widest atom


def symbol_of(token):
    """The symbol that a name or quoted text stands for."""
    if token.kind != "quoted":
        return token.text
    return re.sub(r"''|\\.", lambda found: ESCAPES[found[0]], token.text[1:-1])


def key_of(symbol, arity):
    """A symbol with its number of arguments, as `akl` writes it."""
    if not re.fullmatch(r"[a-z][A-Za-z0-9_]*", symbol) or symbol in ("is", "mod"):
        for escape, meant in (("\\\\", "\\"), ("\\'", "'"), ("\\n", "\n"), ("\\t", "\t")):
            symbol = symbol.replace(meant, escape)
        symbol = f"'{symbol}'"
    return f"{symbol}/{arity}"


def tokens_from(text, at):
    """The tokens of the clause or query that begins at a place, with its end token, or else one of kind `none`."""
    found = []
    while True:
        begins = LAYOUT.match(text, at).end()
        matched = TOKEN.match(text, begins)
        if not matched:
            return found + [Token("none", "", at)]
        token = Token(matched.lastgroup, matched[0], begins)
        before = found[-1] if found else Token("none", "", at)
        is_symbol = before.kind in ("name", "quoted")
        is_operand = is_symbol or before.kind in ("variable", "integer") or before.is_mark(")", "]")
        signed = SIGNED.match(text, begins)
        if token.text in ("is", "mod"):
            token.kind = "mark"
        elif signed and not is_operand:
            token = Token("integer", signed[0], begins)
        token.is_call = token.text == "(" and is_symbol and begins == at
        found.append(token)
        if token.kind == "end":
            return found
        at = begins + len(token.text)


class Reader:
    """Reads one clause or query from its tokens, from left to right."""

    def __init__(self, text, at):
        self.text, self.tokens, self.next = text, tokens_from(text, at), 0
        self.clause = Clause(self.tokens[0].at)
        self.scopes, self.is_local = [{}], False

    def peek(self):
        return self.tokens[self.next]

    def take(self):
        self.next += 1
        return self.tokens[self.next - 1]

    def fault(self, wanted):
        """The fault that the next token isn't what is wanted."""
        token = self.peek()
        if token.kind == "other" and token.text > "~":
            return Fault(token.at, "outside of quoted text and comments there is ASCII alone")
        for begin, hint in HINTS.items():
            if token.kind == "other" and self.text.startswith(begin, token.at):
                return Fault(token.at, hint)
        if token.is_mark("=") and self.tokens[self.next - 1].is_mark("="):
            return Fault(token.at, "there is no `==`: `=` equates terms, and `=:=` compares values")
        if token.is_mark("-"):
            return Fault(token.at, "a sign stands only directly before digits: `0 - X` is the negative of X")
        shown = {"none": "the text ends", "end": "here is the full stop"}.get(token.kind, f"here is `{token.text}`")
        return Fault(token.at, f"{wanted} is expected, but {shown}")

    def expect(self, text, wanted):
        if not self.peek().is_mark(text):
            raise self.fault(wanted)
        return self.take()

    def read_clause(self):
        """The clause: a head, and behind a neck its part, up to the full stop."""
        self.clause.key, at = self.atom("a name")
        self.clause.part, wanted = Part(at), "`:-` or a full stop"
        if self.peek().is_mark(":-"):
            self.take()
            part, wanted = self.part(), "a comma or a full stop"
            self.clause.part = part if part.is_written else self.clause.part
        if self.peek().kind != "end":
            raise self.fault(wanted)
        return self.clause

    def read_query(self):
        """The query: goals, and perhaps a full stop, with nothing behind it."""
        self.conjunction()
        if self.peek().kind == "end":
            end = self.take()
            behind = LAYOUT.match(self.text, end.at + 1).end()
            if behind < len(self.text):
                raise Fault(behind, "a query is one list of goals, so nothing stands behind its full stop")
        elif self.peek().kind != "none":
            raise self.fault("a comma, or the end of the query,")
        return self.clause

    def part(self):
        """Goals alone, or a guard, an operator and a body."""
        part = Part(self.peek().at)
        if not self.peek().is_mark(*OPERATORS):
            self.conjunction()
        if self.peek().is_mark(*OPERATORS):
            operator = self.take()
            part = Part(operator.at, operator.text, True)
            self.conjunction()
        if self.peek().is_mark(*OPERATORS):
            raise Fault(self.peek().at, "there is an operator before, and a part has one at most")
        return part

    def conjunction(self):
        self.goal()
        while self.peek().is_mark(","):
            self.take()
            self.goal()

    def goal(self):
        first = self.peek()
        if first.is_mark("(") and not self.is_expression():
            return self.brackets()
        if first.kind in ("name", "quoted") and symbol_of(first) == "bagof" and self.tokens[self.next + 1].is_call:
            return self.collect()
        atom = self.expression("a goal")
        if self.peek().is_mark(*RELATIONS):
            relation = self.take()
            self.clause.calls.append((key_of(relation.text, 2), relation.at))
            self.expression("a term")
        elif atom:
            self.clause.calls.append(atom)
        else:
            raise self.fault("a relation, as this term isn't a goal,")

    def is_expression(self):
        """Whether the bracket here is one of an expression, by the token behind its partner."""
        depth = 0
        for at in range(self.next, len(self.tokens) - 1):
            depth += self.tokens[at].is_mark("(", "[") - self.tokens[at].is_mark(")", "]")
            if depth > 200:
                raise Fault(self.tokens[at].at, "more than 200 brackets are open here")
            if depth == 0:
                return self.tokens[at + 1].is_mark(*RELATIONS, *SUMS, *PRODUCTS)
        return False

    def brackets(self):
        opening, index, parts = self.take(), len(self.clause.choices), [self.part()]
        while self.peek().is_mark(";"):
            self.take()
            parts.append(self.part())
        self.expect(")", "a comma, `;` or `)`")
        if len(parts) > 1 or parts[0].is_written:
            self.clause.choices.insert(index, (opening.at, parts))

    def collect(self):
        self.next += 2
        self.scopes.append({})
        self.is_local = True
        self.expression("a term")
        self.is_local = False
        self.expect(",", "a comma, as `bagof` has three arguments,")
        self.goal()
        self.scopes.pop()
        self.expect(",", "a comma, as `bagof` has three arguments,")
        self.expression("a term")
        self.expect(")", "`)`, as `bagof` has three arguments,")

    def expression(self, wanted):
        """A sum. Gives the key and the place where it is an atom alone, and nothing else."""
        atom = self.product(wanted)
        while self.peek().is_mark(*SUMS):
            self.take()
            self.product("a term")
            atom = None
        return atom

    def product(self, wanted):
        atom = self.primary(wanted)
        while self.peek().is_mark(*PRODUCTS):
            self.take()
            self.primary("a term")
            atom = None
        return atom

    def primary(self, wanted):
        token = self.peek()
        if token.kind in ("name", "quoted"):
            return self.atom(wanted)
        if token.kind == "variable":
            self.variable(self.take())
        elif token.kind == "integer":
            self.take()
        elif token.is_mark("["):
            self.list()
        elif token.is_mark("("):
            self.take()
            self.expression("a term")
            self.expect(")", "an operator or `)`")
        else:
            raise self.fault(wanted)
        return None

    def atom(self, wanted):
        if self.peek().kind not in ("name", "quoted"):
            raise self.fault(wanted)
        token, arity = self.take(), 0
        if self.peek().is_call:
            self.take()
            arity = self.items("an argument")
            self.expect(")", "a comma or `)`")
        elif self.peek().is_mark("("):
            raise Fault(self.peek().at, "the bracket of arguments stands directly behind the name")
        self.clause.widest = max(self.clause.widest, (arity, token.at), key=lambda it: it[0])
        return key_of(symbol_of(token), arity), token.at

    def items(self, wanted):
        self.expression(wanted)
        count = 1
        while self.peek().is_mark(","):
            self.take()
            self.expression(wanted)
            count += 1
        return count

    def list(self):
        self.take()
        if not self.peek().is_mark("]"):
            self.items("an element")
            if self.peek().is_mark("|"):
                self.take()
                self.expression("the list's tail")
        self.expect("]", "a comma, `|` or `]`")

    def variable(self, token):
        """Notes where a variable stands: that of the innermost `bagof` whose term has it, else the clause's."""
        named = [names for names in self.scopes if token.text in names]
        if token.text == "_" or self.is_local and self.scopes[-1] not in named or not named:
            places = []
            self.clause.variables.append((token.text, places))
            if token.text != "_":
                self.scopes[-1 if self.is_local else 0][token.text] = places
        else:
            places = named[-1][token.text]
        places.append(token.at)


def clauses_of(text):
    """The clauses of a program. Raises the `Fault` of the first that isn't one."""
    clauses, at = [], LAYOUT.match(text).end()
    while at < len(text):
        reader = Reader(text, at)
        clauses.append(reader.read_clause())
        at = LAYOUT.match(text, reader.peek().at + 1).end()
    return clauses


def own_query(text):
    """The query of a file: the first indented lines of the comment with which it begins; `None` without any."""
    lines = []
    for line in text.splitlines():
        if line.startswith("%  "):
            lines.append(line[1:].strip())
        elif lines or not line.startswith("%"):
            break
    return " ".join(lines) or None
