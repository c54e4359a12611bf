"""Makes mistakes in a module of Python: another operator, number or condition, two arguments exchanged, a statement or
a part of one left out."""
import ast
import io
import tokenize
from collections.abc import Iterator, Sequence
from itertools import accumulate
from typing import NamedTuple, Optional


class Change(NamedTuple):
    """A piece of a module's text, and the mistake in its place."""

    start: int
    end: int
    new: str


class Token(NamedTuple):
    """A token of Python, and its place in the text."""

    kind: int
    text: str
    start: int
    end: int


COMPARISONS = {
    "==": ["!="],
    "!=": ["=="],
    "<": ["<=", ">="],
    "<=": ["<", ">"],
    ">": [">=", "<="],
    ">=": [">", "<"],
    "in": ["not in"],
    "not in": ["in"],
    "is": ["is not"],
    "is not": ["is"],
}
OTHERS = {"and": "or", "or": "and", "+": "-", "-": "+"}
NAMES = {"True": "False", "False": "True"}
CALLED = {"any": "all", "all": "any", "min": "max", "max": "min", "lstat": "stat", "stat": "lstat"}
OPENS, CLOSES = ("(", "[", "{"), (")", "]", "}")
# after these a parenthesis encloses an expression
KEYWORDS = {"and", "or", "not", "in", "is", "if", "else", "elif", "while", "for", "return", "yield", "assert", "lambda"}
# the kinds of statements that do something, and can be left out
DOES = (ast.AugAssign, ast.Raise, ast.Continue, ast.Break, ast.Return, ast.Delete)


class Module:
    """A module of Python, by its syntax and its tokens."""

    def __init__(self, text: str) -> None:
        self.text, self.tree = text, ast.parse(text)
        lines = text.splitlines(True)
        # the offset at which each line begins
        self.lines = [sum(map(len, lines[:number])) for number in range(len(lines) + 1)]
        left_out = (tokenize.COMMENT, tokenize.NL)
        self.tokens = [
            Token(token[0], token[1], self.offset(*token[2]), self.offset(*token[3]))
            for token in tokenize.generate_tokens(io.StringIO(text).readline)
            if token[0] not in left_out
        ]
        self.numbers = {token.start: number for number, token in enumerate(self.tokens) if token.text}
        # the tuples that no value is: between brackets, and those that values are given to
        self.types = {
            id(node.slice if isinstance(node, ast.Subscript) else node)
            for node in ast.walk(self.tree)
            if isinstance(node, ast.Subscript) or isinstance(getattr(node, "ctx", None), ast.Store)
        }

    def offset(self, line: int, column: int) -> int:
        """The offset in the text of a line and a column."""
        return self.lines[line - 1] + column

    def number_of(self, node: ast.AST) -> int:
        """The number of the first token of a node, with the parentheses around it."""
        number = self.numbers[self.offset(getattr(node, "lineno"), getattr(node, "col_offset"))]
        while self.tokens[number - 1].text == "(" and self.is_around(number - 1):
            number -= 1
        return number

    def is_around(self, number: int) -> bool:
        """Whether a parenthesis encloses an expression, and is not that of a call or a definition."""
        before = self.tokens[number - 1]
        return not (before.kind == tokenize.NAME and before.text not in KEYWORDS or before.text in (")", "]"))

    def end_of(self, number: int, ends: tuple[str, ...]) -> int:
        """The number of the token that ends what begins at one: it is one of these, or closes what is around."""
        depth = 0
        while True:
            token = self.tokens[number]
            if depth == 0 and (token.text in ends or token.text in CLOSES or token.kind == tokenize.NEWLINE):
                return number
            depth += (token.text in OPENS) - (token.text in CLOSES)
            number += 1

    def changes(self) -> Iterator[Change]:
        """Each mistake that is made in the module."""
        for token, following in zip(self.tokens, self.tokens[1:]):
            if token.kind == tokenize.NUMBER and token.text.isdigit():
                yield Change(token.start, token.end, str(int(token.text) + 1))
            elif token.text.startswith("0o"):
                yield Change(token.start, token.end, oct(int(token.text, 8) ^ 0o022))
            elif token.text in NAMES:
                yield Change(token.start, token.end, NAMES[token.text])
            elif token.text in CALLED and following.text == "(":
                yield Change(token.start, token.end, CALLED[token.text])
        for node in ast.walk(self.tree):
            yield from self.changes_of(node)
            yield from self.parts_left_out(node)

    def changes_of(self, node: ast.AST) -> Iterator[Change]:
        """The mistakes that are made in a node."""
        if isinstance(node, ast.Compare):
            for right in node.comparators:
                yield from self.operator_before(right)
        elif isinstance(node, ast.BoolOp):
            for right in node.values[1:]:
                yield from self.operator_before(right)
        elif isinstance(node, ast.BinOp) and isinstance(node.op, (ast.Add, ast.Sub)):
            yield from self.operator_before(node.right)
        elif isinstance(node, ast.UnaryOp) and isinstance(node.op, ast.Not):
            first = self.tokens[self.numbers[self.offset(node.lineno, node.col_offset)]]
            yield Change(first.start, first.end, "")
        elif isinstance(node, (ast.If, ast.While, ast.IfExp)):
            yield from self.negated(node.test)
        elif isinstance(node, ast.Call) and len(node.args) > 1:
            yield from self.swapped(node.args[0])
        elif isinstance(node, ast.stmt) and does_something(node):
            first = self.tokens[self.number_of(node)]
            yield Change(first.start, self.tokens[self.end_of(self.number_of(node), (";",))].start, "pass")

    def operator_before(self, right: ast.AST) -> Iterator[Change]:
        """Another operator before what is to its right."""
        last = self.number_of(right) - 1
        first = last - (self.tokens[last - 1].text + " " + self.tokens[last].text in COMPARISONS)
        text = " ".join(token.text for token in self.tokens[first : last + 1])
        for new in COMPARISONS.get(text) or [OTHERS[text]]:
            yield Change(self.tokens[first].start, self.tokens[last].end, new)

    def negated(self, test: ast.AST) -> Iterator[Change]:
        """The contrary of a condition, unless an operator in it says so."""
        if not isinstance(test, (ast.Compare, ast.UnaryOp)):
            start, end = self.span_of(test)
            yield Change(start, end, f"(not ({self.text[start:end]}))")

    def span_of(self, node: ast.AST) -> tuple[int, int]:
        """Where a node begins and ends, with the parentheses that enclose nothing else."""
        first = self.numbers[self.offset(getattr(node, "lineno"), getattr(node, "col_offset"))]
        end = self.offset(getattr(node, "end_lineno"), getattr(node, "end_col_offset"))
        last = next(number for number in range(first, len(self.tokens)) if self.tokens[number].end >= end)
        while self.tokens[first - 1].text == "(" and self.tokens[last + 1].text == ")" and self.is_around(first - 1):
            first, last = first - 1, last + 1
        return self.tokens[first].start, self.tokens[last].end

    def parts_left_out(self, node: ast.AST) -> Iterator[Change]:
        """A node without one of its parts: an operand, an element, an argument that has a name, a condition, a fault
        that is caught, or a context."""
        if isinstance(node, ast.BoolOp):
            yield from self.each_left_out(node.values)
        elif isinstance(node, ast.BinOp) and isinstance(node.op, ast.BitOr):
            yield from self.each_left_out([node.left, node.right])
        elif isinstance(node, (ast.List, ast.Set)) or isinstance(node, ast.Tuple) and id(node) not in self.types:
            yield from self.each_left_out(node.elts)
        elif isinstance(node, ast.Call):
            places = [number for number, one in enumerate(node.keywords, len(node.args)) if one.arg]
            yield from self.each_left_out([*node.args, *node.keywords], places)
        elif isinstance(node, ast.comprehension):
            for test in node.ifs:
                yield Change(*self.span_of(test), "True")
        elif isinstance(node, ast.IfExp):
            yield from (
                Change(*self.span_of(node), self.text[slice(*self.span_of(one))]) for one in (node.body, node.orelse)
            )
        elif isinstance(node, ast.With) and not any(item.optional_vars for item in node.items):
            start = self.offset(node.lineno, node.col_offset)
            yield Change(start, self.span_of(node.items[-1].context_expr)[1], "if True")
        elif isinstance(node, ast.ExceptHandler) and node.type:
            yield Change(*self.span_of(node.type), "ZeroDivisionError")

    def each_left_out(self, parts: Sequence[ast.AST], places: Optional[Sequence[int]] = None) -> Iterator[Change]:
        """Several parts without one of them, of those at some places or of all."""
        spans = [self.span_of(part) for part in parts]
        for place in range(len(spans)) if places is None else places:
            if place:
                yield Change(spans[place - 1][1], spans[place][1], "")
            elif len(spans) > 1:
                yield Change(spans[0][0], spans[1][0], "")

    def swapped(self, left: ast.AST) -> Iterator[Change]:
        """The first two arguments of a call, exchanged."""
        first = self.number_of(left)
        comma = self.end_of(first, (",",))
        start, middle = self.tokens[first].start, self.tokens[comma].start
        rest = self.tokens[comma + 1].start
        end = self.tokens[self.end_of(comma + 1, (",",))].start
        if self.tokens[comma].text == "," and self.text[start:middle] != self.text[rest:end]:
            yield Change(start, end, f"{self.text[rest:end].strip()}, {self.text[start:middle]}")


def does_something(node: ast.stmt) -> bool:
    """Whether a statement can be left out without another one being left out."""
    if isinstance(node, ast.Expr):
        return isinstance(node.value, (ast.Call, ast.Yield, ast.YieldFrom))
    if isinstance(node, ast.Assign):
        return any(isinstance(target, (ast.Attribute, ast.Subscript)) for target in node.targets)
    return isinstance(node, DOES)


def functions_of(text: str) -> Iterator[tuple[str, int, int]]:
    """The functions in the text of a module: their names, and the offsets at which they begin and end."""
    begins = [0, *accumulate(len(line) + 1 for line in text.split("\n"))]
    for node in ast.walk(ast.parse(text)):
        if isinstance(node, ast.FunctionDef):
            yield node.name, begins[node.lineno - 1] + node.col_offset, begins[node.end_lineno or node.lineno]
