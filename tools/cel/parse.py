"""CEL text of the domain to a record tree (rules/assemble.py), with the macros expanded as the crate's parser does.

    parse("xs.all(x, x > 0)", Names())      a Node; CelError says what is not CEL or not in the domain

The grammar is the language definition's, with optional syntax (`a.?f`, `a[?i]`, `[?e]`, `{?k: e}`). One record stands for
each operator written, so `!!a` is two; chains of `||` and `&&` lean to the left. A minus before a number belongs to it.

What a table can hold and CEL cannot say has words of its own, all with `@`:
    @not_strictly_false(e)   @optional_select(e, k)   @select(e, "f")   @has(e, "f")   @double(0x7ff8000000000000)
    @fold(accumulator, item, range, init, condition, step, result)
"""

from __future__ import annotations

import assemble as make
from assemble import Node
from lexer import KEYWORDS, RESERVED, CelError, Token, tokens
from names import Names

RELATIONS = ("<", "<=", ">=", ">", "==", "!=", "in")


def parse(text: str, names: "Names | None" = None) -> Node:
    parser = Parser(text, Names() if names is None else names)
    root = parser.expression()
    if parser.token.kind != "end":
        raise CelError(f"{parser.token.value!r} cannot stand here", parser.token.at)
    return root


class Parser:
    def __init__(self, text: str, names: Names) -> None:
        self.left, self.names = list(tokens(text))[::-1], names

    # ------------------------------------------------------------ tokens

    @property
    def token(self) -> Token:
        return self.left[-1]

    def at_mark(self, *marks: str) -> bool:
        return self.token.kind == "mark" and self.token.value in marks

    def take(self, *marks: str) -> "str | None":
        """The mark or keyword that comes next, if it is one of these."""
        if self.token.kind in ("mark", "word") and self.token.value in marks:
            return self.left.pop().value
        return None

    def want(self, mark: str) -> None:
        if not self.take(mark):
            raise CelError(f"{mark!r} is wanted here", self.token.at)

    # ------------------------------------------------------------ operators, from the loosest

    def expression(self) -> Node:
        condition = self.chain(("||",), lambda: self.chain(("&&",), self.relation))
        if not self.take("?"):
            return condition
        if_true = self.chain(("||",), lambda: self.chain(("&&",), self.relation))
        self.want(":")
        return make.conditional(condition, if_true, self.expression())

    def chain(self, operators: tuple, operand) -> Node:
        node = operand()
        while operator := self.take(*operators):
            node = make.binary(operator, node, operand())
        return node

    def relation(self) -> Node:
        return self.chain(RELATIONS, lambda: self.chain(("+", "-"), lambda: self.chain(("*", "/", "%"), self.unary)))

    def unary(self) -> Node:
        operator = self.take("!", "-")
        if operator is None:
            return self.member(self.primary())
        if operator == "-" and self.token.kind in ("int", "double"):
            return self.member(self.number(-1))
        if self.at_mark("!", "-") and not self.at_mark(operator) and self.left[-2].kind not in ("int", "double"):
            raise CelError("'!' and '-' do not stand side by side", self.token.at)
        return make.unary(operator, self.unary())

    # ------------------------------------------------------------ members and calls

    def member(self, node: Node) -> Node:
        while mark := self.take(".", "["):
            optional = self.take("?")
            if mark == "[":
                node = (make.optional_index if optional else make.index)(node, self.expression())
                self.want("]")
                continue
            at, field = self.token.at, self.selector()
            if optional:
                node = make.optional_select(node, make.string(field))
            elif self.take("("):
                node = self.member_call(node, field, at)
            else:
                node = make.select(node, field)
        return node

    def selector(self) -> str:
        token = self.left.pop()
        if token.kind == "field" or token.kind == "word" and token.value not in KEYWORDS:
            return token.value
        raise CelError("a field's name is wanted here", token.at)

    def arguments(self) -> "list[Node]":
        given: list[Node] = []
        while not self.take(")"):
            if given:
                self.want(",")
            given.append(self.expression())
        return given

    def member_call(self, target: Node, called: str, at: int) -> Node:
        if called in MACROS:
            return self.macro(target, called, at)
        given = self.arguments()
        if (called, len(given)) in (("size", 0), ("hasValue", 0), ("value", 0), ("orValue", 1)):
            return make.function(called, target, *given)
        raise CelError(f"no method {called} of {len(given)} arguments in the domain", at)

    # ------------------------------------------------------------ macros

    def macro(self, target: Node, called: str, at: int) -> Node:
        """`target.called(variable, ..)`; the opening bracket is taken."""
        variable = self.simple_name()
        self.want(",")
        item = self.names.number(variable)
        if called in ("optMap", "optFlatMap"):
            return self.optional_macro(target, called, variable, at)
        given, accu = self.arguments(), self.names.number("@result")
        if called == "map" and len(given) == 2:
            return make.map_to(target, item, given[1], guard=given[0], accu=accu)
        if len(given) != 1:
            raise CelError(f"{called} takes a name and {'one or two expressions' if called == 'map' else 'an expression'}", at)
        return MACROS[called](target, item, given[0], accu=accu)

    def simple_name(self) -> str:
        token = self.left.pop()
        if token.kind != "word" or token.value in KEYWORDS | RESERVED:
            raise CelError("a macro binds a simple name", token.at)
        return token.value

    def optional_macro(self, target: Node, called: str, variable: str, at: int) -> Node:
        """`t.hasValue() ? optional.of(e with variable = t.value()) : optional.none()`; optFlatMap has no `optional.of`."""
        given = self.arguments()
        if len(given) != 1:
            raise CelError(f"{called} takes a name and an expression", at)
        known = target if target.kind == 7 else make.name(self.names.number("@target"))
        mapped = self.bound(self.names.number(variable), make.value(known), given[0])
        result = make.conditional(make.has_value(known), make.of(mapped) if called == "optMap" else mapped, make.none)
        return result if known is target else self.bound(self.names.number("@target"), target, result)

    def bound(self, number: int, init: Node, result: Node) -> Node:
        """A name bound to a value: a comprehension over nothing, whose accumulator it is."""
        unused = self.names.number("#unused")
        return make.comprehension(number, unused, make.listing(), init, make.false, make.name(number), result)

    # ------------------------------------------------------------ primary expressions

    def number(self, sign: int = 1) -> Node:
        token = self.left.pop()
        if token.kind == "double":
            return make.double(sign * token.value)
        if token.kind == "int" and token.value == 2**63 and sign > 0:
            raise CelError("an int is below 2^63", token.at)
        return make.uint(token.value) if token.kind == "uint" else make.integer(sign * token.value)

    def primary(self) -> Node:
        token = self.token
        if token.kind in ("int", "uint", "double"):
            return self.number()
        self.left.pop()
        if token.kind in ("string", "bytes"):
            return (make.string if token.kind == "string" else make.byte_string)(token.value)
        if token.kind == "word":
            return self.word(token)
        if token.kind == "mark" and token.value == "(":
            node = self.expression()
            self.want(")")
            return node
        if token.kind == "mark" and token.value == "[":
            return make.listing(*self.parts("]", self.element))
        if token.kind == "mark" and token.value == "{":
            return make.mapping(*self.parts("}", self.entry))
        if token.kind == "mark" and token.value == ".":
            raise CelError("names with a leading dot are not in the domain", token.at)
        raise CelError("an expression is wanted here", token.at)

    def parts(self, closing: str, part) -> list:
        """The parts of a list or a map up to the closing mark; a comma may stand before that, also where there is no part."""
        given = []
        if not self.at_mark(",", closing):
            given.append(part())
        while self.take(",") and given and not self.at_mark(closing):
            given.append(part())
        self.want(closing)
        return given

    def element(self) -> Node:
        return make.mark(self.expression()) if self.take("?") else self.expression()

    def entry(self) -> "tuple[Node, Node]":
        marked = self.take("?")
        key = self.expression()
        self.want(":")
        value = self.expression()
        return key, make.mark(value) if marked else value

    def word(self, token: Token) -> Node:
        constants = {"true": make.true, "false": make.false, "null": make.null}
        if token.value in constants:
            return constants[token.value]
        if token.value in RESERVED or token.value == "in":
            raise CelError(f"{token.value} is a reserved word", token.at)
        if token.value == "optional" and self.at_mark(".") and self.left[-2].value in ("of", "none") and self.left[-3].value == "(":
            called = "optional." + self.left[-2].value
            del self.left[-3:]
            return self.function(called, self.arguments(), token.at)
        if self.take("("):
            return self.function(token.value, self.arguments(), token.at)
        return make.name(self.names.number(token.value))

    def function(self, called: str, given: "list[Node]", at: int) -> Node:
        form = called, len(given)
        if form in (("size", 1), ("optional.of", 1), ("optional.none", 0)):
            return make.function(called, *given)
        if form == ("has", 1):
            node = given[0]
            if node.kind != 11 or node.fields[0]:
                raise CelError("has takes a selected field", at)
            return make.has(node.operands[0], node.span)
        if form == ("@not_strictly_false", 1):
            return make.not_strictly_false(given[0])
        if form == ("@optional_select", 2):
            return make.optional_select(*given)
        if form in (("@select", 2), ("@has", 2)) and given[1].kind == 5:
            return make.select(given[0], given[1].span, test=called == "@has")
        if form == ("@double", 1) and given[0].kind in (2, 3):
            return make.bits(int.from_bytes(given[0].fields, "little"))
        if form == ("@fold", 7) and given[0].kind == given[1].kind == 7:
            return make.comprehension(given[0].fields[0], given[1].fields[0], *given[2:])
        raise CelError(f"no function {called} of {len(given)} arguments in the domain", at)


MACROS = {
    "all": make.all_of, "exists": make.exists, "exists_one": make.exists_one, "existsOne": make.exists_one, "map": make.map_to,
    "filter": make.filtered, "optMap": None, "optFlatMap": None,
}
