"""The tree of a script, and what reads it from a text by the grammar of docs/LANGUAGE.md.

A script is taken to be one that is accepted: apart from the grammar nothing is refused.
"""
from __future__ import annotations

import re
from dataclasses import dataclass, field
from typing import NamedTuple, Optional

RANKS = {"background": 0, "low": 1, "medium": 2, "high": 3}
MEDIUM, HIGH = RANKS["medium"], RANKS["high"]

Expr = tuple  # ("number", 3), ("name", "x"), ("local", "L"), ("priority",), ("cancelled",), or an operator and what it is used on.


class Call(NamedTuple):
    actor: str
    method: str
    arguments: tuple[Expr, ...]


@dataclass(frozen=True, eq=False)
class Statement:
    """A statement. Its kind says which of the other parts it has."""

    kind: str  # let, set, await, make, add, cancel, if, while, bind, group, assume, return, throw, check, yield
    name: str = ""  # of the variable, task, group, task local or actor that it is about
    value: Optional[Expr] = None  # what is computed; of an await, the value of `else`
    way: str = ""  # of an await: call, task or next; of a make: spawn or detach; of an add: unless or nothing
    new: bool = False  # of an await: whether it makes its variable
    on: str = ""  # of an await: the task or the group
    call: Optional[Call] = None
    rank: Optional[int] = None  # what stands after `at`
    block: tuple[Statement, ...] = ()
    other: tuple[Statement, ...] = ()  # the block of `else`


@dataclass(frozen=True, eq=False)
class Method:
    name: str
    actor: Actor
    parameters: list[str]
    block: tuple[Statement, ...]
    words: frozenset[str]  # the tokens of its text


@dataclass(eq=False)
class Actor:
    name: str
    on: str
    places: dict[str, int] = field(default_factory=dict)  # of its fields, among those of its executor
    starts: list[int] = field(default_factory=list)
    invariant: Optional[Expr] = None
    methods: dict[str, Method] = field(default_factory=dict)
    executor: int = -1


class Root(NamedTuple):
    name: str
    actor: str
    method: str
    arguments: list[int]
    rank: int


@dataclass
class Script:
    executors: list[str] = field(default_factory=list)  # their kinds: the declared ones, then those of actors without `on`
    names: dict[str, int] = field(default_factory=dict)  # of the declared executors
    locals: dict[str, tuple[int, int]] = field(default_factory=dict)  # place and default
    actors: dict[str, Actor] = field(default_factory=dict)
    roots: list[Root] = field(default_factory=list)
    words: frozenset[str] = frozenset()

    def place(self) -> None:
        """Gives each actor its executor, and its fields their places there."""
        taken = [0] * (len(self.executors) + len(self.actors))
        for actor in self.actors.values():
            if actor.on:
                actor.executor = self.names[actor.on]
            else:
                actor.executor = len(self.executors)
                self.executors.append("priority")
            for name in actor.places:
                actor.places[name] = taken[actor.executor]
                taken[actor.executor] += 1

    def method(self, actor: str, name: str) -> Method:
        return self.actors[actor].methods[name]

    def actors_of(self, executor: int) -> list[Actor]:
        return [actor for actor in self.actors.values() if actor.executor == executor]

    def root_place(self, name: str) -> int:
        return [root.name for root in self.roots].index(name)


class NoScript(Exception):
    """The text is not spelled by the grammar."""


class Reader:
    """Reads a script by the grammar, from left to right."""

    TOKEN = re.compile(r"\s+|//[^\n]*|([A-Za-z_]\w*|\d+|==|!=|<=|>=|&&|\|\||[-+*<>=!(){},;.@])")
    KEYWORDS = frozenset(
        """actor add assume at await background bind cancel cancelled check detach else executor fifo func group high if invariant let local
        low medium next on pinned priority return root spawn task throw unless var while yield""".split()
    )
    COMPARISONS = ["==", "!=", "<=", ">=", "<", ">"]
    BINARY = [["||"], ["&&"], COMPARISONS, ["+", "-"], ["*"]]

    def __init__(self, text: str):
        self.tokens: list[str] = []
        place = 0
        while place < len(text):
            found = self.TOKEN.match(text, place)
            if not found:
                raise NoScript(f"no token begins with {text[place]!r}")
            if found[1]:
                self.tokens.append(found[1])
            place = found.end()
        self.at = 0

    def peek(self) -> str:
        return self.tokens[self.at] if self.at < len(self.tokens) else ""

    def next(self) -> str:
        self.at += 1
        return self.tokens[self.at - 1] if self.at <= len(self.tokens) else ""

    def take(self, *words: str) -> bool:
        """Passes these tokens, if they come next."""
        if tuple(self.tokens[self.at : self.at + len(words)]) != words:
            return False
        self.at += len(words)
        return True

    def want(self, *words: str) -> None:
        if not self.take(*words):
            before = " ".join(self.tokens[max(0, self.at - 6) : self.at])
            raise NoScript(f"{self.peek()!r} where {' '.join(words)!r} has to stand, after {before}")

    def name(self) -> str:
        word = self.next()
        if not re.match(r"[A-Za-z_]", word) or word in self.KEYWORDS:
            raise NoScript(f"{word!r} where a name has to stand")
        return word

    def script(self) -> Script:
        script = Script(words=frozenset(self.tokens))
        while self.peek():
            word = self.next()
            if word == "executor":
                script.names[self.name()] = len(script.executors)
                script.executors.append(self.next())
                if script.executors[-1] == "pinned":
                    self.next()
            elif word == "local":
                name = self.name()
                self.want("=")
                script.locals[name] = (len(script.locals), self.integer())
            elif word == "actor":
                actor = self.actor()
                script.actors[actor.name] = actor
                continue
            elif word == "root":
                script.roots.append(self.root())
            else:
                raise NoScript(f"{word!r} begins no declaration")
            self.want(";")
        script.place()
        return script

    def integer(self) -> int:
        sign = -1 if self.take("-") else 1
        return sign * int(self.next())

    def rank(self) -> Optional[int]:
        return RANKS[self.next()] if self.take("at") else None

    def listed(self, item) -> list:
        """What stands in parentheses, separated by commas."""
        self.want("(")
        items = []
        while not self.take(")"):
            if items:
                self.want(",")
            items.append(item())
        return items

    def root(self) -> Root:
        name = self.name()
        self.want("=")
        actor = self.name()
        self.want(".")
        method, arguments, rank = self.name(), self.listed(self.integer), self.rank()
        return Root(name, actor, method, arguments, MEDIUM if rank is None else rank)

    def actor(self) -> Actor:
        name = self.name()
        actor = Actor(name, self.name() if self.take("on") else "")
        self.want("{")
        while self.take("var"):
            actor.places[self.name()] = -1
            self.want("=")
            actor.starts.append(self.integer())
            self.want(";")
        if self.take("invariant"):
            actor.invariant = self.expr()
            self.want(";")
        while self.take("func"):
            begin = self.at
            name, parameters = self.name(), self.listed(self.name)
            block = self.block()
            actor.methods[name] = Method(name, actor, parameters, block, frozenset(self.tokens[begin : self.at]))
        self.want("}")
        return actor

    def block(self) -> tuple[Statement, ...]:
        self.want("{")
        statements = []
        while not self.take("}"):
            statements.append(self.statement())
        return tuple(statements)

    def statement(self) -> Statement:
        word = self.next()
        if word == "if":
            return Statement("if", value=self.expr(), block=self.block(), other=self.block() if self.take("else") else ())
        if word == "while":
            return Statement("while", value=self.expr(), block=self.block())
        if word in ("group", "assume"):
            return Statement(word, self.name(), block=self.block())
        if word == "bind":
            name = self.name()
            self.want("=")
            return Statement("bind", name, self.expr(), block=self.block())
        statement = self.action(word)
        self.want(";")
        return statement

    def action(self, word: str) -> Statement:
        if word in ("check", "yield"):
            return Statement(word)
        if word in ("return", "throw"):
            return Statement(word, value=self.expr())
        if word == "cancel":
            return Statement("cancel", self.name())
        if word == "await":
            return self.wait("", False)
        if word in ("spawn", "detach"):
            return Statement("make", way=word, call=self.call(), rank=self.rank())
        if word == "add":
            name, way = self.name(), "unless" if self.take("unless") else ""
            return Statement("add", name, way=way, call=self.call(), rank=self.rank())
        new = word == "let"
        if not new:
            self.at -= 1
        name = self.name()
        self.want("=")
        if self.take("await"):
            return self.wait(name, new)
        if new and self.peek() in ("spawn", "detach"):
            return Statement("make", name, way=self.next(), call=self.call(), rank=self.rank())
        return Statement("let" if new else "set", name, self.expr())

    def wait(self, name: str, new: bool) -> Statement:
        way = self.next() if self.peek() in ("task", "next") else "call"
        on, call = ("", self.call()) if way == "call" else (self.name(), None)
        return Statement("await", name, self.expr() if self.take("else") else None, way, new, on, call)

    def call(self) -> Call:
        actor = self.name()
        self.want(".")
        return Call(actor, self.name(), tuple(self.listed(self.expr)))

    def expr(self, level: int = 0) -> Expr:
        if level == len(self.BINARY):
            return self.unary()
        left = self.expr(level + 1)
        while self.peek() in self.BINARY[level]:
            left = (self.next(), left, self.expr(level + 1))
            if left[0] in self.COMPARISONS:
                break  # they are not chained
        return left

    def unary(self) -> Expr:
        word = self.next()
        if word in ("-", "!"):
            return (word, self.unary())
        if word == "(":
            inside = self.expr()
            self.want(")")
            return inside
        if word == "@":
            return ("local", self.name())
        if word in ("priority", "cancelled"):
            return (word,)
        if word.isdigit():
            return ("number", int(word))
        self.at -= 1
        return ("name", self.name())
