"""Reads grammars that are written as values, in `.antt` definitions, and computes with them.

`Value` has the definitions of crates/declarations/specs/rules, and the tests of classes of signs that
crates/item_tables has. It evaluates them: a grammar becomes a tree of the words of crates/grammars (`Nothing`, `Sign`,
`To`, `Mark`, `Then`, `Either`, `Many`, `Listed`), where a test of signs is the set of classes that pass it, and
`("ref", KEY)` stands for another definition. `Machine` reads signs by such trees. What this reader does not know, in a
file or in a definition, is an `Unknown`, which names the place.
"""
import dataclasses
import functools
import pathlib
import re

TOP = pathlib.Path(__file__).resolve().parents[2]
RULES = TOP / "crates/declarations/specs/rules"
LIST_OF_FILES = TOP / "crates/declarations/specs/rules.antt"
WORDS_OF_GRAMMARS = TOP / "crates/grammars/specs/Grammar.antt"
CLASSES = TOP / "crates/item_tables/src/class.rt"
TESTS_OF_CLASSES = TOP / "crates/item_tables/specs/Classes.antt"

TOKEN = re.compile(r"[A-Za-z_]\w*(?:\.[A-Za-z_]\w*)*|\d+|&&|\|\||==|\[\]|::|\S")


class Unknown(Exception):
    """Something in a source that this reader does not know."""


@dataclasses.dataclass
class Definition:
    """A definition: its type, and its equations, each with patterns and a body."""

    module: str
    name: str
    type: list[str]
    comment: str
    equations: list[tuple[list, tuple]] = dataclasses.field(default_factory=list)

    def __str__(self) -> str:
        return f"{self.module}.{self.name}"

    def parameters(self) -> list[list[str]]:
        """The types of the parameters, and at the end that of the result."""
        parts, depth = [[]], 0
        for word in self.type:
            depth += (word in "({") - (word in ")}")
            if word == "→" and depth == 0:
                parts.append([])
            else:
                parts[-1].append(word)
        return parts

    def is_rule(self) -> bool:
        """Whether it is a grammar, perhaps for each of some arguments that are no grammars."""
        *parameters, result = self.parameters()
        return result == ["G"] and not any("G" in words for words in parameters)


@dataclasses.dataclass
class Function:
    """A function that waits for more arguments."""

    count: int
    call: object
    taken: tuple = ()


# ---- the parser of expressions

class Words:
    """The words of an equation, read from the left."""

    def __init__(self, words: list[str], where: str):
        self.words, self.at, self.where = words, 0, where

    def peek(self) -> str:
        return self.words[self.at] if self.at < len(self.words) else ""

    def take(self, wanted: str = "") -> str:
        word = self.peek()
        if not word or (wanted and word != wanted):
            raise Unknown(f"{self.where}: {wanted or 'an expression'} is wanted before {word or 'the end'}")
        self.at += 1
        return word

    def name(self) -> str:
        word = self.take()
        if not re.match(r"[A-Za-z_]", word):
            raise Unknown(f"{self.where}: a name is wanted before {word}")
        return word


OPERATORS = [["∷"], ["||"], ["&&"], ["=="]]


def expression(words: Words, level: int = 0) -> tuple:
    """An expression, whose operators bind at least as tightly as those of the level."""
    if words.peek() == "λ":
        words.take()
        names = [words.name()]
        while words.peek() != ".":
            names.append(words.name())
        words.take(".")
        return ("lambda", names, expression(words))
    if words.peek() == "if":
        words.take()
        test = expression(words)
        words.take("then")
        yes = expression(words)
        words.take("else")
        return ("if", test, yes, expression(words))
    if level == len(OPERATORS):
        return application(words)
    left = expression(words, level + 1)
    if words.peek() not in OPERATORS[level]:
        return left
    # All these are associative or, as `∷` is, to the right.
    operator = words.take()
    return ("operator", operator, left, expression(words, level))


def atom(words: Words) -> tuple | None:
    """A name, a number, `[]`, or an expression in parentheses, if one stands here."""
    word = words.peek()
    if word == "(":
        words.take()
        inside = expression(words)
        words.take(")")
        return inside
    if word == "[]":
        words.take()
        return ("name", "[]")
    if word.isdigit():
        return ("number", int(words.take()))
    if re.match(r"[A-Za-z_]", word) and word not in ("then", "else", "if"):
        return ("name", words.take())
    return None


def application(words: Words) -> tuple:
    found = atom(words)
    if found is None:
        raise Unknown(f"{words.where}: an expression is wanted before {words.peek() or 'the end'}")
    while (argument := atom(words)) is not None:
        found = ("apply", found, argument)
    return found


def pattern(words: Words) -> tuple:
    """A pattern that is one word or stands in parentheses: a variable, `_`, `[]`, a constructor, or `x ∷ xs`."""
    if words.peek() == "(":
        words.take()
        parts = [pattern(words)]
        while words.peek() != ")":
            if words.peek() == "∷":
                words.take()
                tail = pattern(words)
                words.take(")")
                return ("∷", parts[0] if len(parts) == 1 else ("constructor", parts), tail)
            parts.append(pattern(words))
        words.take(")")
        return parts[0] if len(parts) == 1 else ("constructor", parts)
    if words.peek() == "[]":
        words.take()
        return ("constructor", ["[]"])
    word = words.name()
    last = word.split(".")[-1]
    if last[0].isupper() or last in ("true", "false"):
        return ("constructor", [last])
    return ("variable", word)


# ---- the files

def statements(text: str):
    """The lines that begin at the left of a file, each with the indented lines after it and the comment above it."""
    comment, found = [], None
    for number, line in enumerate(text.split("\n"), 1):
        bare = line.split("--")[0].rstrip() if line.startswith(" ") else line
        if line.startswith(" "):
            if found:
                found[1].append(bare)
            continue
        if found:
            yield found[0], "\n".join(found[1]), found[2]
            found = None
        if line.startswith("-- ----") or not line:
            comment = []
        elif line.startswith("--"):
            comment.append(line[2:].strip())
        else:
            found = (number, [line.split("--")[0].rstrip()], " ".join(comment))
            comment = comment if line.startswith("abbrev") else []
    if found:
        yield found[0], "\n".join(found[1]), found[2]


class Module:
    """A file: its definitions, and what the names in it mean."""

    def __init__(self, path: pathlib.Path):
        self.name = path.stem
        self.definitions: dict[str, Definition] = {}
        self.uses: dict[str, str] = {}
        self.constructors: dict[str, list[str]] = {}
        for number, text, comment in statements(path.read_text()):
            self.add(f"{path.name}:{number}", text, comment)

    def add(self, where: str, text: str, comment: str) -> None:
        if text.startswith("use "):
            self.add_use(where, " ".join(text.split()))
        elif found := re.fullmatch(r"pub data (\w+) .*? where(.*)", text, re.S):
            self.constructors[found[1]] = re.findall(r"^ +(\w+) :", found[2], re.M)
            if found[1] == "Derives":
                del self.constructors[found[1]]
        elif found := re.fullmatch(r"abbrev (?:pub )?(\w+) : (.*)", text, re.S):
            self.definitions[found[1]] = Definition(self.name, found[1], TOKEN.findall(found[2]), comment)
        elif (found := re.match(r"(\w+)", text)) and found[1] in self.definitions:
            self.add_equation(self.definitions[found[1]], where, TOKEN.findall(text))
        else:
            raise Unknown(f"{where}: {text.splitlines()[0]}")

    def add_use(self, where: str, text: str) -> None:
        if found := re.fullmatch(r"use ([\w.]+)\.\{(.*)\}", text):
            for name in filter(None, (it.strip() for it in found[2].split(","))):
                self.uses[name] = found[1]
        elif found := re.fullmatch(r"use ([\w.]+) as (\w+)", text):
            self.uses[found[2]] = found[1]
        else:
            raise Unknown(f"{where}: {text}")

    def add_equation(self, definition: Definition, where: str, words: list[str]) -> None:
        if definition.parameters()[-1][:1] == ["Type"]:
            return
        read = Words(words, f"{where}: {definition}")
        read.take(definition.name)
        patterns = []
        while read.peek() != "=":
            patterns.append(pattern(read))
        read.take("=")
        body = expression(read)
        if read.peek():
            raise Unknown(f"{read.where}: {read.peek()} is not expected")
        if definition.equations and len(definition.equations[0][0]) != len(patterns):
            raise Unknown(f"{read.where}: not as many patterns as in the equation before")
        definition.equations.append((patterns, body))


# ---- evaluation

def match(form: tuple, value, bound: dict) -> bool:
    if form[0] == "variable":
        if form[1] != "_":
            bound[form[1]] = value
        return True
    if form[0] == "∷":
        return value[0] == "∷" and match(form[1], value[1], bound) and match(form[2], value[2], bound)
    head, *inside = form[1]
    if isinstance(head, tuple):
        head = head[1][0]
    return value[0] == head and len(value) == len(inside) + 1 and all(
        match(part, it, bound) for part, it in zip(inside, value[1:]))


def truth(value: bool) -> tuple:
    return ("true",) if value else ("false",)


def is_true(value) -> bool:
    if value not in (("true",), ("false",)):
        raise TypeError(f"{value} is neither true nor false")
    return value == ("true",)


class Value:
    """All definitions of the grammar of declarations. A key is a module, a definition's name, and its arguments."""

    def __init__(self, folder: pathlib.Path = RULES, tests: pathlib.Path = TESTS_OF_CLASSES):
        listed = re.findall(r"^pub mod (\w+)$", LIST_OF_FILES.read_text(), re.M)
        there = {path.stem for path in folder.glob("*.antt")}
        if there != set(listed):
            raise Unknown(f"rules.antt does not list the files of rules: {sorted(there ^ set(listed))}")
        self.modules = {name: Module(folder / f"{name}.antt") for name in listed}
        self.modules["Grammar"] = Module(WORDS_OF_GRAMMARS)
        self.modules["Classes"] = Module(tests)
        self.known: dict[tuple, object] = {}
        self.arguments: dict[tuple, tuple] = {}
        self.answers: dict[tuple, object] = {}
        self.classes = self.list_of(self.call(self.definition("Classes", "classes"), ()))

    def definition(self, module: str, name: str) -> Definition:
        if module not in self.modules or name not in self.modules[module].definitions:
            raise Unknown(f"nothing is defined as {module}.{name}")
        return self.modules[module].definitions[name]

    def rules(self) -> list[Definition]:
        """The definitions that are grammars."""
        return [it for name, module in self.modules.items() if name != "Grammar"
                for it in module.definitions.values() if it.is_rule()]

    def list_of(self, value) -> list:
        found = []
        while value[0] == "∷":
            found.append(value[1])
            value = value[2]
        return found

    # ---- expressions

    def apply(self, function, argument):
        if isinstance(function, tuple) and function[0] != "ref":
            return (*function, argument)
        if not isinstance(function, Function):
            raise TypeError(f"{function} is applied")
        taken = (*function.taken, argument)
        return function.call(*taken) if len(taken) == function.count else Function(function.count, function.call, taken)

    def evaluate(self, form: tuple, bound: dict, module: Module):
        kind = form[0]
        if kind == "number":
            return form[1]
        if kind == "name":
            return bound[form[1]] if form[1] in bound else self.named(form[1], module)
        if kind == "apply":
            return self.apply(self.evaluate(form[1], bound, module), self.evaluate(form[2], bound, module))
        if kind == "if":
            return self.evaluate(form[2 if is_true(self.evaluate(form[1], bound, module)) else 3], bound, module)
        if kind == "lambda":
            def call(*arguments):
                return self.evaluate(form[2], {**bound, **dict(zip(form[1], arguments))}, module)
            return Function(len(form[1]), call)
        operator, left = form[1], self.evaluate(form[2], bound, module)
        if operator == "||" and is_true(left):
            return left
        if operator == "&&" and not is_true(left):
            return left
        right = self.evaluate(form[3], bound, module)
        if operator == "==":
            if not isinstance(left, int) or not isinstance(right, int):
                raise TypeError(f"{left} == {right}")
            return truth(left == right)
        if operator == "∷":
            return ("∷", left, right)
        is_true(right)
        return right

    def named(self, word: str, module: Module):
        """What a name means in a module."""
        if word in ("true", "false", "[]"):
            return (word,)
        alias, _, last = word.rpartition(".")
        if alias:
            source = module.uses.get(alias, "")
            if source.endswith(".TheVariants"):
                return (last,)
            return self.of_definition(self.definition(source.split(".")[-1], last))
        if word in module.definitions:
            return self.of_definition(module.definitions[word])
        if any(word in names for names in module.constructors.values()):
            return (word,)
        source = module.uses.get(word, "")
        if word == "not" and source.endswith(".Prelude"):
            return Function(1, lambda value: truth(not is_true(value)))
        there = self.modules.get(source.split(".")[-1])
        if there and any(word in names for names in there.constructors.values()):
            return (word,)
        if there:
            return self.of_definition(self.definition(there.name, word))
        raise Unknown(f"{module.name}: {word} is not known")

    def of_definition(self, definition: Definition):
        if not definition.equations:
            raise Unknown(f"{definition} has no equation")
        count = len(definition.equations[0][0])
        if definition.is_rule():
            count = len(definition.parameters()) - 1
            return Function(count, lambda *them: self.reference(definition, them)) if count else self.reference(
                definition, ())
        if count == 0:
            return self.call(definition, ())
        return Function(count, lambda *arguments: self.call(definition, arguments))

    def call(self, definition: Definition, arguments: tuple):
        """What the first equation that fits gives. Answers for arguments that are no functions are kept."""
        if any(isinstance(it, Function) for it in arguments):
            return self.first(definition, arguments)
        key = (definition.module, definition.name, arguments)
        try:
            if key not in self.answers:
                self.answers[key] = self.first(definition, arguments)
            return self.answers[key]
        except TypeError:  # a list with a function in it
            return self.first(definition, arguments)

    def first(self, definition: Definition, arguments: tuple):
        for patterns, body in definition.equations:
            bound = {}
            some = arguments[: len(patterns)]
            if all(match(part, value, bound) for part, value in zip(patterns, some)):
                try:
                    value = self.evaluate(body, bound, self.modules[definition.module])
                    for argument in arguments[len(patterns):]:
                        value = self.apply(value, argument)
                    return value
                except TypeError as wrong:
                    raise Unknown(f"{definition}: {wrong}") from wrong
        raise Unknown(f"{definition}: no equation fits {arguments}")

    # ---- grammars

    def passing(self, test) -> frozenset:
        """The classes that pass a test."""
        return frozenset(it for it in self.classes if is_true(self.apply(test, it)))

    def reference(self, definition: Definition, arguments: tuple) -> tuple:
        """Another grammar, which is not looked at here."""
        plain = tuple(self.passing(it) if isinstance(it, Function) else it for it in arguments)
        key = (definition.module, definition.name, plain)
        self.arguments[key] = arguments
        return ("ref", key)

    def body(self, key: tuple) -> tuple:
        """The grammar that a key stands for, with tests as sets."""
        if key not in self.known:
            definition = self.definition(*key[:2])
            try:
                self.known[key] = self.tests_as_sets(self.call(definition, self.arguments[key]))
            except TypeError as wrong:
                raise Unknown(f"{definition}: {wrong}") from wrong
        return self.known[key]

    def tests_as_sets(self, value) -> tuple:
        head = value[0] if isinstance(value, tuple) else None
        if head in ("Nothing", "Mark", "ref"):
            return value
        if head == "Sign" and len(value) == 2:
            return ("Sign", self.passing(value[1]))
        if head == "To" and len(value) == 3:
            key = ("Rules", "rules", (value[2],))
            self.arguments[key] = (value[2],)
            return ("Then", ("Sign", self.passing(value[1])), ("ref", key))
        if head in ("Then", "Either", "Listed") and len(value) == 3:
            return (head, self.tests_as_sets(value[1]), self.tests_as_sets(value[2]))
        if head == "Many" and len(value) == 2:
            return (head, self.tests_as_sets(value[1]))
        raise TypeError(f"{value} is no grammar")

    def key(self, text: str) -> tuple:
        """The key that is written so: a module and a definition, and arguments that are constructors."""
        name, *arguments = text.split()
        definition = self.definition(*name.split("."))
        if not definition.is_rule() or len(arguments) != len(definition.parameters()) - 1:
            raise Unknown(f"{text} is no grammar")
        return self.reference(definition, tuple((it,) for it in arguments))[1]

    def test(self, text: str) -> frozenset:
        """The classes that pass the test that is written so."""
        value = self.of_definition(self.definition(*text.split(".")))
        return self.passing(value) if isinstance(value, Function) else frozenset(self.list_of(value))


# ---- reading signs

class Machine:
    """Reads signs by grammars, where `body` gives the grammar of a key. A state is a set of stacks of grammars."""

    def __init__(self, body):
        self.body = body
        self.after = functools.cache(self.after)
        self.nullable = functools.cache(self.nullable)
        self.step = functools.cache(self.step)

    def nullable(self, form: tuple) -> bool:
        """Whether it derives nothing at all."""
        kind = form[0]
        if kind == "ref":
            return self.nullable(self.body(form[1]))
        if kind == "Then":
            return self.nullable(form[1]) and self.nullable(form[2])
        if kind == "Either":
            return self.nullable(form[1]) or self.nullable(form[2])
        return kind != "Sign"

    def after(self, form: tuple, sign) -> frozenset:
        """The stacks that are left after the sign."""
        kind = form[0]
        if kind == "ref":
            return self.after(self.body(form[1]), sign)
        if kind == "Sign":
            return frozenset([()] if sign in form[1] else [])
        if kind == "Then":
            found = frozenset((*stack, form[2]) for stack in self.after(form[1], sign))
            return found | self.after(form[2], sign) if self.nullable(form[1]) else found
        if kind == "Either":
            return self.after(form[1], sign) | self.after(form[2], sign)
        if kind == "Many":
            return frozenset((*stack, form) for stack in self.after(form[1], sign))
        if kind == "Listed":
            more = ("Either", ("Then", form[2], form), ("Nothing",))
            return frozenset((*stack, more) for stack in self.after(form[1], sign))
        return frozenset()

    def step(self, state: frozenset, sign) -> frozenset:
        """The state after the sign; without a stack in it no signs can follow."""
        found = set()
        for stack in state:
            for at, form in enumerate(stack):
                found |= {(*front, *stack[at + 1:]) for front in self.after(form, sign)}
                if not self.nullable(form):
                    break
        return frozenset(found)

    def ends(self, state: frozenset) -> bool:
        """Whether the signs that led here are read whole."""
        return any(all(self.nullable(form) for form in stack) for stack in state)


def start(form: tuple) -> frozenset:
    """The state before the first sign."""
    return frozenset([(form,)])
