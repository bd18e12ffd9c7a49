#!/usr/bin/env python3
"""Compares the grammar of declarations with a second one, which is written by hand, on all short lists of signs.

For each part, and each list of signs over an alphabet, it looks for all readings of the list by `grammar.txt`. There
must be one at most. The part's rule in `crates/declarations/specs/rules`, as `dev/checks/grammar_value.py` reads this
value, must end exactly where there is one, and go on exactly where the list is a front of one.

Types, bounds and expressions have tables. In place of their rules the tables in `crates/item_tables/specs` are walked.
They are read from the definitions, so a wrong row of these shows here.

Usage: readings.py [--code] [LENGTH [PART..]]

With `--code` it compares what the calls for those and for patterns return with the same grammar, on the same lists: the
numbers of trees in the parts, the kinds, and where faults are. The calls are those of the package `proved-tokens`.
`bench/declarations/answers`, which cargo builds, calls them. Lists in which two signs would be another sign together,
such as `#` and `!`, are left out.
"""
import os
import re
import subprocess
import sys
import tempfile

sys.dont_write_bytecode = True
HERE = os.path.dirname(os.path.abspath(__file__))
SPECS = os.path.join(HERE, "..", "..", "crates", "item_tables", "specs")
sys.path.insert(0, os.path.join(HERE, ".."))
from workspace import TOP, package, place  # noqa: E402

sys.path.insert(0, str(TOP / place("dev/checks")))
from grammar_value import Machine, Value, start  # noqa: E402


# ---- all readings by the grammar

def grammar(text, signs):
    """The rules of a text, over these signs."""
    rules = {}
    for line in text.splitlines():
        if "=" in line and not line.startswith("#"):
            name, body = (part.strip() for part in line.split("=", 1))
            if name in rules:
                raise ValueError("two rules have the name " + name)
            rules[name] = alternatives(re.findall(r"\w+|[()|?*!]", body))[0]
    for name in re.findall(r"\w+", re.sub("#.*", "", text)):
        if name not in rules and name not in signs:
            raise ValueError("there is no rule or sign " + name)
    return rules


def alternatives(words):
    branches, sequence = [], []
    while words and words[0] != ")":
        if words[0] == "|":
            branches.append(("seq", sequence))
            sequence, words = [], words[1:]
            continue
        if words[0] == "!":
            sequence.append(("not", words[1]))
            words = words[2:]
            continue
        if words[0] == "(":
            form, words = alternatives(words[1:])
            words = words[1:]
        else:
            form, words = ("name", words[0]), words[1:]
        while words and words[0] in "?*":
            form, words = (words[0], form), words[1:]
        sequence.append(form)
    return ("or", branches + [("seq", sequence)]), words


class Reader:
    """The readings of lists, and whether more signs could follow them in one."""

    def __init__(self, rules):
        self.rules, self.known = rules, {}

    def read(self, form, signs):
        """How many readings take each count of signs at the front, and whether some reading wants more than all."""
        kind = form[0]
        if kind == "name" and form[1] in self.rules:
            key = (form[1], signs)
            if key not in self.known:
                self.known[key] = self.read(self.rules[form[1]], signs)
            return self.known[key]
        if kind == "name":
            if not signs:
                return {}, True
            return ({1: 1} if signs[0] == form[1] else {}), False
        if kind == "not":
            return ({} if signs and signs[0] == form[1] else {0: 1}), False
        if kind == "or":
            found = [self.read(branch, signs) for branch in form[1]]
            return total(pair for counts, _ in found for pair in counts.items()), any(more for _, more in found)
        if kind == "seq":
            counts, goes_on = {0: 1}, False
            for part in form[1]:
                counts, more = self.then(counts, part, signs)
                goes_on |= more
            return counts, goes_on
        once, goes_on = self.read(form[1], signs)
        if kind == "*":
            once, more = self.then({taken: n for taken, n in once.items() if taken}, form, signs)
            goes_on |= more
        return total([(0, 1)] + list(once.items())), goes_on

    def then(self, counts, part, signs):
        pairs, goes_on = [], False
        for taken, n in counts.items():
            found, more = self.read(part, signs[taken:])
            goes_on |= more
            pairs += [(taken + count, n * m) for count, m in found.items()]
        return total(pairs), goes_on


def total(pairs):
    counts = {}
    for taken, n in pairs:
        counts[taken] = counts.get(taken, 0) + n
    return counts


# ---- the walk by the tables

def tokens(text):
    return re.findall(r"[()]|[^\s()]+", text)


def parse(words):
    """An application, as a list of the words and applications in it."""
    parts = []
    while words and words[0] != ")":
        if words[0] == "(":
            part, words = parse(words[1:])
            words = words[1:]
        else:
            part, words = words[0].split(".")[-1], words[1:]
        parts.append(part)
    return parts, words


def equations(text):
    """The equations of each definition, as patterns and a value. Those that are no table are left out."""
    known = {}
    for line in re.sub(r"\n +", " ", text).splitlines():
        found = re.match(r"([a-z_]+)((?: [^:=]+)?) = (.*)$", line)
        if found and not re.search(r"\b(if|record|elim|λ)\b", found[3]):
            patterns, _ = parse(tokens(found[2]))
            known.setdefault(found[1], []).append((patterns, parse(tokens(found[3]))[0]))
    return known


def is_constructor(word):
    return word[0].isupper() or word in ("true", "false")


def match(pattern, value, bound):
    if isinstance(pattern, str):
        if is_constructor(pattern):
            return value == pattern
        bound[pattern] = value
        return True
    return isinstance(value, tuple) and len(value) == len(pattern) and value[0] == pattern[0] and all(
        match(part, inside, bound) for part, inside in zip(pattern[1:], value[1:]))


TURNS = {"Stay": 0, "Open": 1, "Close": -1}
WORDS = "Auto Default Gen Safe Union".split()
KEYWORDS = ("Async Const Dyn Enum Extern Fn For Impl Macro Mod Mut Pub Static Struct Trait Type Unsafe Use "
            "Where").split()


def names_of(classes):
    """The names that the signs of these classes have in the grammar."""
    return WORDS + KEYWORDS + [sign[0] for sign in classes]


def class_of(sign):
    """A sign of the grammar as the tables have it."""
    if sign in WORDS:
        return ("Word", sign)
    if sign in KEYWORDS:
        return ("Keyword", sign)
    return {"Word": ("Word", "Plain"), "Keyword": ("Keyword", "Other")}.get(sign, sign)


class Tables:
    def __init__(self):
        files = ("TypeStep", "Expression", "Walk")
        self.equations = {}
        for name in files:
            with open(os.path.join(SPECS, name + ".antt")) as file:
                self.equations.update(equations(file.read()))
        self.known = {}

    def call(self, name, *arguments):
        key = (name, arguments)
        if key not in self.known:
            self.known[key] = self.first(name, arguments)
        return self.known[key]

    def first(self, name, arguments):
        if name in ("turn_to", "go"):
            return arguments
        if name == "to_spot":
            return "Outside", ("At", arguments[0]), "Stay"
        if name == "open_angle":
            return arguments[0], ("Range", "Argument"), "Open"
        for patterns, value in self.equations[name]:
            bound = {}
            if all(match(pattern, argument, bound) for pattern, argument in zip(patterns, arguments)):
                return self.value(value, bound)
        raise ValueError("no row: %s %s" % (name, arguments))

    def value(self, form, bound):
        if isinstance(form, str):
            form = [form]
        head, values = form[0], tuple(self.value(part, bound) for part in form[1:])
        if head in ("true", "false"):
            return head
        if head == "None":
            return None
        if head == "Some":
            return values[0]
        if is_constructor(head):
            return (head,) + values if values else head
        return bound[head] if head in bound else self.call(head, *values)

    def holds(self, name, *arguments):
        return self.call(name, *arguments) == "true"

    def range(self, rule, state, depth, sign):
        taken = self.call("step_of", state, sign, "true" if depth == 0 and rule != "Inside" else "false")
        if taken is None or (rule == "Inside" and taken[1] == "Close" and depth == 0):
            return None
        depth = max(0, depth + TURNS[taken[1]])
        if taken[1] == "Close" and depth == 0:
            return rule, self.call("after_angle", rule, taken[0]), depth
        return rule, ("Range", taken[0]), depth

    def step(self, place, sign):
        rule, (kind, name), depth = place
        if kind == "At":
            shift = self.call("spot_step", name, sign)
            return shift and shift[:2] + (max(0, depth + TURNS[shift[2]]),)
        next_place = self.range(rule, name, depth, sign)
        if next_place or depth or not self.holds("may_end", name):
            return next_place
        return ("Outside", ("Range", "Wanted"), 0) if (rule, sign) == ("Target", ("Keyword", "For")) else None

    def ends(self, place):
        rule, (kind, name), depth = place
        if kind == "Range":
            return depth == 0 and self.holds("range_ends", rule, name)
        return self.holds("spot_ends", name)


# ---- the comparison

# Parts that have tables: their first state, and alphabets.
TABLES = [
    ("type", "Outside", ("Range", "Wanted"), [
        "Word Less Greater Comma Parentheses PathSeparator Plus",
        "Word And Lifetime Mut Exclamation Dyn For",
        "Word Less Greater Minus Literal Braces As Equals",
        "Word Star Const Tilde Extern Literal Arrow",
        "For Less Greater Lifetime Comma Word Restriction",
        "Less Greater Colon Truth Brackets Invisible Visibility Question SelfType",
        "Word Less Greater Comma Plus Lifetime", "Word Less Greater Block Comma Exclamation Extern"]),
    ("bounds", "Outside", ("Range", "Bound"), [
        "Word Plus Lifetime Question For Less Greater",
        "Word Arrow Parentheses Comma Exclamation Braces As", "Word Plus Block Less Greater"]),
    ("expression", "Outside", ("At", "Expression"), [
        "Word Comma Equals Less LessJoint PathSeparator Literal As",
        "Word As Comma Less Greater PathSeparator Star And Arrow",
        "Bar Bars Word Comma Colon Less Greater Arrow Braces",
        "Word Dot And Exclamation Question Lifetime Jump Hash Brackets",
        "Word Less LessJoint LessEquals Greater Comma Parentheses",
        "Await Keyword For Truth Minus Plus Infix Union Invisible", "Word Block As Dot Bar Less Greater Jump"]),
    ("implemented_type", "Target", ("Range", "Wanted"), [
        "Word For Less Greater Lifetime Plus Dyn", "Word For Parentheses Arrow PathSeparator Exclamation Braces",
        "Extern Literal Word For Star Const And", "Word For Less Greater Comma Equals Colon"]),
    ("argument", "Inside", ("Range", "Wanted"), [
        "Word Comma Equals Colon Plus Lifetime As", "Minus Literal Truth Braces Block Word Comma",
        "Word Less Greater Comma Extern Arrow PathSeparator"]),
]


# The other parts: the rule of the value, and alphabets.
RULES = [
    ("attributes", "Parts.attributes", ["Hash Brackets Word"]),
    ("visibility", "Parts.visibility", ["Pub Restriction Parentheses Word Visibility"]),
    ("field", "Parts.field", [
        "Hash Brackets Pub Restriction Word Union Colon Visibility"]),
    ("fields", "Parts.fields", [
        "Word Colon Comma Less Greater Pub", "Hash Brackets Word Colon Comma"]),
    ("tuple_field", "Parts.tuple_field", [
        "Hash Brackets Pub Restriction Parentheses Word Visibility Invisible"]),
    ("tuple_fields", "Parts.tuple_fields", [
        "Word Comma Pub Restriction Less Greater", "Hash Brackets Pub Word Comma"]),
    ("variant", "Parts.variant", [
        "Hash Brackets Pub Restriction Word Union Parentheses Braces Equals Visibility", "Word Block Equals Literal"]),
    ("variants", "Parts.variants", [
        "Hash Brackets Word Comma Equals Less", "Word Equals Comma Less Greater As",
        "Pub Word Comma Equals Braces", "Word Equals Comma Jump Dot Bar"]),
    ("generics", "Parts.generics", [
        "Less Greater Lifetime Word Comma Colon", "Less Greater Const Word Colon Equals",
        "Less Greater Hash Brackets Word", "Less Greater Const Word Colon Equals Minus Literal Braces",
        "Less Greater Const Word Colon Equals Block Comma"]),
    ("where", "Parts.where_clause", [
        "Where Word Colon Comma Plus Less Greater", "Where Lifetime Colon Brackets Comma For",
        "Where Word Colon Plus Block Comma"]),
    ("item", "Items.type_item", [
        "Struct Word Parentheses Braces Semicolon Where Colon", "Enum Union Word Braces Semicolon Where Colon",
        "Struct Word Less Greater Semicolon Lifetime",
        "Hash Brackets Pub Restriction Visibility Struct Word Semicolon",
        "Struct Enum Word Block Where Colon Semicolon"]),
    ("inner_attributes", "Parts.inner_attributes", ["HashBang Hash Brackets"]),
    ("any_item", "Items.any_item", [
        "Hash Brackets Pub Restriction Visibility Invisible Struct Word Semicolon",
        "Const Async Unsafe Safe Extern Literal Fn Word Parentheses Semicolon",
        "Default Const Safe Fn Word Colon Equals Semicolon",
        "Default Const Async Gen Unsafe Safe Extern Fn Word Parentheses Semicolon",
        "Const Gen Safe Fn Word Colon Less Greater Equals Semicolon",
        "Gen Exclamation PathSeparator Fn Static Word Braces Parentheses Pub",
        "Fn Word Less Greater Parentheses Arrow Where Braces Semicolon",
        "Const Static Mut Word Underscore Colon Equals Semicolon Less Greater",
        "Type Word Colon Equals Semicolon Where Plus Comma",
        "Trait Unsafe Auto Word Colon Equals Braces Where",
        "Trait Const Default Auto Unsafe Word Colon Equals Braces Semicolon",
        "Impl Less Greater Word Colon Comma For Braces",
        "Impl Const Exclamation Word For Where Braces Colon",
        "Impl Less Greater Lifetime Hash Brackets As PathSeparator Word Braces",
        "Impl Less Word Equals Greater And Plus For Braces",
        "Mod Unsafe Word Semicolon Braces Extern Crate As SelfValue",
        "Use Word PathSeparator As Star Braces Semicolon Underscore",
        "Word PathSeparator Exclamation Parentheses Braces Semicolon Crate",
        "Union Auto Default Safe Trait Exclamation Word Braces Fn",
        "Macro Word Parentheses Braces Brackets Exclamation Semicolon",
        "Fn Word Parentheses Arrow Where Colon Block Semicolon", "Impl Trait Mod Word Block Braces Exclamation Pub"]),
    ("parameter", "Parts.parameter", [
        "Const Word Colon Equals Minus Literal Braces Truth", "Hash Brackets Lifetime Colon Word Plus Equals",
        "Const Word Colon Equals Block Less Greater"]),
    ("function_item", "Functions.function_item", [
        "Hash Brackets Pub Restriction Visibility Fn Word Parentheses Semicolon",
        "Default Const Async Unsafe Safe Extern Literal Fn Word Parentheses Braces",
        "Pub Default Const Async Gen Unsafe Safe Extern Fn Word Parentheses Braces",
        "Fn Word Less Greater Parentheses Restriction Arrow Where Colon Semicolon",
        "Fn Word Parentheses Arrow Where Colon Plus Block Braces"]),
    ("impl_item", "ImplItems.impl_item", [
        "Hash Brackets Pub Restriction Default Unsafe Impl Word Braces", "Impl Const Exclamation Word For Where Braces",
        "Impl Word For Less Lifetime Greater Braces", "Impl Less Greater Word Colon Comma PathSeparator Braces",
        "Impl Exclamation Plus Arrow For Where Braces Word", "Impl Word For Less Greater Where Block Braces"]),
    ("receiver", "Parameters.receiver", ["And Lifetime Mut SelfValue Word Colon"]),
    ("pattern", "Parameters.pattern", [
        "Word Mut And Braces Parentheses Colon", "Word PathSeparator Less Greater Comma Braces",
        "Keyword SelfType Super Crate SelfValue Underscore",
        "Truth Literal Minus Infix Equals Exclamation", "Word Dot Bar Comma Infix Brackets Invisible",
        "Restriction Visibility Braces Less Greater Plus", "Word Block Invisible Less Greater",
        "Dot Literal Equals Less Greater Word Colon", "Word Infix Dot Equals SelfValue PathSeparator And Mut"]),
    ("fn_parameter", "Parameters.function_parameter", [
        "Hash Brackets SelfValue Mut And Lifetime Colon Word", "And Mut SelfValue Word Colon Dot Comma",
        "Dot Colon Word SelfValue Hash Brackets Mut", "Word Less Greater PathSeparator Colon Braces Comma",
        "Mut Keyword SelfType Super Crate Underscore Colon", "And Truth Literal Minus Infix Equals Colon Word",
        "Exclamation Braces Parentheses Restriction Invisible Visibility Colon And",
        "Less LessJoint Greater Lifetime Colon Plus Mut", "Word Colon Arrow Exclamation Brackets Dot And",
        "Word Colon Block Less Greater Invisible", "Dot Literal Equals Less Greater Colon And Mut",
        "Word Infix Dot Equals SelfValue PathSeparator Colon"]),
    ("fn_parameters", "Parameters.function_parameters", [
        "Word Colon Comma SelfValue And Dot", "Hash Brackets Mut SelfValue Comma Word Colon",
        "Word Colon Comma Less Greater Parentheses", "Dot Literal Equals Colon Comma Word"]),
    ("type_path", "Paths.type_path", [
        "Word PathSeparator Less Greater Comma Literal", "Word PathSeparator Less Parentheses Arrow Greater",
        "SelfValue SelfType Super Crate Union PathSeparator", "Word Less LessJoint Greater Lifetime Equals Colon",
        "Word Parentheses Arrow Plus PathSeparator Restriction", "Word Less Greater Exclamation As Invisible Braces",
        "Word Less Greater Comma Block"]),
    ("generic_argument", "Paths.generic_argument", [
        "Word Lifetime Comma Equals Colon Plus Literal", "Minus Literal Truth Braces Word Equals Comma",
        "Word Less Greater Comma Equals Colon PathSeparator", "Lifetime Plus Word Colon Equals And",
        "And SelfType Underscore Brackets Invisible Exclamation Question Star", "Dyn Impl Fn Parentheses Arrow Comma",
        "Block Minus Word Less Greater Equals Colon"]),
    ("generic_arguments", "Paths.generic_arguments", [
        "Word Comma Equals Literal Lifetime", "Word Less Greater Comma Colon", "Minus Literal Truth Braces Comma",
        "Word Block Comma Equals"]),
    ("entry", "Entries.entry", [
        "Word PathSeparator Parentheses Equals Literal Minus Truth", "Word As Equals Greater Arrow Literal Comma",
        "Word Equals Less Greater Comma And Bar", "Keyword SelfValue SelfType Super Crate Await Jump PathSeparator",
        "Braces Brackets Invisible Visibility Restriction Word Equals",
        "Word Equals Dot Hash Brackets Lifetime Literal", "Word Equals Block As Comma"]),
    ("entries", "Entries.entries", ["Word Comma Equals Literal Parentheses", "Minus Literal Truth Comma Word"]),
]


class ByTables:
    """The steps of a part by the tables. A place is `None` where no step leads."""

    def __init__(self, tables, rule, state):
        self.tables, self.first = tables, (rule, state, 0)

    def step(self, place, sign):
        return self.tables.step(place, class_of(sign))

    def ends(self, place):
        return self.tables.ends(place)


class ByValue:
    """The steps of a part by the value."""

    def __init__(self, value, rule):
        self.machine, self.first = Machine(value.body), start(("ref", value.key(rule)))

    def step(self, place, sign):
        found = class_of(sign)
        return self.machine.step(place, (found[0], (found[1],)) if isinstance(found, tuple) else (found,)) or None

    def ends(self, place):
        return self.machine.ends(place)


def parts(tables, value):
    """The parts, each with what takes its steps, and alphabets."""
    for part, rule, state, alphabets in TABLES:
        yield part, ByTables(tables, rule, state), alphabets
    for part, rule, alphabets in RULES:
        yield part, ByValue(value, rule), alphabets


# ---- the comparison with what the calls return

TWO_TREES = ("Lifetime", "PathSeparator", "Arrow", "LessEquals", "Bars", "HashBang")
ANOTHER_SIGN = (("Hash", "Exclamation"), ("LessJoint", "Equals"))
CALLED = ("pattern", "fn_parameter", "fn_parameters", "entry", "entries", "generic_argument", "generic_arguments",
          "type_path")
LISTS = {"fn_parameters": "fn_parameter", "entries": "entry", "generic_arguments": "generic_argument"}


def trees(signs):
    return sum(2 if sign in TWO_TREES else 1 for sign in signs)


class Expected:
    """What the calls return by the grammar."""

    def __init__(self, reader):
        self.reader = reader

    def is_whole(self, part, signs):
        return self.reader.read(("name", part), signs)[0].get(len(signs), 0) == 1

    def front(self, part, signs):
        """How long the longest front is that some signs could follow, or that is whole, and whether it is whole."""
        for count in range(len(signs), -1, -1):
            counts, goes_on = self.reader.read(("name", part), signs[:count])
            if goes_on or counts.get(count):
                return count, counts.get(count) == 1
        raise ValueError("nothing begins " + part)

    def answer(self, part, signs):
        if part in LISTS:
            return self.elements(part, LISTS[part], signs)
        # These calls look into a group without delimiters, which holds a word here.
        if part in ("type_path", "entry") and signs == ("Invisible",):
            signs = ("Word",)
        if part == "type_path":
            return self.path(signs)
        count, is_whole = self.front(part, signs)
        if not is_whole:
            return "fault %d" % trees(signs[:count])
        parts = {"pattern": lambda signs: [], "fn_parameter": self.parameter, "entry": self.entry,
                 "generic_argument": self.argument}[part](signs[:count])
        return " ".join(["ok", str(trees(signs[:count]))] + parts)

    def elements(self, part, element, signs):
        """How many elements an iterator gives, and whether a fault ends them."""
        left, count = signs, 0
        while left:
            size, is_whole = self.front(element, left)
            if not is_whole or left[size:size + 1] not in ((), ("Comma",)):
                break
            left, count = left[size + 1:], count + 1
        if (not left) != self.is_whole(part, signs):
            raise ValueError("%s isn't what its elements are: %s" % (part, " ".join(signs)))
        return ("fault %d" if left else "ok %d") % count

    def parameter(self, signs):
        at = 0
        while signs[at:at + 2] == ("Hash", "Brackets"):
            at += 2
        rest, found = signs[at:], []
        if self.is_whole("receiver", rest):
            found.append((rest, "Receiver", 0))
        if self.is_whole("dots", rest):
            found.append(((), "Variadic", 0))
        for colon in [place for place, sign in enumerate(rest) if sign == "Colon"]:
            name, end = rest[:colon], rest[colon + 1:]
            for named, ended, kind in (("receiver", "type", "TypedReceiver"), ("parameter_pattern", "type", "Typed"),
                                       ("parameter_pattern", "dots", "Variadic")):
                if self.is_whole(named, name) and self.is_whole(ended, end):
                    found.append((name, kind, trees(end) if ended == "type" else 0))
        (name, kind, size), = found
        return [str(trees(signs[:at])), str(trees(name)), kind, str(size)]

    def path(self, signs):
        """What is said of a path. A group without delimiters that is all of the trees holds a word."""
        count, is_whole = self.front("type_path", signs)
        if not is_whole or count < len(signs):
            return "fault %d" % trees(signs[:count])
        at = next(at for at in range(len(signs)) if self.is_whole("path_segment", signs[at:]) and (
            at == 0 or signs[at - 1] == "PathSeparator" and (at == 1 or self.is_whole("type_path", signs[:at - 1]))))
        rest = signs[at + 1:]
        rest = rest[1:] if rest[:1] == ("PathSeparator",) else rest
        kind, size = "None", 0
        if rest:
            round_group = rest[0] in ("Parentheses", "Restriction")
            kind, size = ("Round", trees(rest[2:])) if round_group else ("Angle", trees(rest[1:-1]))
        return "ok %d %s %d" % (trees(signs[:at]), kind, size)

    def argument(self, signs):
        if signs == ("Lifetime",):
            return [str(trees(signs)), "Lifetime", "0"]
        if signs[-1] in ("Literal", "Truth", "Braces", "Block") and signs[:-1] in ((), ("Minus",)):
            return [str(trees(signs)), "Const", "0"]
        found = [(signs, "Type", 0)] if self.is_whole("type", signs) else []
        for mark, end, kind in (("Equals", "constant_default", "Binding"), ("Colon", "bounds", "Constraint")):
            for at in [place for place, sign in enumerate(signs) if sign == mark]:
                if self.is_whole("type", signs[:at]) and self.is_whole(end, signs[at + 1:]):
                    found.append((signs[:at], kind, trees(signs[at + 1:])))
        (part, kind, size), = found
        return [str(trees(part)), kind, str(size)]

    def entry(self, signs):
        if self.is_whole("entry_literal", signs):
            return ["0", "Literal", str(trees(signs))]
        at = max(count for count in range(len(signs) + 1) if self.is_whole("entry_path", signs[:count]))
        path, rest = str(trees(signs[:at])), signs[at:]
        if not rest:
            return [path, "Path", "0"]
        return [path, "Value", str(trees(rest[1:]))] if rest[0] == "Equals" else [path, "List", "1"]


def lists(reader, part, alphabets, longest):
    """All fronts of the part up to this length, each with one sign more too, but for those that are other signs."""
    known = set()
    for alphabet in alphabets:
        left = [()]
        while left:
            signs = left.pop()
            if any(pair in ANOTHER_SIGN for pair in zip(signs, signs[1:])):
                continue
            known.add(signs)
            counts, goes_on = reader.read(("name", part), signs)
            if (goes_on or counts.get(len(signs))) and len(signs) < longest:
                left += [signs + (sign,) for sign in alphabet.split()]
    return sorted(known)


def compare_code(reader, longest, wanted):
    count = wrong = 0
    with tempfile.TemporaryDirectory() as folder:
        manifest = package("bench/declarations/answers", folder) / "Cargo.toml"
        subprocess.run(["cargo", "build", "--release", "--offline", "--quiet", "-j1", "--manifest-path", manifest],
                       env=dict(os.environ, CARGO_TARGET_DIR=folder), check=True)
        for part, _, alphabets in RULES:
            if part not in CALLED or wanted and part not in wanted:
                continue
            asked = lists(reader, part, alphabets, longest)
            output = subprocess.run([os.path.join(folder, "release", "declarations-answers")], check=True, text=True,
                                  input="".join("%s %s\n" % (part, " ".join(signs)) for signs in asked),
                                  stdout=subprocess.PIPE).stdout.splitlines()
            expected = Expected(reader)
            whole = 0
            for signs, answer in zip(asked, output):
                wished = expected.answer(part, signs)
                count += 1
                whole += wished.startswith("ok")
                if wished != answer:
                    wrong += 1
                    print("wrong: %s of %s is %s, not %s" % (part, " ".join(signs), answer, wished))
                    if wrong > 20:
                        return 1
            if len(output) != len(asked):
                print("wrong: %d answers to %d lists of %s" % (len(output), len(asked), part))
                wrong += 1
            print("%s: %d lists, %d of them without a fault" % (part, len(asked), whole))
    print("%d lists, %d wrong" % (count, wrong))
    return int(wrong > 0)


def main():
    words = [word for word in sys.argv[1:] if word != "--code"]
    longest = int(words[0]) if words else 6
    value = Value()
    with open(os.path.join(HERE, "grammar.txt")) as file:
        reader = Reader(grammar(file.read(), names_of(value.classes)))
    wanted = words[1:]
    if len(words) < len(sys.argv) - 1:
        return compare_code(reader, longest, wanted)
    wrong, count = 0, 0
    for part, walk, alphabets in parts(Tables(), value):
        if wanted and part not in wanted:
            continue
        fronts = whole = 0
        for alphabet in alphabets:
            open_fronts = [((), walk.first)]
            while open_fronts:
                signs, place = open_fronts.pop()
                counts, goes_on = reader.read(("name", part), signs)
                readings = counts.get(len(signs), 0)
                goes_on |= readings > 0
                ends = place is not None and walk.ends(place)
                if readings != int(ends) or goes_on != (place is not None):
                    wrong += 1
                    print("wrong: %s of %s: %d readings, goes on: %s; the walk is at %s" %
                          (part, " ".join(signs), readings, goes_on, place))
                    if wrong > 20:
                        return 1
                fronts += goes_on
                whole += readings
                count += 1
                if place is not None and len(signs) < longest:
                    open_fronts += [(signs + (sign,), walk.step(place, sign)) for sign in alphabet.split()]
        print("%s: %d fronts, %d readings" % (part, fronts, whole))
    print("%d lists, %d wrong" % (count, wrong))
    return int(wrong > 0)


if __name__ == "__main__":
    sys.exit(main())
