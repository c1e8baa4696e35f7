"""Reads and evaluates definitions of specs/, as far as the rows of commands need it.

A module is a file crates/CRATE/specs/NAME.antt. Its definitions are clauses `NAME pattern .. = expression`. They are evaluated by need,
so that what a command does to a world that isn't given is never looked at: `Stuck` tells that an answer depends on the world.
"""
import re
from pathlib import Path

TOKEN = re.compile(r'\s*("(?:[^"])*"|[A-Za-z_][A-Za-z0-9_\']*|[0-9]+|\.(?=[A-Za-z0-9_])|[∷≡→λ×⊎]|\+\+|&&|\|\||==|[^\s])')
OPERATORS = {"||": 1, "&&": 2, "==": 3, "∷": 4, "++": 4, "+": 5, "-": 5, "*": 6}


class Stuck(Exception):
    """What is asked for depends on the world."""


class Unknown(Exception):
    """A name or a form that this reader doesn't know."""


class Con:
    """A constructor with its arguments, which are thunks."""

    def __init__(self, name, args=()):
        self.name, self.args = name, list(args)


class World:
    """Something that isn't given."""


class Thunk:
    def __init__(self, make):
        self.make, self.value = make, None

    def force(self):
        if self.make is not None:
            make, self.make = self.make, None
            self.value = make()
        return self.value


def thunk(value):
    it = Thunk(None)
    it.value = value
    return it


def boolean(value):
    return Con("true" if value else "false")


def listed(values):
    found = Con("[]")
    for value in reversed(values):
        found = Con("∷", [thunk(value), thunk(found)])
    return found


def tokens(text):
    return TOKEN.findall(text)


# ---- what std gives

def strict(count, f):
    """A function of forced arguments."""
    def build(given):
        if len(given) == count:
            return f(*given)
        return lambda arg: build([*given, forced(arg)])
    return build([])


def forced(arg):
    value = arg.force()
    if isinstance(value, World):
        raise Stuck
    return value


def elements(value):
    if isinstance(value, str):
        yield from (thunk(ord(code)) for code in value)
        return
    while value.name == "∷":
        yield value.args[0]
        value = forced(value.args[1])


def of_thunks(items):
    found = Con("[]")
    for item in reversed(items):
        found = Con("∷", [item, thunk(found)])
    return found


def option_map(f, o):
    return o if o.name == "None" else Con("Some", [Thunk(lambda: apply(f, o.args[0]))])


def find(test, xs):
    found = [x for x in elements(xs) if forced(thunk(apply(test, x))).name == "true"]
    return Con("Some", [found[0]]) if found else Con("None")


STD = {
    "not": strict(1, lambda b: boolean(b.name == "false")),
    "is_none": strict(1, lambda o: boolean(o.name == "None")),
    "is_some": strict(1, lambda o: boolean(o.name == "Some")),
    "nat_le": strict(2, lambda a, b: boolean(a <= b)),
    "nat_lt": strict(2, lambda a, b: boolean(a < b)),
    "nat_eq": strict(2, lambda a, b: boolean(a == b)),
    "int_le": strict(2, lambda a, b: boolean(a.of <= b.of)),
    "int_eq": strict(2, lambda a, b: boolean(a.of == b.of)),
    "nat_abs": strict(1, lambda a: abs(a.of)),
    "length": strict(1, lambda xs: sum(1 for _ in elements(xs))),
    "take": strict(2, lambda n, xs: of_thunks(list(elements(xs))[:n])),
    "drop": strict(2, lambda n, xs: of_thunks(list(elements(xs))[n:])),
    "replicate": strict(2, lambda n, x: listed([x] * n)),
    "map": strict(2, lambda f, xs: of_thunks([Thunk(lambda x=x: apply(f, x)) for x in elements(xs)])),
    "option_map": strict(2, option_map),
    "find": strict(2, find),
    "slice_index_or": strict(3, lambda xs, i, d: forced(list(elements(xs))[i]) if i < sum(1 for _ in elements(xs)) else d),
    "slice_set": strict(3, lambda xs, i, x: of_thunks([thunk(x) if k == i else e for k, e in enumerate(elements(xs))])),
    "bytes_eq": strict(2, lambda a, b: boolean(a == b)),
    "codes": strict(1, lambda text: text),
    "unwrap_or": strict(2, lambda o, d: forced(o.args[0]) if o.name == "Some" else d),
    "pos": strict(1, lambda n: Int(n)),
    "negsuc": strict(1, lambda n: Int(-1 - n)),
    "suc": strict(1, lambda n: n + 1),
    "zero": 0,
}
STD_CONSTRUCTORS = {"true", "false", "None", "Some", "Ok", "Err"}


class Int:
    """A whole number, as opposed to a count, which is an int of Python."""

    def __init__(self, of):
        self.of = of


def apply(f, arg):
    if isinstance(f, World):
        return f
    if isinstance(f, Con):
        return Con(f.name, [*f.args, arg])
    if not callable(f):
        raise Unknown(f"no function: {f}")
    return f(arg)


# ---- modules

class Module:
    def __init__(self, specs, crate, name):
        self.specs, self.crate, self.name = specs, crate, name
        path = specs.root / "crates" / crate / "specs" / (name + ".antt")
        self.imports, self.aliases, self.clauses, self.constructors = {}, {}, {}, set()
        self.values = {}
        for block in re.split(r"\n(?=\S)", path.read_text()):
            block = "\n".join(line for line in block.splitlines() if not line.lstrip().startswith("--"))
            self.read(block)

    def read(self, block):
        if block.startswith("use "):
            self.read_use(block)
        elif re.match(r"(pub |abbrev |unfoldable |mutual)", block):
            self.read_inner(block)
        elif block:
            self.add_clause(block)

    def read_use(self, block):
        path, _, names = block[4:].strip().partition(".{")
        if not names:
            path, _, alias = path.partition(" as ")
            self.aliases[alias or path.split(".")[-1]] = path.split(".")[1:]
            return
        for name in names.rstrip("}").split(","):
            told, _, alias = name.strip().partition(" as ")
            self.imports[alias or told] = (path.split(".")[1:], told)

    def read_inner(self, block):
        """A header, or a data type with its constructors; the clauses of a mutual block are indented."""
        for line in block.splitlines()[1:]:
            found = re.match(r"\s+(?:pub )?([a-z][A-Za-z0-9_]*) : ", line)
            if found and " data " in " " + block.splitlines()[0] + block:
                self.constructors.add(found.group(1))
        if block.startswith("abbrev mutual"):
            for part in re.split(r"\n(?=  \S)", block)[1:]:
                if not re.match(r"  (pub )?[a-z_]+ : ", part):
                    self.add_clause(part.strip())

    def add_clause(self, block):
        if not re.search(r"\s=\s", block):
            return
        name = tokens(block)[0]
        self.clauses.setdefault(name, []).append(block)

    def resolve(self, name):
        """What a name stands for: a clause's module and name, or a value."""
        if name in self.clauses:
            return self, name
        if name in self.constructors:
            return Con(name)
        if name in self.imports:
            return self.specs.member(*self.imports[name])
        return None

    def value(self, name):
        if name not in self.values:
            clauses = [parsed(self, clause) for clause in self.clauses[name]]
            self.values[name] = function(clauses)
        return self.values[name]


class Specs:
    def __init__(self, root, given):
        self.root, self.modules, self.given = Path(root), {}, given

    def module(self, crate, name):
        if (crate, name) not in self.modules:
            self.modules[crate, name] = Module(self, crate, name)
        return self.modules[crate, name]

    def member(self, path, name):
        """A name of a module that another one imports."""
        if name in self.given:
            return self.given[name]
        if path[-1] == "FinMap":
            return World()
        if path[0] == "std":
            if name in STD:
                return STD[name]
            return Con(name) if name in STD_CONSTRUCTORS else None
        if "declared" in path:
            return Con(name) if path[-1] == "TheVariants" else None
        found = self.module(path[0], ".".join(path[2:])).resolve(name)
        known = path[0] == "sn_world" or path[-1] == "Limits" or isinstance(found, Con)
        return found if known else World()

    def value(self, crate, module, name):
        return self.module(crate, module).value(name)


# ---- clauses

def function(clauses):
    """A function by its clauses, which are tried in their order."""
    count = len(clauses[0][0])

    def build(given):
        if len(given) < count:
            return lambda arg: build([*given, arg])
        for patterns, body in clauses:
            scope = {}
            if all(matches(pattern, arg, scope) for pattern, arg in zip(patterns, given)):
                return body(scope)
        raise Unknown("no clause holds")

    return build([]) if count else Lazy(clauses[0][1])


class Lazy:
    def __init__(self, body):
        self.body = body


def matches(pattern, arg, scope):
    kind, name, inner = pattern
    if kind == "any":
        return True
    if kind == "name":
        scope[name] = arg
        return True
    value = forced(arg)
    if name == "zero":
        return value == 0
    if name == "suc":
        return value > 0 and matches(inner[0], thunk(value - 1), scope)
    if name in ("pos", "negsuc"):
        count = value.of if name == "pos" else -1 - value.of
        return count >= 0 and matches(inner[0], thunk(count), scope)
    return value.name == name and all(matches(p, a, scope) for p, a in zip(inner, value.args))


class Reader:
    """Reads the tokens of a clause."""

    def __init__(self, module, words):
        self.module, self.words, self.at = module, words, 0

    def peek(self):
        return self.words[self.at] if self.at < len(self.words) else None

    def take(self, expected=None):
        word = self.peek()
        if expected is not None and word != expected:
            raise Unknown(f"{expected} is missing before {' '.join(self.words[self.at:self.at + 8])}")
        self.at += 1
        return word

    def dotted(self):
        """A name with its fields: `r.node.id`, or a constructor of a module: `kinds.Group`."""
        names = [self.take()]
        while self.peek() == ".":
            self.take()
            names.append(self.take())
        return names

    # Patterns.

    def constructor(self, names):
        if len(names) == 2:
            return names[1]
        found = self.module.resolve(names[0])
        if isinstance(found, Con):
            return found.name
        return names[0] if names[0] in ("zero", "suc", "pos", "negsuc") and names[0] in self.module.imports else None

    def atom_pattern(self):
        word = self.peek()
        if word == "_":
            self.take()
            return "any", None, []
        if word == "[":
            self.take()
            self.take("]")
            return "con", "[]", []
        if word == "(":
            self.take()
            found = self.cons_pattern()
            self.take(")")
            return found
        names = self.dotted()
        name = self.constructor(names)
        return ("con", name, []) if name else ("name", names[0], [])

    def cons_pattern(self):
        kind, name, inner = self.atom_pattern()
        while self.peek() not in (")", "∷", "=", None):
            inner = [*inner, self.atom_pattern()]
        found = (kind, name, inner)
        if self.peek() == "∷":
            self.take()
            return "con", "∷", [found, self.cons_pattern()]
        return found

    # Expressions: each gives a function of a scope.

    def expression(self, least=0):
        left = self.application()
        while (word := self.peek()) in OPERATORS and OPERATORS[word] > least:
            self.take()
            right = self.expression(OPERATORS[word] - (word in ("∷", "++")))
            left = operation(word, left, right)
        return left

    def application(self):
        word = self.peek()
        if word == "if":
            return self.choice()
        if word == "λ":
            return self.abstraction()
        f = self.atom()
        while (word := self.peek()) is not None and re.match(r'[("\[A-Za-z_0-9]', word) and word not in ("then", "else", "in"):
            f = applied(f, self.atom())
        return f

    def choice(self):
        self.take("if")
        test = self.expression()
        self.take("then")
        yes = self.expression()
        self.take("else")
        no = self.expression()
        return lambda scope: (yes if forced(thunk(test(scope))).name == "true" else no)(scope)

    def abstraction(self):
        self.take("λ")
        name = self.take()
        self.take(".")
        body = self.expression()
        return lambda scope: lambda arg: body({**scope, name: arg})

    def atom(self):
        word = self.peek()
        if word == "(":
            self.take()
            parts = [self.expression()]
            while self.peek() == ",":
                self.take()
                parts.append(self.expression())
            self.take(")")
            return self.fields(parts[0] if len(parts) == 1 else record([(str(i), p) for i, p in enumerate(parts)], None))
        if word == "[":
            self.take()
            self.take("]")
            return lambda scope: Con("[]")
        if word[0] == '"':
            self.take()
            return lambda scope: word[1:-1]
        if word[0].isdigit():
            self.take()
            return lambda scope: int(word)
        if word == "record":
            return self.record()
        return self.name()

    def fields(self, value):
        while self.peek() == "." and self.words[self.at + 1][0] != " ":
            self.take()
            value = field(value, self.take())
        return value

    def name(self):
        names = self.dotted()
        name, module = names[0], self.module
        if name in module.aliases and len(names) == 2 and name not in module.clauses:
            found = module.specs.member(module.aliases[name], names[1])
            names = names[:1]
        else:
            found = module.resolve(name)

        def value(scope):
            if name in scope:
                return scope[name].force()
            if found is None:
                raise Unknown(f"{module.crate}.{module.name}: {name}")
            if isinstance(found, tuple):
                got = found[0].value(found[1])
                return got.body({}) if isinstance(got, Lazy) else got
            return found

        for each in names[1:]:
            value = field(value, each)
        return value

    def record(self):
        self.take("record")
        base = None
        if self.peek() != "{":
            base = self.atom()
        self.take("{")
        parts = []
        while self.peek() != "}":
            name = self.take()
            self.take("=")
            parts.append((name, self.expression()))
            if self.peek() == ";":
                self.take()
        self.take("}")
        return record(parts, base)


def record(parts, base):
    def value(scope):
        found = {}
        if base is not None:
            old = base(scope)
            if isinstance(old, World):
                return old
            found.update(old)
        found.update((name, Thunk(lambda part=part: part(scope))) for name, part in parts)
        return found
    return value


def field(value, name):
    def got(scope):
        held = value(scope)
        return held if isinstance(held, World) else held[name].force()
    return got


def applied(f, x):
    return lambda scope: apply(f(scope), Thunk(lambda: x(scope)))


def operation(word, left, right):
    def value(scope):
        if word == "∷":
            return Con("∷", [Thunk(lambda: left(scope)), Thunk(lambda: right(scope))])
        a = forced(Thunk(lambda: left(scope)))
        if word == "&&":
            return right(scope) if a.name == "true" else a
        if word == "||":
            return a if a.name == "true" else right(scope)
        b = forced(Thunk(lambda: right(scope)))
        if word == "++":
            return of_thunks([*elements(a), *elements(b)])
        return {"+": lambda: a + b, "-": lambda: max(a - b, 0), "*": lambda: a * b, "==": lambda: boolean(a == b)}[word]()
    return value


def parsed(module, clause):
    """A clause's patterns and its body."""
    reader = Reader(module, tokens(clause))
    reader.take()
    patterns = []
    while reader.peek() != "=":
        patterns.append(reader.atom_pattern())
    reader.take("=")
    body = []

    def late(scope):
        if not body:
            body.append(reader.expression())
            if reader.peek() is not None:
                raise Unknown(f"{module.name}: {clause}")
        return body[0](scope)

    return patterns, late


# ---- which reasons a definition names

def cited(module, name, found, seen):
    """The variants of an enum `Reason` that a definition and those that it cites name, in the order of the text."""
    if (module.crate, module.name, name) in seen:
        return
    seen.add((module.crate, module.name, name))
    for clause in module.clauses[name]:
        left, right = re.split(r"\s=\s", clause, maxsplit=1)
        bound = set(tokens(left))
        words = tokens(right)
        for at, word in enumerate(words):
            if at > 0 and words[at - 1] == ".":
                continue
            follows = words[at + 2] if at + 2 < len(words) and words[at + 1] == "." else None
            cite(module, word, follows, bound, found, seen)


def cite(module, word, follows, bound, found, seen):
    path = module.aliases.get(word)
    if path is not None and follows is not None:
        if path[-2:] == ["Reason", "TheVariants"]:
            found.append(follows)
        elif "declared" not in path:
            target = module.specs.member(path, follows)
            if isinstance(target, tuple):
                cited(*target, found, seen)
    elif word in module.imports and word not in bound:
        path, told = module.imports[word]
        if path[-2:] == ["Reason", "TheVariants"]:
            found.append(told)
        elif path[0] == module.crate and "declared" not in path:
            target = module.resolve(word)
            if isinstance(target, tuple):
                cited(*target, found, seen)
    elif word in module.clauses and word not in bound:
        cited(module, word, found, seen)
