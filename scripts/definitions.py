"""What the scripts that run definitions share: values of definitions as plain values of Python, and back.

A plain value is a number, a bool, a list, a dict of a record's fields, or a tuple of a constructor's name and its fields."""
import importlib, os, re, sys


def load(folder, name):
    """The module of this name in a folder."""
    sys.path.insert(0, os.path.abspath(folder))
    return importlib.import_module(name)


def ends(deep, run):
    """Runs where recursion may go deep; the status says whether it came to its end."""
    done = []

    def whole():
        run()
        done.append(True)

    deep(whole)
    return 0 if done else 1


def follow_operators(antt):
    """Has the reader of definitions find an operator's fixity also behind a `pub use`."""
    if getattr(antt, "follows", False):
        return
    inner, antt.follows = antt.fixity_of, True

    def declared(world, path, name):
        for _ in range(9):
            module = world.module(path)
            if module is None or name.strip("◌") in module.fixity:
                return module and module.fixity[name.strip("◌")]
            if name not in module.names:
                return None
            path, name = module.names[name]

    def fixity_of(module):
        f = inner(module)
        for shown, (path, name) in module.names.items():
            if "◌" in shown and shown.strip("◌") not in f:
                found = declared(module.world, path, name)
                if found:
                    f[shown.strip("◌")] = found
        return f

    antt.fixity_of = fixity_of


def follow_constants(antt):
    """Has the reader of definitions know a constant that is one of another crate, as a number of another width."""
    types = antt.RustTypes
    if getattr(types, "follows", False):
        return
    inner, types.follows = types.__init__, True

    def whole(self, folder, crate):
        inner(self, folder, crate)
        for name in sorted(n for n in os.listdir(folder) if n.endswith(".rt")):
            with open(os.path.join(folder, name), encoding="utf-8") as file:
                text = file.read()
            used = {n: (c, m.replace("::", ".")) for c, m, n in re.findall(r"^use (\w+)::([\w:]+)::(\w+);", text, re.M)}
            for constant, other in re.findall(r"\bconst (\w+): \w+ = (\w+) as \w+;", text):
                if other in used:
                    crate, module = used[other]
                    below = types(os.path.join(folder, "..", "..", crate, "src"), crate)
                    self.constants[(name[:-3], constant)] = below.constants[(module, other)]

    types.__init__ = whole


class Definitions:
    """The definitions of a repository's crates, run by a reader of definitions: the module `antt` of a folder of tools."""

    def __init__(self, antt, crates):
        follow_operators(antt)
        follow_constants(antt)
        self.antt, self.world, self.made = antt, antt.World(crates), {}

    def function(self, path):
        """A definition as a function, by its crate, file and name: `dl_rules_nodes.Bookies.table_row`."""
        crate, rest = path.split(".", 1)
        return self.world.function("Rattle.%s.specs.%s" % (crate, rest))

    def fix(self, path, value):
        """Gives a constant another value, in all definitions."""
        self.function(path)
        crate, rest = path.split(".", 1)
        d = self.world.definition("Rattle.%s.specs.%s" % (crate, rest))
        self.world.space["d%d" % d.id] = lambda: value

    def name(self, path, *names):
        """Names constructors: those of an enum of a crate, `dl_msg.msg.Msg`, or of a type of definitions, `dl_rules_nodes.Items.Item`."""
        crate, rest = path.split(".", 1)
        enum = rest[:1].islower()
        where = "Rattle.%s.specs.%s" % (crate, "declared.%s.TheVariants" % rest if enum else rest.rsplit(".", 1)[0])
        for n in names:
            self.made[rest.rsplit(".", 1)[1] + "." + n] = self.world.con(where + "." + n)

    def con(self, name, *fields):
        """The constructor of an enum's name and its own, as `Msg.Add`, of plain fields."""
        return self.made[name](*map(self.value, fields))

    def value(self, x):
        """A plain value as one of definitions. A tuple is a constructor's whole name and its fields."""
        antt = self.antt
        if isinstance(x, (bytes, list)):
            return antt.from_list([self.value(y) for y in x])
        if isinstance(x, str):
            return antt.from_list([ord(c) for c in x])
        if x is None:
            return antt.NONE.value
        if isinstance(x, dict):
            return antt.record(**{k: self.value(y) for k, y in x.items()})
        if type(x) is Some:
            return (antt.SOME, self.value(x.value))
        return x

    def plain(self, v):
        """A value of definitions as a plain one."""
        antt = self.antt
        if v == ():
            return []
        if isinstance(v, tuple) and type(v[0]) is antt.Con:
            if v[0] is antt.NONE:
                return None
            if v[0] is antt.SOME:
                return Some(self.plain(v[1]))
            if v[0] is antt.TUPLE:
                return ("tuple",) + tuple(self.plain(x) for x in v[1:])
            return (v[0].name,) + tuple(self.plain(x) for x in v[1:])
        if isinstance(v, tuple):
            return [self.plain(x) for x in antt.to_list(v)]
        if hasattr(type(v), "fields"):
            return {f: self.plain(getattr(v, antt.attribute(f))) for f in type(v).fields}
        return v


class Some:
    """A value that is there; one that isn't is None."""

    def __init__(self, value):
        self.value = value

    def __eq__(self, other):
        return type(other) is Some and self.value == other.value

    def __repr__(self):
        return "Some(%r)" % (self.value,)


class Differs(Exception):
    """Definitions and what they are compared with say different things."""


def same(what, got, want, told):
    """Compares what definitions say with what a model says: plain values, or a text, a status, a note and a state."""
    if got == want:
        return
    if isinstance(got, tuple) and isinstance(got[0], bytes):
        if got[:3] == want[:3]:
            where = next(k for k in want[3] if got[3][k] != want[3][k])
            got, want = "%s: %s" % (where, got[3][where]), "%s: %s" % (where, want[3][where])
        else:
            a, b = got[0].splitlines(), want[0].splitlines()
            at = next((i for i, (x, y) in enumerate(zip(a, b)) if x != y), min(len(a), len(b)))
            got, want = a[at : at + 1] + [got[1:3]], b[at : at + 1] + [want[1:3]]
    raise Differs("%s\n  definitions: %.900r\n  model:       %.900r\n  at %s" % (what, got, want, told))
