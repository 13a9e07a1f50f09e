#!/usr/bin/env python3
"""Writes a repository of one crate, `rows`, in which the proof checker itself computes values of definitions.

    checker_rows.py TOOLS OUT --use U.. --term TERM --files F.. [--crates crates]
    cd OUT && git init -q . && cd crates/rows && rt check

TOOLS is a folder with the module `antt`, which reads and runs definitions. A U is a use line without the word `use`; TERM is a
term with the name `input`, which stands for the bytes of each file in turn. Each row is a lemma, proved by `refl`, that says that
the term has the value which `antt` gives it: so the checker is a second judge of what the first one read. Another script may give
right sides of its own, as those of a model (`build` and `write`).

The crate is a copy of the definitions that the term stands on. In it everything unfolds; a finite map is a list in the order of
its keys, since those of the library are shut; a type of `src` is a type of its own, one with a `Model` is its Value, a `type` is
what it stands for, and a constant is its number. Fields that are proofs are left out. A value with a map or a function in it is
refused."""
import argparse, os, re, sys

sys.path.insert(0, os.path.dirname(os.path.abspath(__file__)))
from definitions import follow_constants, follow_operators, load

LIB = "Rattle.rows.specs."
FIN_MAP = "Rattle.std.specs.FinMap"
NUMBERS = {"u8", "u16", "u32", "u64", "u128", "usize", "char"}
PLAIN = "use Rattle.std.specs.Prelude.{ℕ, Bool, List, Option, Result}\n"

# finite maps as lists in the order of their keys
MAPS = """-- Finite maps as lists in the order of their keys.
use Rattle.std.specs.Prelude.{ℕ, Bool, not, List, [], ◌∷◌, map, length, filter, Option, is_some}
use Rattle.std.specs.declared.cmp.Ordering.{Ordering}
use Rattle.std.specs.Ordering.{eq_by_cmp}
use Rattle.std.specs.FinMap.{find, put}

pub record FinMap {K : Type 0} (R : K → K → Ordering) (X : Type 0) : Type 0 where
  pub list : List (K × X)

module _ {K X : Type 0} {R : K → K → Ordering} where
  abbrev pub entries : FinMap R X → List (K × X)
  entries m = m.list

  abbrev pub empty : FinMap R X
  empty = record { list = [] }

  abbrev pub get : FinMap R X → K → Option X
  get m q = find R q m.list

  abbrev pub contains_key : FinMap R X → K → Bool
  contains_key m q = is_some (find R q m.list)

  abbrev pub insert : FinMap R X → K → X → FinMap R X
  insert m k v = record { list = put R k v m.list }

  abbrev pub retain_keys : FinMap R X → (K → Bool) → FinMap R X
  retain_keys m p = record { list = filter (λ (e : K × X). p e.0) m.list }

  abbrev pub remove : FinMap R X → K → FinMap R X
  remove m k = retain_keys m (λ x. not (eq_by_cmp R k x))

  abbrev pub len : FinMap R X → ℕ
  len m = length m.list

  abbrev pub keys : FinMap R X → List K
  keys m = map (λ (e : K × X). e.0) m.list

  abbrev pub values : FinMap R X → List X
  values m = map (λ (e : K × X). e.1) m.list
"""


def place(path):
    """The module of the copy in which a module's definitions stand."""
    p = path.split(".")
    if path == FIN_MAP:
        return LIB + "Maps"
    if p[2:4] != ["specs", "declared"]:
        return LIB + "_".join([p[1]] + p[3:])
    if p[-1] == "TheConstants":
        return LIB + "_".join([p[1]] + p[4:-1] + ["constants"])
    if p[-1] == "TheVariants":
        p = p[:-1]
    return LIB + "_".join([p[1]] + p[4:] + ["type"])


def declared(crate, module, name):
    """The whole name of a type of src."""
    return ".".join(["Rattle", crate, "specs", "declared"] + ([module] if module else []) + [name])


# ---- types of src --------------------------------------------------------------------------------------------------


class Types:
    """The types and constants of src that definitions speak of, each as the text of a module."""

    def __init__(self, antt, world, need, is_ours):
        self.antt, self.world, self.need, self.is_ours, self.texts = antt, world, need, is_ours, {}

    def source(self, crate, module, name):
        """The text of the file that declares a type, and its module."""
        base = os.path.join(self.world.crates, crate, "src")
        tries = [os.path.join(base, *module.split(".")) + ".rt"] if module else [os.path.join(base, f) for f in ("lib.rt", "main.rt")]
        for root, _, files in os.walk(base):
            tries += [os.path.join(root, f) for f in sorted(files) if f.endswith(".rt")]
        for f in tries:
            if not os.path.isfile(f):
                continue
            with open(f, encoding="utf-8") as file:
                text = self.antt.strip_rust(file.read())
            if re.search(r"\b(enum|struct|type)\s+%s\b" % name, text):
                found = os.path.relpath(f, base)[:-3].replace(os.sep, ".")
                return text, "" if found in ("lib", "main") else found
        raise self.antt.Unread("no type %s in %s" % (name, base))

    def constant(self, path, name):
        """A constant of src, as its number."""
        text = self.texts.get(path) or "use Rattle.std.specs.Prelude.{ℕ}\n"
        if "\n%s = " % name not in text:
            text += "\nabbrev pub %s : ℕ\n%s = %s\n" % (name, name, self.world.member(path, name)[1])
        self.texts[path] = text

    def declare(self, path):
        """A type of src: what a `type` stands for, the Value of a `Model`, or else its variants or fields."""
        if path in self.texts:
            return
        p = path.split(".")
        crate, name = p[1], p[-1]
        self.texts[path] = None
        text, module = self.source(crate, ".".join(p[4:-1]), name)
        within = Within(self, crate, module, text)
        self.texts[path] = PLAIN + "%s\n" + within.shown(path, name)
        self.texts[path] %= "".join(sorted(within.uses))


class Within:
    """The types that a file of src names."""

    def __init__(self, types, crate, module, text):
        self.types, self.antt, self.crate, self.module, self.text, self.uses = types, types.antt, crate, module, text, set()

    def shown(self, path, name):
        antt, text = self.antt, self.text
        alias = re.search(r"\btype\s+%s\s*=\s*([^;]+);" % name, text)
        model = re.search(r"\bimpl\s+Model\s+for\s+%s\b" % name, text)
        if alias:
            return "abbrev pub %s : Type 0\n%s = %s\n" % (name, name, self.type(alias.group(1)))
        if model:
            return "abbrev pub %s : Type 0\n%s = %s\n" % (name, name, self.value_of(model))
        d = re.search(r"\b(enum|struct)\s+%s\s*(<[^>{(]*>)?\s*([{(])" % name, text)
        if d and d.group(2) and d.group(2).strip("<> "):
            raise antt.Unread("the type %s has parameters" % path)
        fields = antt.split_commas(antt.body_of(text, d.end() - 1)) if d else []
        if d and d.group(1) == "enum":
            return "pub data %s : Type 0 where\n" % name + "".join(self.variant(name, v) for v in fields)
        if d and d.group(3) == "{":
            return "pub record %s : Type 0 where\n" % name + "".join(self.field(f) for f in fields)
        parts = "; ".join("%d : %s" % (i, self.type(f)) for i, f in enumerate(fields))
        return "abbrev pub %s : Type 0\n%s = record { %s }\n" % (name, name, parts)

    def variant(self, name, v):
        w = re.match(r"(\w+)\s*([({]?)", v)
        args = self.antt.split_commas(self.antt.body_of(v, w.end() - 1)) if w.group(2) else []
        types = [self.type(a.split(":", 1)[1] if w.group(2) == "{" else a) for a in args]
        return "  %s : %s%s\n" % (w.group(1), "".join("(x%d : %s) → " % (i, x) for i, x in enumerate(types)), name)

    def field(self, f):
        if re.match(r"(pub(\([^)]*\))?\s+)?ghost\b", f):
            return ""
        n, t = f.split(":", 1)
        return "  pub %s : %s\n" % (n.split()[-1], self.type(t))

    def value_of(self, model):
        """The type as which contracts see a value: what it names is needed too."""
        antt, types = self.antt, self.types
        body = antt.body_of(self.text, self.text.index("{", model.end()))
        value = re.search(r"ghost\s+Value\s*=\s*\{(.*?)\};", body, re.S).group(1).strip()
        words = [x.text for x in antt.tokens(value)]
        for u in re.finditer(r"ghost\s+use\s+([^;{]+?)\.\{([^}]*)\}", body + "\n" + re.sub(r"\bimpl\b.*", "", self.text, flags=re.S)):
            path = u.group(1).strip()
            for n in u.group(2).split(","):
                name, _, shown = n.strip().partition(" as ")
                if (shown or name) in words and types.is_ours(path):
                    types.need(path, name)
                    self.uses.add("use %s.{%s}\n" % (place(path), n.strip()))
        return value

    def type(self, t):
        """A type of Rust as one of definitions."""
        t = re.sub(r"^pub(\([^)]*\))?\s+", "", t.strip())
        if t in NUMBERS:
            return "ℕ"
        if t == "bool":
            return "Bool"
        if t in ("String", "Bytes"):
            return "List ℕ"
        if t.startswith("("):
            return " × ".join("(%s)" % self.type(x) for x in self.antt.split_commas(t[1:-1])) or "Unit {0}"
        array = re.match(r"\[(.*);.*\]$", t, re.S)
        if array:
            return "List (%s)" % self.type(array.group(1))
        applied = re.fullmatch(r"(\w+)\s*<(.*)>", t, re.S)
        if applied:
            return self.applied(applied.group(1), self.antt.split_commas(applied.group(2)))
        if not re.fullmatch(r"\w+", t):
            raise self.antt.Unread("the type %s is not read" % t)
        path = self.path_of(t)
        self.types.declare(path)
        self.uses.add("use %s.{%s as The%s}\n" % (place(path), t, t))
        return "The" + t

    def applied(self, name, args):
        """A type with parameters: one of the library, or the Value of its Model."""
        if name in ("Option", "Vec", "Box", "Result"):
            shown = ["(%s)" % self.type(x) for x in args]
            return shown[0] if name == "Box" else "%s %s" % ("List" if name == "Vec" else name, " ".join(shown))
        p = self.path_of(name).split(".")
        text, _ = self.types.source(p[1], ".".join(p[4:-1]), name)
        model = re.search(r"\bimpl\s*<[^>{]*>\s*Model\s+for\s+%s\s*<([^>]*)>" % name, text)
        if not model:
            raise self.antt.Unread("the type %s has parameters and no Model" % name)
        value = re.search(r"ghost\s+Value\s*=\s*\{(.*?)\};", self.antt.body_of(text, text.index("{", model.end())), re.S).group(1).strip()
        for n, a in zip([x.strip() for x in model.group(1).split(",")], args):
            if re.search(r"\b%s\b" % n, value):
                value = re.sub(r"\b%s\b" % n, lambda m: "(%s)" % self.type(a), value)
        return "(%s)" % value

    def path_of(self, t):
        """The whole name of a type that the file names."""
        path = declared(self.crate, self.module, t)
        for u in re.finditer(r"^\s*use\s+([\w:]+)(::\{([^}]*)\})?;", self.text, re.M):
            names = [x.strip() for x in u.group(3).split(",")] if u.group(3) else [u.group(1).split("::")[-1]]
            if t in names:
                p = u.group(1).split("::") if u.group(3) else u.group(1).split("::")[:-1]
                path = declared(self.crate if p[0] == "crate" else p[0], ".".join(p[1:]), t)
        p = path.split(".")
        return declared(p[1], self.types.source(p[1], ".".join(p[4:-1]), t)[1], t)


# ---- the copy ------------------------------------------------------------------------------------------------------

MIXED = {"if": {"if◌then◌else◌"}, "¬": {"¬◌"}, "do": {"◌>>=◌", "◌>>◌"}}
WORDS_OF_BLOCKS = ("use", "mod", "ruleset", "axiom", "open", "infix", "infixl", "infixr", "module", "mutual", "unfolding")


class Copy:
    """The definitions that a term stands on, each with its own text."""

    def __init__(self, antt, world):
        self.antt, self.world, self.kept, self.names, self.aliases, self.index = antt, world, {}, {}, {}, {}
        self.types = Types(antt, world, self.need, self.is_ours)

    def is_ours(self, path):
        p = path.split(".")
        return len(p) > 2 and p[0] == "Rattle" and os.path.isdir(os.path.join(self.world.crates, p[1]))

    def is_moved(self, path):
        return self.is_ours(path) or path == FIN_MAP

    def header(self, t):
        return t[: self.antt.find(t, ("where",)) + 1]

    def declares(self, m, t):
        """The names that a piece of a module declares."""
        antt, k = self.antt, 0
        while t[k].text in antt.MARKS and t[k].kind == "n":
            k += 1
        w = t[k].text
        if w in WORDS_OF_BLOCKS:
            return []
        if w == "data" or w == "record" and t[k + 1].kind == "n":
            names, end = [t[k + 1].text], antt.find(t, ("where",))
            for item in antt.items(t[end + 1 :]) if w == "data" and end >= 0 else []:
                names += [x.text for x in item[: antt.find(item, (":",))]]
            return names
        at = antt.find(t, (":", "="))
        return [x.text for x in t[k:at] if x.kind == "n"] if t[at].text == ":" else [m.clause_name(t[:at])]

    def pieces(self, m):
        """name: the places of the pieces that declare it."""
        if m.path not in self.index:
            out = self.index[m.path] = {}
            for i, (t, _) in enumerate(m.pieces):
                for n in self.declares(m, t):
                    out.setdefault(n, []).append(i)
        return self.index[m.path]

    def need(self, path, name):
        """Keeps what a name of a module means, and all that this stands on."""
        if not self.is_ours(path):
            return
        m = self.world.module(path)
        if m is None and path.endswith(".TheConstants"):
            return self.types.constant(path, name)
        if m is None:
            return self.types.declare(path[: -len(".TheVariants")] if path.endswith(".TheVariants") else path)
        if name not in self.pieces(m):
            if name in m.names:
                self.need(*m.names[name])
            return
        kept = self.kept.setdefault(path, set())
        for i in self.pieces(m)[name]:
            if i not in kept:
                kept.add(i)
                self.read(m, m.pieces[i][0])
                for t, _ in self.headers(m, i):
                    self.read(m, t)

    def headers(self, m, i):
        """The headers of the sections around a piece."""
        out, depth = [], m.pieces[i][1]
        for j in range(i, -1, -1):
            t, d = m.pieces[j]
            if d == depth - 1 and t[0].text == "module":
                out.insert(0, (self.header(t), j))
                depth -= 1
        return out

    def read(self, m, toks):
        """Keeps what a text mentions."""
        i = 0
        while i < len(toks):
            parts = [toks[i].text]
            if toks[i].kind == "n":
                while i + 2 < len(toks) and toks[i + 1].text == "." and toks[i + 1].glued and toks[i + 2].glued and toks[i + 2].kind in "nd":
                    parts.append(toks[i + 2].text)
                    i += 2
                self.mention(m, parts)
            i += 1

    def mention(self, m, parts):
        if len(parts) > 1 and (parts[0] in m.aliases or parts[0] == "Rattle"):
            return self.mention_path(m, parts)
        used, index = self.names.setdefault(m.path, {}), self.pieces(m)
        for x in {parts[0], "◌%s◌" % parts[0]} | MIXED.get(parts[0], set()):
            if x in index:
                self.need(m.path, x)
            elif x in m.names:
                used[x] = m.names[x]
                self.need(*m.names[x])

    def mention_path(self, m, parts):
        path = m.aliases.get(parts[0], "Rattle")
        for x in parts[1:]:
            if self.is_ours(path) and self.world.member(path, x, False) or path == FIN_MAP:
                self.need(path, x)
                break
            path += "." + x
        if parts[0] in m.aliases:
            self.aliases.setdefault(m.path, {})[parts[0]] = m.aliases[parts[0]]

    # -- its text
    def origin(self, path, name):
        """Where a name is declared that a module hands on."""
        m = self.world.module(path) if self.is_ours(path) else None
        while m is not None and name not in self.pieces(m) and name in m.names:
            path, name = m.names[name]
            m = self.world.module(path) if self.is_ours(path) else None
        return path, name

    def uses_of(self, module):
        out = []
        for shown, found in sorted(self.names.get(module, {}).items()):
            path, name = self.origin(*found)
            at = place(path) if self.is_ours(path) or path == FIN_MAP and name not in ("find", "put") else path
            out.append("use %s.{%s}" % (at, name if name == shown else "%s as %s" % (name, shown)))
        for shown, path in sorted(self.aliases.get(module, {}).items()):
            out.append("use %s as %s" % (place(path) if self.is_moved(path) else path, shown))
        return out

    def text(self, path):
        """A module of the copy: its pieces that are needed, in their order."""
        m, kept, index = self.world.module(path), self.kept[path], self.pieces(self.world.module(path))
        sections = {j for i in kept for _, j in self.headers(m, i)}
        operators = {n for n, places in index.items() if "◌" in n and any(i in kept for i in places)}
        out, last = self.uses_of(path) + [""], False
        for i, (t, _) in enumerate(m.pieces):
            w = t[0].text
            if w in ("infix", "infixl", "infixr"):
                out += self.lines(m, t) if operators & {x.text for x in t} else []
            elif w == "module":
                out += [""] + self.lines(m, self.header(t)) if i in sections else []
            elif w == "unfolding":
                out += self.lines(m, t) if last else []
            else:
                last = i in kept
                out += self.unfolding(m, t) if last else []
        return "\n".join(l if l.startswith("use ") else re.sub(r"Rattle\.\w+\.specs\.[\w.]+", self.moved, l) for l in out) + "\n"

    def unfolding(self, m, t):
        """A piece, marked so that it unfolds."""
        antt, lines = self.antt, self.lines(m, t)
        word = next(x.text for x in t if x.text not in antt.MARKS)
        if word not in ("data", "record") and t[antt.find(t, (":", "="))].text != ":":
            return lines
        marks = {x.text for x in t[:4]} & antt.MARKS
        mark = "pub " if word in ("data", "record") else "abbrev pub " if "abbrev" in marks else "unfoldable pub "
        lines[0] = re.sub(r"^(\s*)((pattern|unfoldable|abbrev|pub) )*", lambda x: x.group(1) + mark, lines[0])
        return [""] + lines

    def moved(self, found):
        parts = found.group(0).split(".")
        for k in range(len(parts) - 1, 2, -1):
            path = ".".join(parts[:k])
            if self.is_ours(path) and self.world.member(path, parts[k], False):
                return ".".join([place(path)] + parts[k:])
        return found.group(0)

    def lines(self, m, t):
        return m.lines[t[0].line - 1 : t[-1].line]

    def opened(self):
        """The definitions that a lemma has to unfold: those that are no abbreviations."""
        out = {}
        for path, kept in self.kept.items():
            m = self.world.module(path)
            for n, places in self.pieces(m).items():
                if n in m.decls and any(i in kept for i in places) and "abbrev" not in m.decls[n].marks:
                    out.setdefault(place(path), []).append(n)
        return out


# ---- the lemmas ----------------------------------------------------------------------------------------------------


def build(antt, world, uses, rows):
    """The copy, and the text of the lemmas, of rows: a name, a term with its inputs written out, and its value."""
    c, probe, cons = Copy(antt, world), antt.Module(world, "‹term›", "".join("use %s\n" % u for u in uses)), {}

    def con(k):
        return "c%d.%s" % (cons.setdefault(k.module, len(cons)), k.name) if k.module else k.name

    shown = [(n, t, antt.show(v, con)) for n, t, v in rows]
    for n, t, v in shown:
        if "‹" in v:
            raise antt.Unread("row %s: its value has a function or a map in it" % n)
        c.read(probe, antt.tokens(t))
    for m in cons:
        c.need(m, "")
        if m.split(".")[2:4] != ["specs", "declared"]:
            for k in world.module(m).cons:
                if any("c%d.%s" % (cons[m], k) in v for _, _, v in shown):
                    c.need(m, k)
    head = ["use Rattle.std.specs.Prelude.{◌≡◌, refl, ℕ, List, %s}" % ", ".join(antt.PRELUDE), "use Rattle.std.specs.Fmt.{digits as decimal_digits}"]
    head += c.uses_of("‹term›") + ["use %s as c%d" % (place(m), i) for m, i in cons.items()]
    opened = ["decimal_digits"]
    for m, names in sorted(c.opened().items()):
        short = ["o%d" % (len(opened) + i) for i in range(len(names))]
        head.append("use %s.{%s}" % (m, ", ".join("%s as %s" % x for x in zip(names, short))))
        opened += short
    text = head + [""]
    for n, t, v in shown:
        text += ["row_%s : (%s) ≡ (%s)" % (n, t, v), "unfolding %s" % " ".join(opened), "row_%s = refl" % n, ""]
    return c, "\n".join(text)


def write(c, lemmas, out):
    """Writes the crate; gives how many modules and types it has."""
    base = os.path.join(out, "crates", "rows")
    for d in ("src", "specs", "proofs"):
        os.makedirs(os.path.join(base, d), exist_ok=True)

    def put(*path_and_text):
        with open(os.path.join(*path_and_text[:-1]), "w", encoding="utf-8") as f:
            f.write(path_and_text[-1])

    put(out, "crates.txt", "rows:\n")
    put(base, "src", "lib.rt", "//! Rows to be computed.\n#![tactic(auto)]\n")
    modules = {"Maps": MAPS}
    modules.update({place(path)[len(LIB) :]: text for path, text in c.types.texts.items()})
    modules.update({place(path)[len(LIB) :]: c.text(path) for path in c.kept})
    for name, text in modules.items():
        put(base, "specs", name + ".antt", text)
    put(base, "specs", "Lib.antt", "".join("pub mod %s\n" % n for n in modules))
    put(base, "proofs", "Lib.antt", "mod Rows\n")
    put(base, "proofs", "Rows.antt", lemmas)
    return len(c.kept), len(c.types.texts)


def with_input(antt, term, data):
    """A term with bytes in the place of `input`."""
    given = antt.show(antt.from_list(list(data)), inner=True)
    return re.sub(r"(?<![\w.])input(?![\w.])", lambda m: given, term)


def main():
    p = argparse.ArgumentParser(description=__doc__, formatter_class=argparse.RawDescriptionHelpFormatter)
    p.add_argument("tools"), p.add_argument("out")
    p.add_argument("--crates", default="crates"), p.add_argument("--use", action="append", default=[])
    p.add_argument("--term", required=True), p.add_argument("--files", nargs="+", required=True)
    options = p.parse_args()
    antt = load(options.tools, "antt")
    follow_operators(antt), follow_constants(antt)

    def run():
        world, rows = antt.World(options.crates), []
        for f in options.files:
            with open(f, "rb") as file:
                data = file.read()
            value = world.value(options.term, options.use, input=antt.from_list(list(data)))
            rows.append((re.sub(r"\W", "_", os.path.basename(f).split(".")[0]), with_input(antt, options.term, data), value))
        c, lemmas = build(antt, world, options.use, rows)
        modules, types = write(c, lemmas, options.out)
        print("%d rows, %d modules and %d types" % (len(rows), modules, types))
        return 0

    sys.exit(antt.deep(run))


if __name__ == "__main__":
    main()
