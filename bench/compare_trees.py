#!/usr/bin/env python3
"""Compares dl_tree with another tree of nodes, written in Python, on random operations.

usage: bench/compare_trees.py MODEL [COUNT [SEED]]

MODEL is a folder with machine.py, whose class Tree has apply(session, op), drop_session(session) and nodes. COUNT is the
number of requests (6,000 where none is given), SEED the seed of the draw (1). The script makes a scratch repository with
dl_tree, the crates below it and a program that reads a request a line and prints what it gives; it proves the program, which takes
some minutes, and runs it. It prints the first line at which the two trees differ, and then its status is 1; else how many
requests gave what. After each hundredth request every node is looked at.

A plain creation of `/` is not drawn: here it answers that there is no parent, and the Python tree that the node exists.
"""
import collections, os, random, shutil, subprocess, sys, tempfile

TOP = os.path.dirname(os.path.dirname(os.path.abspath(__file__)))
CRATES = ["dl_types", "dl_reading", "dl_codec", "dl_fields", "dl_tree"]

PROGRAM = r'''
//! Reads a request on a tree a line, and prints what it gives.
#![tactic(auto)]

ghost use Rattle.std.specs.Prelude.{IfOk};
ghost use Rattle.dl_tree.specs.Trees.{HasPlaces};

use dl_tree::node::NodeView;
use dl_tree::tree::Tree;
use dl_types::body::Body;
use dl_types::memory::NoMemory;
use dl_types::meta_answer::MetaAnswer;
use dl_types::meta_op::MetaOp;
use dl_types::mode::Mode;
use dl_types::one_answer::OneAnswer;
use dl_types::one_op::OneOp;
use dl_types::one_ops::OneOps;
use dl_types::path::Path;
use dl_types::why::Why;
use std::alloc::Global;
use std::io;
use std::io::{BufRead, BufReader};

fn version_of(word: &str) -> Option<u64> {
    match word.parse::<u64>() {
        Ok(version) => Some(version),
        Err(_) => None,
    }
}

fn mode_of(word: &str) -> Mode {
    if word == "ephemeral" {
        Mode::Ephemeral
    } else if word == "counted" {
        Mode::Counted
    } else if word == "ephemeralcounted" {
        Mode::EphemeralCounted
    } else {
        Mode::Lasting
    }
}

fn op_of(alloc: Global, verb: &str, path: &str, word: &str, bytes: &str) -> Result<OneOp, NoMemory> {
    let path = Path::new(alloc, path.as_bytes())?;
    if verb == "create" {
        let mode = mode_of(word);
        let bytes = Body::new(alloc, bytes.as_bytes())?;
        Ok(OneOp::Create { path, bytes, mode })
    } else if verb == "delete" {
        let version = version_of(word);
        Ok(OneOp::Delete { path, version })
    } else if verb == "set" {
        let version = version_of(word);
        let bytes = Body::new(alloc, bytes.as_bytes())?;
        Ok(OneOp::Set { path, bytes, version })
    } else if verb == "check" {
        let version = version_of(word);
        Ok(OneOp::Check { path, version })
    } else if verb == "get" {
        Ok(OneOp::Get { path })
    } else {
        Ok(OneOp::Children { path })
    }
}

fn cut(text: &str) -> (&str, &str) {
    text.split_once(' ').unwrap_or((text, ""))
}

fn one_of(alloc: Global, text: &str) -> Result<OneOp, NoMemory> {
    let (verb, rest) = cut(text);
    let (path, rest) = cut(rest);
    let (word, bytes) = cut(rest);
    op_of(alloc, verb, path, word, bytes)
}

fn request_of(alloc: Global, text: &str) -> Result<MetaOp, NoMemory>
    ensures { IfOk result HasPlaces }
{
    let Some(text) = text.strip_prefix("all ") else {
        return Ok(MetaOp::One(one_of(alloc, text)?));
    };
    let mut ops = Vec::new(alloc);
    for text in text.split("; ") {
        ops.push(one_of(alloc, text)?)?;
    }
    if ops.len() > 65535 {
        return Err(NoMemory);
    }
    let ops = OneOps::from_vec(ops);
    Ok(MetaOp::Multi { ops })
}

fn text_of(bytes: &[u8]) -> &str {
    std::str::from_utf8(bytes).unwrap_or("?")
}

fn tell_names(out: &mut String, names: &[Path]) -> Result<(), NoMemory> {
    out.push_str("names")?;
    for name in names {
        let name = text_of(name.as_slice());
        write!(out, " {name}")?;
    }
    Ok(())
}

fn tell_one(out: &mut String, answer: &OneAnswer) -> Result<(), NoMemory> {
    match answer {
        OneAnswer::Made(path) => {
            let path = text_of(path.as_slice());
            write!(out, "made {path}")?;
        }
        OneAnswer::Done => out.push_str("done")?,
        OneAnswer::Version(version) => write!(out, "version {version}")?,
        OneAnswer::Bytes { bytes, version } => {
            let bytes = text_of(bytes.as_slice());
            write!(out, "bytes {bytes} at {version}")?;
        }
        OneAnswer::Names(names) => tell_names(out, names.as_slice())?,
    }
    Ok(())
}

fn tell_why(out: &mut String, why: Why) -> Result<(), NoMemory> {
    match why {
        Why::NoNode => out.push_str("nonode")?,
        Why::NodeExists => out.push_str("nodeexists")?,
        Why::BadVersion(version) => write!(out, "badversion {version}")?,
        Why::NotEmpty(count) => write!(out, "notempty {count}")?,
        Why::EphemeralParent => out.push_str("ephemeralparent")?,
        Why::Spent => out.push_str("spent")?,
    }
    Ok(())
}

fn tell(out: &mut String, answer: &MetaAnswer) -> Result<(), NoMemory> {
    match answer {
        MetaAnswer::One(answer) => tell_one(out, answer)?,
        MetaAnswer::Many(answers) => {
            out.push_str("all")?;
            for answer in answers.as_slice() {
                out.push_str("; ")?;
                tell_one(out, answer)?;
            }
        }
        MetaAnswer::Failed { place, why } => {
            write!(out, "failed {place} ")?;
            tell_why(out, *why)?;
        }
    }
    Ok(())
}

fn tell_view(out: &mut String, view: &NodeView<'_>) -> Result<(), NoMemory> {
    let bytes = text_of(view.bytes);
    let version = view.version;
    let counter = view.counter;
    match view.owner {
        Some(owner) => write!(out, "{bytes} {version} {owner} {counter}")?,
        None => write!(out, "{bytes} {version} - {counter}")?,
    }
    Ok(())
}

fn look(out: &mut String, tree: &Tree, alloc: Global, path: &str) -> Result<(), NoMemory> {
    let path = Path::new(alloc, path.as_bytes())?;
    match tree.look(&path) {
        Some(view) => tell_view(out, &view),
        None => Ok(out.push_str("none")?),
    }
}

fn list(out: &mut String, tree: &Tree, alloc: Global, path: &str) -> Result<(), NoMemory> {
    let path = Path::new(alloc, path.as_bytes())?;
    match tree.children(alloc, &path)? {
        Some(names) => tell_names(out, names.as_slice()),
        None => Ok(out.push_str("none")?),
    }
}

fn request(out: &mut String, tree: &mut Tree, alloc: Global, session: u64, line: &str) -> Result<(), NoMemory> {
    let request = request_of(alloc, line)?;
    let answer = tree.apply(session, &request)?;
    tell(out, &answer)
}

fn run(out: &mut String, tree: &mut Tree, alloc: Global, line: &str) -> Result<(), NoMemory> {
    let (first, rest) = cut(line);
    let session = version_of(first).unwrap_or(0);
    if first == "look" {
        look(out, tree, alloc, rest)
    } else if first == "list" {
        list(out, tree, alloc, rest)
    } else if rest == "end" {
        tree.drop_session(session);
        Ok(out.push_str("ended")?)
    } else {
        request(out, tree, alloc, session, rest)
    }
}

fn main(rt: HostRuntime) -> io::Result<()> {
    let alloc = rt.alloc();
    let Ok(mut tree) = Tree::new(alloc) else {
        return rt.println("no memory");
    };
    for line in BufReader::new(alloc, rt.reader())?.lines(alloc) {
        let line = line?;
        let mut out = String::new(alloc);
        if run(&mut out, &mut tree, alloc, line.as_str()).is_err() {
            return rt.println("no memory");
        }
        rt.println(out.as_str())?;
    }
    Ok(())
}
'''.lstrip()

MODES = ["lasting", "ephemeral", "counted", "ephemeralcounted"]
PARTS = ["a", "b", "B", "-", "0", "a-", "a0", "ab", "z~", "m"]


class Draw:
    """Random requests on a tree, which are told by lines too. Most speak of nodes that are there."""

    def __init__(self, seed, tree):
        self.random, self.tree = random.Random(seed), tree

    def child(self):
        """A path for a node to be made, mostly below one that may have children."""
        nodes = self.tree.nodes
        if self.random.random() < 0.85:
            above = self.random.choice([p for p in nodes if p.count("/") <= 2 and nodes[p][2] is None])
        else:
            above = self.path()
        return (above if above != "/" else "") + "/" + self.random.choice(PARTS)

    def path(self):
        draw = self.random.random()
        if draw < 0.85:
            return self.random.choice(list(self.tree.nodes))
        return "".join("/" + self.random.choice(PARTS) for _ in range(self.random.randrange(1, 4)))

    def version(self, path):
        node = self.tree.nodes.get(path)
        draw = self.random.random()
        if draw < 0.45:
            return None
        if node is not None and draw < 0.8:
            return node[1]
        return self.random.choice([0, 1, 2, 3, 2**64 - 1])

    def body(self):
        return "".join(self.random.choice("xyz") for _ in range(self.random.randrange(5)))

    def one(self):
        kind = self.random.choices(["create", "delete", "set", "check", "get", "children"], [36, 22, 15, 9, 9, 9])[0]
        if kind == "create":
            mode = self.random.choices(MODES, [45, 20, 20, 15])[0]
            counted = mode.endswith("counted")
            path = self.path() if counted and self.random.random() < 0.3 else self.child()
            return (kind, path, self.body().encode(), mode)
        path = self.path()
        if kind in ("delete", "check"):
            return (kind, path, self.version(path))
        if kind == "set":
            return (kind, path, self.body().encode(), self.version(path))
        return (kind, path)

    def request(self):
        if self.random.random() < 0.3:
            return ("multi", [self.one() for _ in range(self.random.randrange(1, 6))])
        return self.one()


def word(version):
    return "-" if version is None else str(version)


def line_of(op):
    kind = op[0]
    if kind == "multi":
        return "all " + "; ".join(line_of(one) for one in op[1])
    if kind == "create":
        return "create %s %s %s" % (op[1], op[3], op[2].decode())
    if kind == "set":
        return "set %s %s %s" % (op[1], word(op[3]), op[2].decode())
    if kind in ("delete", "check"):
        return "%s %s %s" % (kind, op[1], word(op[2]))
    return "%s %s" % (kind, op[1])


def told(answer):
    kind = answer[0]
    if kind == "many":
        return "all" + "".join("; " + told(one) for one in answer[1])
    if kind == "bytes":
        return "bytes %s at %d" % (answer[1].decode(), answer[2])
    if kind == "names":
        return "names" + "".join(" " + name for name in answer[1])
    if kind == "failed":
        return "failed %d %s" % (answer[1], " ".join(str(x) for x in answer[2]))
    return " ".join(str(x) for x in answer)


def asked(model, count, seed):
    """The lines for the program, and what the Python tree says to each."""
    tree = model.Tree()
    draw = Draw(seed, tree)
    lines, want, seen = [], [], collections.Counter()
    for number in range(1, count + 1):
        session = draw.random.randrange(1, 5)
        if draw.random.random() < 0.01:
            tree.drop_session(session)
            lines.append("%d end" % session)
            want.append("ended")
        else:
            op = draw.request()
            lines.append("%d %s" % (session, line_of(op)))
            want.append(told(tree.apply(session, op)))
        words = want[-1].replace(";", " ").split()
        seen[" ".join([words[0], words[2]] if words[0] == "failed" else words[:1])] += 1
        if number % 100 == 0 or number == count:
            for path, node in sorted(tree.nodes.items()):
                lines.append("look %s" % path)
                want.append("%s %d %s %d" % (node[0].decode(), node[1], word(node[2]), node[3]))
                lines.append("list %s" % path)
                want.append(told(("names", sorted(k[len(path.rstrip("/")) + 1:] for k in tree.nodes if k != "/" and tree.parent(k) == path))))
            for _ in range(5):
                path = draw.path()
                if path not in tree.nodes:
                    lines.append("look %s" % path)
                    want.append("none")
    return lines, want, seen, len(tree.nodes)


def built(scratch):
    """A scratch repository with the program, proved; the program's path."""
    listed = open(os.path.join(TOP, "crates.txt")).read().splitlines()
    with open(os.path.join(scratch, "crates.txt"), "w") as out:
        for crate in CRATES:
            for part in ("src", "specs", "proofs"):
                shutil.copytree(os.path.join(TOP, "crates", crate, part), os.path.join(scratch, "crates", crate, part))
            out.write("".join(line + "\n" for line in listed if line.startswith(crate + ":")))
        out.write("bench_trees: dl_types dl_tree\n")
    shutil.copy(os.path.join(TOP, "HANDLES"), scratch)
    subprocess.run(["git", "init", "-q", scratch], check=True)
    crate = os.path.join(scratch, "crates", "bench_trees")
    for part in ("src", "specs", "proofs"):
        os.makedirs(os.path.join(crate, part))
        if part != "src":
            open(os.path.join(crate, part, "Lib.antt"), "w").close()
    with open(os.path.join(crate, "src", "main.rt"), "w") as out:
        out.write(PROGRAM)
    done = subprocess.run(["rt", "run"], cwd=crate, stdin=subprocess.DEVNULL, capture_output=True, text=True)
    program = os.path.join(crate, "out", "bench_trees")
    if not os.path.exists(program):
        sys.exit("the program was not built:\n" + done.stdout[-4000:] + done.stderr[-4000:])
    return program


def main(words):
    if not 1 <= len(words) <= 3:
        sys.exit(__doc__)
    sys.path.insert(0, words[0])
    import machine
    count, seed = (int(w) for w in words[1:] + ["6000", "1"][len(words) - 1:])
    lines, want, seen, nodes = asked(machine, count, seed)
    with tempfile.TemporaryDirectory() as scratch:
        got = subprocess.run([built(scratch)], input="\n".join(lines) + "\n", capture_output=True, text=True).stdout.splitlines()
    for number, (line, ours, theirs) in enumerate(zip(lines, got, want), 1):
        if ours != theirs:
            print("line %d differs: %s\n  dl_tree: %s\n  the other: %s" % (number, line, ours, theirs))
            sys.exit(1)
    if len(got) != len(want):
        sys.exit("%d lines were answered of %d" % (len(got), len(want)))
    print("%d requests and %d looks: the same answers; %d nodes at the end" % (count, len(want) - count, nodes))
    for kind, times in sorted(seen.items()):
        print("  %6d %s" % (times, kind))


main(sys.argv[1:])
