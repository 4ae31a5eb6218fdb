#!/usr/bin/env python3
"""Brings the repository's own names to the spelling of today's Rattle (PORTING.md, part 3; CONTRACT_STYLE.md, "Names").

usage: respell.py                 at the top of the repository, right after port.py: renames in crates/, writes the table respell.tsv beside this script
       respell.py --check         changes nothing: prints what would change and what falls together; status 1 if anything would change
       respell.py --map FILE      the table goes to FILE (with --check too: then nothing else is written)
       respell.py --landed OLD FILE   with the first of these: FILE lists what each name of OLD, the tree before port.py, is called now; as
                                  respell_landed.tsv beside this script it serves --docs, --edits, --text and --mentions too, since pages and edits have those names
       respell.py --no-fmt        without `rt fmt` in each crate at the end
       respell.py --verify OLD    compares this tree with the folder OLD (the tree before): token by token, through the table
       respell.py --docs FILE..   renames, by the table, what stands in code spans and fenced blocks of these pages (a name in plain prose stays)
       respell.py --mentions      lists the renamed names that README, docs/, tests/, tools/ and bench/ still mention
       respell.py --edits         renames, by the table, the old: and new: lines of crates/*/must-fail/*.edit (right after the renaming; an edit that
                                  stood in the text before stands in it again)
       respell.py --text KIND FILE..   renames in FILE by the table alone: KIND is antt, rt, edit or md (an edit: its old: and new: lines)

From Python: `import respell; respell.respell_text(text, 'edit')` is the same as --text, with the table beside this script.

What is renamed: what the repository itself defines in specs/ and proofs/: definitions, lemmas, constructors, fields, the names that a
`where`, a `module _` or a clause binds. Types and facts are in UpperCamel case and all else in snake case: a dash or an inner capital
becomes `_`. What stays: each name of the kit (also where the repository has the same spelling elsewhere: a file's imports decide), each
name that Rattle makes (goals, steps, `c.before..`), each name of src/, and a symbol (one capital with digits or primes, as F, N, W2).
A second run changes nothing. Where a new name would fall on another word of a file, it gets another form (see `forms`).
"""

import collections
import os
import re
import subprocess
import sys

HERE = os.path.dirname(os.path.realpath(__file__))
TABLE = os.path.join(HERE, "respell.tsv")

# Names that don't follow from their spelling, each with its reason.
EXCEPTIONS = {
    # The kinds of body, numbers: in snake case they would fall on the constructors of Lay, Art and Inner. All eight alike.
    "Leaf": "leaf_kind",
    "Prefix": "prefix_kind",
    "Crossing": "crossing_kind",
    "Node4": "node4_kind",
    "Node16": "node16_kind",
    "Node48": "node48_kind",
    "Node256": "node256_kind",
    "EmptyRoot": "empty_root_kind",
    # port.py's spelling of firstOf, and a tactic's name.
    "first_of": "first_leaf",
    # The library's getD is get_or today, and so the lemma on it.
    "getD-put-off": "get_or_put_off",
}

NAME = r'[^\s(){}.;,@"«»]+'
TOKEN = re.compile(r'(?P<comment>--[^\n]*|\{-.*?-\})|(?P<string>"(?:[^"\\\n]|\\.)*")|(?P<escaped>«[^»\n]*»)|(?P<name>' + NAME + r")|(?P<space>\s+)|(?P<mark>.)", re.S)
KEYWORDS = set(
    "data record deriving module where use mod pub package open as unfoldable abbrev axiom unfold unfolding ruleset mutual infix infixl infixr elim let in do "
    "λ ∀ Type 𝕀 𝔽 coe fcoe tcoe hcom com ∨ ∧ pattern".split()
)
# Names of Prim, tactics among them: a definition so spelled shadows them in each file that imports it.
PRIM = set("rw rw⁻¹ simp search grw cc omega grind hlevel assumption first_of cap V vin vproj in_s out_s ground tt Unit absurd yes no".split())
RESERVED = KEYWORDS | PRIM
SYMBOLS = set("→ × ↦ = | : [ ] _ λ".split())
MADE = re.compile(r"\.(Tie|Statement|Goals|Given|Reads|Kinds|Code|Met|Lts[^.]*|Args|Invariants|Answers|\+[^.]+)(\.|$)")
BLOCK = re.compile(r"(?<![^\s(){};,])(?:where|do|let|mutual) +(?=\S)")
RUST = re.compile(r"""//[^\n]*|/\*.*?\*/|[bc]?r(#*)".*?"\1|[bc]?"(?:\\.|[^"\\])*"|b?'(?:\\u\{[0-9a-fA-F_]+\}|\\x..|\\.|[^'\\])'|'?\w+|\s+|.""", re.S)
CLAUSE = re.compile(r"(?:requires|ensures)\s*\*?\s*(?:\w+\s*)?\{|ghost\s*(?:\w+\s*(?::\s*(?:(?:owns|lends)\s*)?|=\s*))?\{")
GHOST_USE = re.compile(r"ghost\s+use\b[^;]*;")
SPAN = re.compile(r"(`+)(?:[^\n]|\n(?!\s*\n))*?\1")
FENCE = re.compile(r"^( *)(`{3,})([^\n`]*)\n(.*?)^\1\2 *$", re.S | re.M)


def read(path):
    with open(path, encoding="utf-8", newline="") as f:
        return f.read()


def write(path, text):
    with open(path, "w", encoding="utf-8", newline="") as f:
        f.write(text)


# ---- spelling


def is_symbol(name):
    """One capital with digits, primes and subscripts: F, N, W2, T1'. Such a name is a letter of the documents or of a proof, as std has them too."""
    return re.fullmatch(r"[A-Z][0-9₀-₉']*", name) is not None


def in_snake(name):
    words = name.replace("′", "'")
    words = re.sub(r"(?<=[a-z0-9₀-₉'])[A-Z]+", lambda m: "_" + m[0].lower(), words)
    words = re.sub(r"[A-Z]+", lambda m: m[0].lower(), words)
    return re.sub(r"_+", "_", words.replace("-", "_"))


def in_camel(name):
    """A type's name: an acronym is one word, as in Rust."""
    words = [w for w in re.split(r"[-_]", name.replace("′", "'")) if w]
    words = [w[:1].upper() + w[1:] for w in words]
    return re.sub(r"(?<=[a-z0-9])([A-Z])([A-Z]+)(?![a-z])", lambda m: m[1] + m[2].lower(), "".join(words))


def spelled(name, is_type):
    if not re.search(r"[A-Za-z]", name) or "◌" in name or is_symbol(name):
        return name
    return in_camel(name) if is_type else in_snake(name)


# ---- antt


class Token:
    __slots__ = ("kind", "text", "at", "role")

    def __init__(self, kind, text, at):
        self.kind, self.text, self.at, self.role = kind, text, at, None


def tokens(text):
    out = []
    for m in TOKEN.finditer(text):
        kind = m.lastgroup
        out.append(Token(kind, m[0], m.start()))
    return out


def solid(toks):
    return [t for t in toks if t.kind not in ("space", "comment")]


class Text:
    """An antt text with the role of each name: 'path' (of a use line), 'item' (of one), 'field' (behind a dot), 'label' (in a record's braces),
    'word' (any other)."""

    def __init__(self, text):
        self.text = text
        self.toks = tokens(text)
        self.uses = []  # (path, items, alias): items are (token, alias token or None)
        self.marked()

    def next_solid(self, i):
        i += 1
        while i < len(self.toks) and self.toks[i].kind in ("space", "comment"):
            i += 1
        return i

    def marked(self):
        toks, n = self.toks, len(self.toks)
        braces = []  # for each open brace: does it hold labels?
        i = 0
        before = None  # the last solid token
        while i < n:
            t = toks[i]
            if t.kind in ("space", "comment"):
                i += 1
                continue
            if t.kind == "name" and t.text == "use" and self.starts_line(i):
                i = self.a_use(i)
                before = None
                continue
            if t.text == "{":
                braces.append(self.after_record(i))
            elif t.text == "}":
                if braces:
                    braces.pop()
            elif t.kind == "name" or t.kind == "escaped":
                tight = i > 0 and toks[i - 1].text == "."
                j = self.next_solid(i)
                follows = toks[j].text if j < n else ""
                if tight:
                    t.role = "field"
                elif before is not None and before.text == "mod":
                    t.role = "path"
                elif braces and braces[-1] and before is not None and before.text in ("{", ";") and follows in ("=", ":"):
                    t.role = "label"
                else:
                    t.role = "word"
            before = t
            i += 1

    def starts_line(self, i):
        j = i - 1
        while j >= 0 and (self.toks[j].kind == "space" and "\n" not in self.toks[j].text or self.toks[j].text in ("pub", "ghost")):
            j -= 1
        return j < 0 or self.toks[j].kind == "space" or self.toks[j].kind == "comment" or self.toks[j].text == ";"

    def after_record(self, i):
        """Whether the brace at i opens a record literal, type or pattern."""
        j = i - 1
        back = []
        while j >= 0 and len(back) < 400:
            if self.toks[j].kind not in ("space", "comment"):
                back.append(self.toks[j])
                if self.toks[j].text == "record":
                    break
            j -= 1
        else:
            return False
        if j < 0:
            return False
        between = back[:-1][::-1]
        if not between:
            return True
        # `record r.f {` or `record (..) {`
        depth, parts = 0, 0
        last = None
        for t in between:
            if t.text == "(":
                parts += depth == 0
                depth += 1
            elif t.text == ")":
                depth -= 1
                if depth < 0:
                    return False
            elif depth == 0:
                if t.kind == "name" and t.text in SYMBOLS | {"where", "in", "let", "as"}:
                    return False
                if t.kind == "name" and not (last and last.text == "."):
                    parts += 1
                elif t.text not in (".",) and t.kind != "name":
                    return False
            last = t
        return depth == 0 and parts == 1

    def a_use(self, i):
        toks, n = self.toks, len(self.toks)
        j = self.next_solid(i)
        path = []
        while j < n and toks[j].kind in ("name", "escaped"):
            toks[j].role = "path"
            path.append(toks[j])
            if j + 1 < n and toks[j + 1].text == "." and j + 2 < n and toks[j + 2].kind in ("name", "escaped"):
                j += 2
                continue
            j += 1
            break
        items, alias = [], None
        if j < n and toks[j].text == ".":
            j = self.next_solid(j)
            if j < n and toks[j].text == "{":
                j = self.next_solid(j)
                while j < n and toks[j].text != "}":
                    if toks[j].kind in ("name", "escaped"):
                        toks[j].role = "item"
                        item = [toks[j], None]
                        k = self.next_solid(j)
                        if k < n and toks[k].text == "as":
                            k = self.next_solid(k)
                            toks[k].role = "word"
                            item[1] = toks[k]
                            j = k
                        items.append(tuple(item))
                    j = self.next_solid(j)
                j += 1
        else:
            k = j
            while k < n and toks[k].kind in ("space", "comment") and "\n" not in toks[k].text:
                k += 1
            if k < n and toks[k].text == "as":
                k = self.next_solid(k)
                toks[k].role = "word"
                alias = toks[k]
                j = k + 1
        self.uses.append((path, items, alias))
        return j


MARKS = {"pattern", "unfoldable", "abbrev", "axiom", "pub"}


class Def:
    __slots__ = ("name", "kind", "where", "line", "is_type", "indent", "made")

    def __init__(self, name, kind, where, line, is_type, indent, made=False):
        self.name, self.kind, self.where, self.line, self.is_type, self.indent, self.made = name, kind, where, line, is_type, indent, made


def lines_of(text):
    """Each line that has a solid token first: (indent, its tokens, line number), where a later line belongs to a line above if it is deeper."""
    toks = tokens(text)
    out, current, line, col = [], [], 1, 0
    fresh = True
    for t in toks:
        if t.kind == "space":
            if "\n" in t.text:
                fresh = True
                col = len(t.text) - t.text.rindex("\n") - 1
                line += t.text.count("\n")
            continue
        if t.kind == "comment":
            line += t.text.count("\n")
            continue
        if fresh:
            current = []
            out.append((col, current, line))
            fresh = False
        current.append(t)
    return out


def sig_tokens(lines, i, start):
    """The tokens of a signature that begins in line i at its token 'start' (behind the colon), with the deeper lines below."""
    indent, toks, _ = lines[i]
    out = list(toks[start:])
    k = i + 1
    while k < len(lines) and lines[k][0] > indent:
        out += lines[k][1]
        k += 1
    return out


def ends_in_type(toks):
    """Whether a type's last segment, behind its last arrow outside brackets, is a universe."""
    depth, last = 0, 0
    for k, t in enumerate(toks):
        if t.text in "([{" and len(t.text) == 1:
            depth += 1
        elif t.text in ")]}" and len(t.text) == 1:
            depth -= 1
        elif t.text == "→" and depth == 0:
            last = k + 1
    return last < len(toks) and toks[last].text == "Type"


def definitions(text, where, made_heads):
    """What an antt text declares."""
    lines = lines_of(text)
    out = []
    blocks = []  # (indent, kind) of the open data and record blocks
    for i, (indent, toks, line) in enumerate(lines):
        while blocks and indent <= blocks[-1][0]:
            blocks.pop()
        k = 0
        while k < len(toks) and toks[k].text in MARKS:
            k += 1
        # a block may begin on its opener's line: `where x : T`
        if k >= len(toks):
            continue
        t = toks[k]
        if t.text in ("data", "record") and k + 1 < len(toks) and toks[k + 1].kind == "name" and indent + 1 and not (t.text == "record" and toks[k + 1].text == "{"):
            if t.text == "record" and (k + 2 < len(toks) and toks[k + 2].text == "{" and k == 0 and toks[0].text == "record" and indent > 0 and not any(x.text == "where" for x in toks)):
                pass
            else:
                out.append(Def(toks[k + 1].text, t.text, where, line, True, indent))
                blocks.append((indent, "ctor" if t.text == "data" else "field"))
                continue
        if t.text in ("use", "mod", "module", "mutual", "where", "unfolding", "infix", "infixl", "infixr", "open", "let", "in"):
            if t.text in ("where", "mutual") and k + 1 < len(toks):
                k += 1
                t = toks[k]
            else:
                continue
        if t.kind != "name" or t.text in SYMBOLS:
            continue
        # names, then maybe {levels}, then a colon
        j = k
        names = []
        while j < len(toks) and toks[j].kind == "name" and toks[j].text not in SYMBOLS and toks[j].text not in KEYWORDS:
            names.append(toks[j])
            j += 1
        if j < len(toks) and toks[j].text == "{":
            while j < len(toks) and toks[j].text != "}":
                j += 1
            j += 1
        if j >= len(toks) or toks[j].text != ":" or not names:
            continue
        if len(names) > 1 and not (blocks and blocks[-1][1]):
            continue
        sig = sig_tokens(lines, i, j + 1)
        kind = blocks[-1][1] if blocks else "def"
        made = False
        if kind == "def":
            # the head of the type: an alias of a module that Rattle makes
            depth, starts = 0, True
            for a, s in enumerate(sig):
                if s.text in ("(", "{"):
                    depth += 1
                elif s.text in (")", "}"):
                    depth -= 1
                elif depth == 0 and starts and s.kind == "name":
                    made = made or s.text in made_heads and a + 1 < len(sig) and sig[a + 1].text == "."
                    starts = False
                if s.text == "→" and depth == 0:
                    starts = True
                if s.text in ("=",) and depth == 0:
                    break
        for nm in names:
            out.append(Def(nm.text, kind, where, line, kind == "def" and ends_in_type(sig), indent, made))
    return out


# ---- the repository


class Repo:
    def __init__(self, top):
        self.top = top
        self.crates = sorted(c for c in os.listdir(os.path.join(top, "crates")) if os.path.isdir(os.path.join(top, "crates", c)))
        self.antt, self.rt = [], []
        for c in self.crates:
            for folder, dirs, files in os.walk(os.path.join(top, "crates", c)):
                dirs[:] = sorted(d for d in dirs if d != "out" and not d.startswith("."))
                for f in sorted(files):
                    p = os.path.join(folder, f)
                    if os.path.islink(p):
                        continue
                    rel = os.path.relpath(p, top)
                    part = rel.split(os.sep)[2] if rel.count(os.sep) > 2 else ""
                    if f.endswith(".antt") and part in ("specs", "proofs"):
                        self.antt.append(rel)
                    elif f.endswith(".rt") and part == "src":
                        self.rt.append(rel)
        self.modules = {self.module_of(p) for p in self.antt}

    @staticmethod
    def module_of(path):
        parts = path[: -len(".antt")].split(os.sep)
        return "Rattle." + ".".join(parts[1:])

    def origin(self, path):
        """'own', 'made' or 'kit', of a module's path."""
        steps = [it.text.strip("«»") for it in path] if path and isinstance(path[0], Token) else path
        if steps[0] == "package":
            return "own"
        if steps[0] != "Rattle" or len(steps) < 2 or steps[1] not in self.crates:
            return "kit"
        if len(steps) > 3 and steps[2] == "specs" and steps[3] == "declared":
            return "made"
        if ".".join(steps) in self.modules:
            return "own"
        if MADE.search("." + ".".join(steps[2:])):
            return "made"
        # a type's or a function's own module inside one of ours, as Rattle.model.specs.Frame.Lay
        if ".".join(steps[:-1]) in self.modules:
            return "own"
        return "made"


class FileNames:
    """An antt text of the repository: what each of its names is."""

    def __init__(self, repo, path, text, antt=None):
        self.path = path
        self.antt = antt or Text(text)
        self.kit, self.kit_heads, self.made_heads, self.own_heads = set(), set(), set(), set()
        self.imported = {}  # own names that come by a use line
        self.plain_heads = set()  # modules that a use line brings in under their own name
        for upath, items, alias in self.antt.uses:
            origin = repo.origin(upath)
            steps = [it.text.strip("«»") for it in upath]
            for item, as_ in items:
                here = (as_ or item).text
                if origin == "own":
                    if not as_:
                        self.imported[here] = ".".join(steps)
                elif as_ is None:
                    self.kit.add(here)
            if not items:
                last = alias.text if alias else steps[-1]
                if not alias and ".".join(steps) in repo.modules:
                    self.plain_heads.add(last)
                # a use line that ends in an item and not in a module
                if origin == "own" and ".".join(steps) not in repo.modules and ".".join(steps[:-1]) in repo.modules:
                    if not alias:
                        self.imported[last] = ".".join(steps[:-1])
                if origin == "kit":
                    self.kit_heads.add(last)
                    if not alias:
                        self.kit.add(last)
                elif origin == "made":
                    self.made_heads.add(last)
                    if not alias:
                        self.kit.add(last)
                else:
                    self.own_heads.add(last)
        self.defs = definitions(text, path, self.made_heads)
        self.steps = {d.name for d in self.defs if d.made} - {d.name for d in self.defs if not d.made}
        # only below a function's folder: Proof.antt, Answers.antt, Invariants.antt
        if path.count(os.sep) < 4 or path.split(os.sep)[2] != "proofs":
            self.steps = set()

    def chain(self, i):
        """The names before a name behind a dot, the nearest first; None where the chain begins with a bracket."""
        toks, out = self.antt.toks, []
        while i > 1 and toks[i - 1].text == ".":
            if toks[i - 2].kind in ("name", "escaped"):
                out.append(toks[i - 2].text)
                i -= 2
            else:
                out.append(None)
                break
        return out

    def words(self):
        """Each name that may be renamed: (token, what it is)."""
        toks = self.antt.toks
        uses = {}
        for upath, items, alias in self.antt.uses:
            for item, as_ in items:
                uses[id(item)] = upath
            uses[id(upath[-1])] = upath
        for i, t in enumerate(toks):
            if t.role is None or t.kind != "name":
                continue
            yield i, t, t.role, uses.get(id(t))


class Map:
    def __init__(self, repo):
        self.repo = repo
        self.files = {}
        for p in repo.antt:
            self.files[p] = FileNames(repo, p, read(os.path.join(repo.top, p)))
        self.rt = {}
        for p in repo.rt:
            self.rt[p] = RtFile(repo, p, read(os.path.join(repo.top, p)))
        self.collect()
        self.decide()

    # what is ours
    def collect(self):
        self.defs = collections.defaultdict(list)
        self.fields, self.ctors = collections.defaultdict(list), collections.defaultdict(list)
        self.types = set()
        for f in self.files.values():
            for d in f.defs:
                if d.name in f.steps:
                    continue
                self.defs[d.name].append(d)
                if d.kind == "field":
                    self.fields[d.name].append(d)
                if d.kind == "ctor":
                    self.ctors[d.name].append(d)
                if d.is_type:
                    self.types.add(d.name)
            # labels of record types without a name, and of literals
            toks = f.antt.toks
            for i, t in enumerate(toks):
                if t.role == "label":
                    j = f.antt.next_solid(i)
                    if toks[j].text == ":":
                        self.fields[t.text].append(Def(t.text, "label", f.path, f.antt.text.count("\n", 0, t.at) + 1, False, 0))

    def is_type(self, name):
        ds = self.defs.get(name, ())
        return bool(ds) and all(d.is_type for d in ds)

    def is_function(self, name):
        """A name that clauses or statements can speak of: it stands in specs/, or is a constructor or a field, or was written in camel case."""
        ds = self.defs.get(name, ())
        return bool(ds) and (any(d.kind != "def" or "/specs/" in d.where for d in ds) or "-" not in name and re.search(r"[a-z][A-Z]", name) is not None)

    def is_lemma(self, name):
        ds = self.defs.get(name, ())
        return bool(ds) and not self.is_function(name) and all(d.kind == "def" and not d.is_type for d in ds)

    # which names of a text are renamed, each with its token
    def occurrences(self, f):
        for i, t, role, upath in f.words():
            w = t.text
            if role == "path":
                steps = [it.text for it in upath] if upath else None
                if steps and f.antt and t is upath[-1] and self.repo.origin(upath) == "own" and ".".join(steps) not in self.repo.modules and ".".join(steps[:-1]) in self.repo.modules and w in self.defs:
                    yield i, t, "item"
                continue
            if role == "item":
                if self.repo.origin(upath) == "own":
                    yield i, t, "item"
                continue
            if role == "label":
                if w in self.fields:
                    yield i, t, "field"
                continue
            if role == "field":
                chain = f.chain(i)
                head = chain[-1]
                if head is not None and len(chain) == 1 and head in f.made_heads | f.kit_heads:
                    continue
                if head is not None and head in f.own_heads and len(chain) == 1:
                    if w in self.defs:
                        yield i, t, "item"
                    continue
                if head is not None and len(chain) == 1 and head in self.types and w in self.ctors:
                    yield i, t, "item"
                    continue
                if w in self.fields and not self.of_rattle(f, i, chain):
                    yield i, t, "field"
                continue
            # a bare word
            if w in f.kit or w in f.steps or w in SYMBOLS:
                continue
            if re.match(r"(invariant|decreases)-", w) and f.path.count(os.sep) > 3 and f.path.split(os.sep)[2] == "proofs":
                continue
            if w in f.plain_heads and i + 1 < len(f.antt.toks) and f.antt.toks[i + 1].text == ".":
                continue
            yield i, t, "word"

    def of_rattle(self, f, i, chain):
        """Whether a name behind a dot is one that Rattle makes: the step of a call, which has `ensures` or `result` below it, or a parameter."""
        if chain and chain[0] in ("args", "initial", "auto", "ranges"):
            return True
        toks = f.antt.toks
        after = toks[i + 2].text if i + 2 < len(toks) and toks[i + 1].text == "." else ""
        return after in ("ensures", "requires", "result", "before", "args", "given", "auto", "loop")

    def decide(self):
        """The new name of each spelling, the same in all files."""
        everything = list(self.files.values()) + [x for r in self.rt.values() for x in r.parts]
        where = collections.defaultdict(lambda: collections.defaultdict(set))  # spelling -> role -> files
        bare = {}
        for f in everything:
            bare[id(f)] = set()
            declared = {(d.line, d.name) for d in f.defs if d.kind == "field"}
            is_declared = lambda t, f=f, declared=declared: bool(declared) and (f.antt.text.count("\n", 0, t.at) + 1, t.text) in declared and re.match(r"[ \t]*(pub )?[^\n]*?: ", f.antt.text[t.at + len(t.text) :]) is not None
            names = {d.name for d in f.defs if d.kind == "field"}
            for i, t, role, upath in f.words():
                if role in ("word", "item") and not (t.text in names and is_declared(t)):
                    bare[id(f)].add(t.text)
            for i, t, role in self.occurrences(f):
                if role == "word" and t.text in names and is_declared(t):
                    role = "field"
                where[t.text][role].add(id(f))
        byid = {id(f): f for f in everything}
        self.new, self.why = {}, {}
        fixed = {}
        for w in where:
            if w in EXCEPTIONS and w in self.defs:
                fixed[w] = EXCEPTIONS[w]
        wanted = {}
        for w in where:
            if w not in self.defs and not ("-" in w or re.match(r"[a-z].*[A-Z]", w)):
                # a bound name with a capital is a type's or a fact's, or a constant of the source, and stays, but for a dash
                continue
            new = fixed.get(w) or spelled(w, self.is_type(w))
            if w[:1].isupper() and "-" not in w and new[:1].islower() and w not in fixed:
                # a definition with a capital whose type does not read as `.. → Type`: it may be a type under another name
                print(f"look: {self.defs[w][0].where}:{self.defs[w][0].line}: {w} has a capital and is no type by its signature; if it is none, put it in EXCEPTIONS")
                continue
            if new != w:
                wanted[w] = new
        # a name may not fall on another word of a file in which it stands
        taken_by = collections.defaultdict(set)
        self.clashes = []
        # a parameter of a Rattle function hides a word of its name from the function's clauses
        for r in self.rt.values():
            for x in r.parts:
                bare[id(x)] |= r.parameters
        # A function has its name before a lemma that is spelled alike: the lemma gets _lem. So does a lemma that is in snake case already.
        for w in list(wanted):
            if self.is_function(w) and wanted[w] not in wanted and self.is_lemma(wanted[w]) and where[w].keys() - {"field"}:
                n = wanted[w]
                files = lambda w: set().union(*(where[w][r] for r in ("word", "item")))
                if files(w) & files(n):
                    wanted[n] = n + "_lem"
        rank = lambda w: 3 if w not in self.defs else 0 if w in EXCEPTIONS else 1 if self.is_function(w) else 2
        for w in sorted(wanted, key=lambda w: (rank(w), w)):
            files = set().union(*(where[w][r] for r in ("word", "item")))
            for form, new in self.forms(w, wanted[w]):
                clash = None
                if new in RESERVED:
                    clash = "a reserved word"
                else:
                    for fid in files:
                        f = byid[fid]
                        if new in bare[fid] and new != w:
                            # another word that stays, or that this one would meet
                            if wanted.get(new, new) == new:
                                clash = f"{f.path} has {new}"
                                break
                        for other, n2 in ((o, self.new[o]) for o in taken_by[new]):
                            if other in bare[fid] and other != w:
                                clash = f"{f.path} has {other}, which is {new} too"
                                break
                        if clash:
                            break
                if not clash and w in self.fields:
                    clash = self.field_clash(w, new)
                if not clash:
                    break
                self.clashes.append((w, new, clash))
            else:
                print(f"respell: no form of {w} is free: {clash}", file=sys.stderr)
                continue
            self.new[w] = new
            self.why[w] = form
            taken_by[new].add(w)
        self.where = where
        self.byid = byid

    def captures(self):
        """Where a record's field, under its new name, would be what a later field's type means by another name."""
        for f in self.files.values():
            records = [d for d in f.defs if d.kind == "record"]
            fields = [d for d in f.defs if d.kind == "field"]
            if not fields:
                continue
            starts = [0]
            for k, ch in enumerate(f.antt.text):
                if ch == "\n":
                    starts.append(k + 1)
            occ = {id(t): self.new[t.text] for i, t, role in self.occurrences(f) if t.text in self.new}
            for r in records:
                own = []
                for d in fields:
                    if d.line > r.line and d.indent > r.indent and not any(x.kind == "record" and r.line < x.line <= d.line for x in records) and not any(x.kind in ("def", "data") and r.line < x.line < d.line and x.indent <= r.indent for x in f.defs):
                        own.append(d)
                if not own:
                    continue
                last = own[-1].line
                end = starts[last] if last < len(starts) else len(f.antt.text)
                names = {d.name: self.new.get(d.name, d.name) for d in own}
                if len(set(names.values())) < len(names):
                    yield f"{f.path}:{r.line}: two fields of {r.name} have one name"
                by_new = {n: w for w, n in names.items()}
                for t in f.antt.toks:
                    if starts[r.line - 1] <= t.at < end and t.role == "word" and t.text not in names:
                        n = occ.get(id(t), t.text)
                        if n in by_new:
                            yield f"{f.path}:{f.antt.text.count(chr(10), 0, t.at) + 1}: {t.text} would read as the field {n} (was {by_new[n]}) of {r.name}"

    def own(self):
        """The new names of what the repository defines."""
        return {w: n for w, n in self.new.items() if w in self.defs}

    def forms(self, w, new):
        """The forms that a new name may take, the first that is free counts."""
        yield "", new
        ds = self.defs.get(w, [])
        if w in EXCEPTIONS:
            return
        if ds and all(d.kind == "def" and not d.is_type for d in ds):
            if "-" in w:
                yield "lemma", new + "_lem"
            yield "function", new + "_of"
            yield "module", new + "_" + in_snake(os.path.basename(ds[0].where)[:-5])
        yield "numbered", new + "_2"

    def field_clash(self, w, new):
        for d in self.fields[w]:
            if d.kind != "field":
                continue
            f = self.files.get(d.where)
            for e in f.defs:
                if e.kind == "field" and e.name == new:
                    # in the same record?
                    between = [x for x in f.defs if x.kind in ("record", "data", "def") and min(d.line, e.line) < x.line < max(d.line, e.line) and x.indent < d.indent]
                    if not between:
                        return f"{d.where}:{e.line} has the field {new}"
        return None


# ---- Rattle's sources


def closing(text, at):
    depth = 0
    for t in TOKEN.finditer(text, at):
        if t.lastgroup == "mark" and t[0] in "{}":
            depth += 1 if t[0] == "{" else -1
            if depth < 0:
                return t.start()
    return None


def split_rt(text):
    """The parts of a .rt text: ('rust' | 'comment' | 'quoted' | 'clause' | 'use', text)."""
    parts, at, typed = [], 0, False
    while at < len(text):
        m = RUST.match(text, at)
        word, end = m[0], m.end()
        clause = CLAUSE.match(text, at) if word in ("requires", "ensures", "ghost") else None
        use = GHOST_USE.match(text, at) if word == "ghost" else None
        if use:
            end = use.end()
            parts.append(("use", use[0]))
        elif clause and closing(text, clause.end()):
            end = closing(text, clause.end())
            parts += [("rust", clause[0]), ("clause", text[clause.end() : end])]
        else:
            kind = "comment" if word[:2] in ("//", "/*") else "quoted" if word[-1:] == '"' else "rust"
            parts.append((kind, word))
        at = end
    return parts


class RtFile:
    def __init__(self, repo, path, text):
        self.path, self.text = path, text
        self.split = split_rt(text)
        uses = "\n".join(re.sub(r"^ghost\s+", "", t).rstrip(";") for kind, t in self.split if kind == "use")
        head = FileNames(repo, path, uses)
        self.parts = []  # the FileNames of each use item and clause, in order
        for kind, t in self.split:
            if kind in ("use", "clause"):
                part = FileNames(repo, path, t, Text(t[6:] if kind == "use" and False else t))
                part.kit, part.kit_heads, part.made_heads, part.own_heads = head.kit, head.kit_heads, head.made_heads, head.own_heads
                part.imported, part.steps, part.defs, part.plain_heads = head.imported, set(), [], head.plain_heads
                self.parts.append(part)
        rust = "".join(t for kind, t in self.split if kind == "rust")
        heads = re.findall(r"\bfn\s+\w+\s*(?:<[^()]*>)?\(([^)]*(?:\([^)]*\)[^)]*)*)\)", rust)
        self.parameters = {it for head in heads for it in re.findall(r"(\w+)\s*:(?!:)", head)}


# ---- writing


def realigned(old, new):
    """The new text, in which the later lines of a block that begins behind a longer name stand under its first item again."""

    def blank(t):
        return re.sub(r'"(?:[^"\\\n]|\\.)*"|(?<![^\s(){}.;,@"«»])--[^\n]*|\{-.*?-\}', lambda m: re.sub(r"[^\n]", " ", m[0]), t, flags=re.S).split("\n")

    was, now, lines = blank(old), blank(new), new.split("\n")
    by = [0] * len(lines)
    for row, (a, b) in enumerate(zip(was, now)):
        for x, y in zip(BLOCK.finditer(a), BLOCK.finditer(b)) if a != b else ():
            below = row + 1
            while x.end() != y.end() and below < len(was):
                if was[below].strip() and was[below][: x.end()].strip():
                    break
                by[below] += (y.end() - x.end()) * bool(was[below].strip())
                below += 1
    return "\n".join(" " * n + line if n >= 0 else line[-n:] for n, line in zip(by, lines))


def in_comment(text, new, code):
    """A comment: its code spans, and a bare name with a dash or an inner capital that the file's code has. A name with a capital at its head
    (Leaf, Prefix) is a word of the documents there and stays."""

    def one(w, bare):
        core = w.strip("'’:!?*…/")
        if core in new and not core[:1].isupper() and (not bare or core in code and ("-" in core or re.search(r"[a-z][A-Z]", core))):
            return w.replace(core, new[core])
        return w

    def turn(t, bare):
        return re.sub(r"[^\s(){}.;,@\"«»`\[\]|]+", lambda m: one(m[0], bare), t)

    out, at = [], 0
    for m in SPAN.finditer(text):
        out += [turn(text[at : m.start()], True), turn(m[0], False)]
        at = m.end()
    return "".join(out + [turn(text[at:], True)])


def turned(f, m):
    """The text of f with its names renamed."""
    new, own = m.new, m.own()
    hits = {i: new[t.text] for i, t, role in m.occurrences(f) if t.text in new}
    code = {f.antt.toks[i].text for i in hits}
    out = []
    for i, t in enumerate(f.antt.toks):
        out.append(hits.get(i) or (in_comment(t.text, own, code) if t.kind == "comment" else t.text))
    text = "".join(out)
    # an item `a as b` that now reads `b as b`
    text = re.sub(r"(?<![^\s{,])(" + NAME + r") as \1(?![^\s},])", r"\1", text)
    return realigned(f.antt.text, text)


def turned_rt(r, m):
    parts = iter(r.parts)
    code, out = set(), []
    for p in r.parts:
        code |= {t.text for i, t, role in m.occurrences(p) if t.text in m.new}
    for kind, t in r.split:
        if kind in ("use", "clause"):
            out.append(turned(next(parts), m))
        elif kind == "comment":
            out.append(in_comment(t, m.own(), code))
        else:
            out.append(t)
    return "".join(out)


# ---- the table, and what goes by it alone


def rows_of(m):
    """The rows of the table: old, new, kind, the form if it isn't the plain one, where it is defined."""
    out = []
    for w, n in sorted(m.new.items()):
        ds = m.defs.get(w, [])
        kinds = sorted({("lemma or definition" if d.kind == "def" else {"ctor": "constructor"}.get(d.kind, d.kind)) for d in ds}) or ["bound name"]
        places = [f"{d.where}:{d.line}" for d in ds] or sorted({m.byid[x].path for x in set().union(*m.where[w].values())})
        out.append((w, n, ", ".join(kinds), "exception" if w in EXCEPTIONS else {"lemma": "_lem", "": ""}.get(m.why.get(w, ""), m.why.get(w, "")) or ("_lem" if n == in_snake(w) + "_lem" else ""), " ".join(places)))
    return out


def landed_names(landed, repo, m):
    """What a definition of the tree before port.py is called now: the definitions of a file stand in the same order in both. Gives the rows of
    those names that port.py itself turned, with what this script makes of them, and the files whose definitions don't pair off."""
    rows, odd = collections.defaultdict(set), []
    for p, f in m.files.items():
        q = os.path.join(landed, p)
        if not os.path.isfile(q):
            odd.append(f"{p}: not in the older tree")
            continue
        a = [(d.name, d.kind) for d in definitions(read(q), p, set())]
        b = [(d.name, d.kind) for d in f.defs]
        if [k for n, k in a] != [k for n, k in b]:
            odd.append(f"{p}: {len(a)} definitions were, {len(b)} are")
            continue
        for (x, kind), (y, _) in zip(a, b):
            if y not in f.steps and m.new.get(y, y) != x:
                rows[x].add((y, m.new.get(y, y), p))
    return rows, odd


def read_table(path=TABLE, landed=True):
    table = {}
    for line in read(path).splitlines():
        if line and not line.startswith("#"):
            old, new, kind = line.split("\t")[:3]
            table[old] = (new, kind)
    # and the names of the tree before port.py, which pages and edits still have
    beside = os.path.join(os.path.dirname(path), "respell_landed.tsv")
    if landed and os.path.isfile(beside):
        rows = [line.split("\t") for line in read(beside).splitlines() if line and not line.startswith("#")]
        many = collections.Counter(r[0] for r in rows)
        for r in rows:
            if many[r[0]] == 1 and r[0] not in table and r[0] != r[2]:
                table[r[0]] = (r[2], "before port.py")
    return table


def write_table(m, path):
    """Writes the table; rows of an earlier run stay."""
    rows = {r[0]: r for r in rows_of(m)}
    if os.path.isfile(path):
        for line in read(path).splitlines():
            if line and not line.startswith("#"):
                rows.setdefault(line.split("\t")[0], tuple(line.split("\t")))
    head = "# What respell.py renamed: old, new, kind, the form where it isn't the plain one, where the old name was defined.\n"
    write(path, head + "".join("\t".join(rows[w]) + "\n" for w in sorted(rows)))


def table_map(table=None):
    """Old to new, of what the repository defines. Bound names are left out, since a text elsewhere may have them for something else, and an old
    name that is another's new one (is_body, which isBody is called now), so that a second run changes nothing."""
    table = table or read_table()
    news = {new for new, kind in table.values()}
    return {old: new for old, (new, kind) in table.items() if kind != "bound name" and old not in news}


def respell_text(text, kind, table=None, keep=()):
    """A text renamed by the table alone. kind: 'antt'; 'rt' (clauses and `ghost use` items); 'edit' (its old: and new: lines, by their file:);
    'md' (code spans and fenced blocks). keep: names that stay, as those of the kit that are spelled like one of ours."""
    new = {w: n for w, n in table_map(table).items() if w not in keep}
    if kind == "antt":
        out = []
        for t in Text(text).toks:
            # a name with a capital behind a dot is a module or a type
            mine = t.kind == "name" and t.role != "path" and not (t.role == "field" and t.text[:1].isupper())
            out.append(new.get(t.text, t.text) if mine else in_comment(t.text, new, set()) if t.kind == "comment" else t.text)
        return realigned(text, "".join(out))
    if kind == "rt":
        return "".join(respell_text(t, "antt", table, keep) if k in ("clause", "use") else in_comment(t, new, set()) if k == "comment" else t for k, t in split_rt(text))
    if kind == "edit":
        out, rt = [], False
        for line in text.splitlines(keepends=True):
            if line.startswith("file:"):
                rt = line.strip().endswith(".rt")
            m = re.match(r"(old|new):( ?)", line)
            if m:
                body = line[m.end() :]
                line = m[0] + (respell_edit_rt(body, new) if rt else respell_text(body, "antt", table, keep))
            out.append(line)
        return "".join(out)
    if kind == "md":
        turn = lambda t: re.sub(r"[^\s(){}.;,@\"«»`\[\]|]+", lambda m: new.get(m[0], m[0]) if not m[0][:1].isupper() else m[0], t)
        out, at = [], 0
        for m in FENCE.finditer(text):
            shell = m[3].strip() in ("sh", "bash", "shell", "console", "json", "toml", "c", "python", "go", "js")
            out += [SPAN.sub(lambda s: turn(s[0]), text[at : m.start()]), m[0] if shell else turn(m[0])]
            at = m.end()
        return "".join(out + [SPAN.sub(lambda s: turn(s[0]), text[at:])])
    raise ValueError(kind)


def respell_edit_rt(body, new):
    """One line of a .rt file in an edit: a clause's text, a part of one, or plain Rust, where none of our names stands but as a clause has it."""
    if re.search(r"requires|ensures|ghost", body):
        cut = re.search(r"(requires|ensures|ghost)[^{]*\{?", body)
        head, tail = body[: cut.end()], body[cut.end() :]
    elif re.search(r"[≡∷λ→×↔≤≢⊎∀◌]", body):
        head, tail = "", body
    else:
        return body
    return head + "".join(new.get(t.text, t.text) if t.kind == "name" else t.text for t in tokens(tail))


# ---- comparing


def verify(old_top, new_top, table_path):
    """Whether the two trees differ only by the table: each token of a text against its fellow."""
    table = read_table(table_path, False)
    full = {old: new for old, (new, kind) in table.items()}
    bad, count, files, spaces = [], collections.Counter(), 0, 0
    old_repo, new_repo = Repo(old_top), Repo(new_top)
    for kind in ("antt", "rt"):
        a, b = set(getattr(old_repo, kind)), set(getattr(new_repo, kind))
        for p in sorted(a ^ b):
            bad.append(f"{p}: only in one tree")
        for p in sorted(a & b):
            x, y = read(os.path.join(old_top, p)), read(os.path.join(new_top, p))
            if x == y:
                continue
            files += 1
            if kind == "antt" and re.findall(r"(?m)^\s*(?:pub )?mod \S+", x) != re.findall(r"(?m)^\s*(?:pub )?mod \S+", y):
                bad.append(f"{p}: a `mod` line changed")
            if kind == "antt":
                pairs = [(x, y, True)]
            else:
                xs, ys = split_rt(x), split_rt(y)
                if [k for k, t in xs if not t.isspace()] != [k for k, t in ys if not t.isspace()]:
                    bad.append(f"{p}: the parts of the source differ")
                    continue
                pairs = [(s[1], t[1], s[0] in ("clause", "use")) for s, t in zip([s for s in xs if not s[1].isspace()], [t for t in ys if not t[1].isspace()])]
            for s, t, antt in pairs:
                if s == t:
                    continue
                if not antt:
                    if s[:2] in ("//", "/*"):
                        count["comments"] += 1
                        if [full.get(w, w) for w in re.findall(NAME, s.replace("`", " "))] != re.findall(NAME, t.replace("`", " ")):
                            bad.append(f"{p}: comment {s!r} / {t!r}")
                        continue
                    bad.append(f"{p}: source text changed: {s!r} / {t!r}")
                    continue
                ss = [q for q in tokens(s) if q.kind != "space"]
                tt = [q for q in tokens(t) if q.kind != "space"]
                ss = without_as(ss, full)
                tt = without_as(tt, {})
                if len(ss) != len(tt):
                    bad.append(f"{p}: {len(ss)} tokens were, {len(tt)} are")
                    continue
                for u, v in zip(ss, tt):
                    if u.text == v.text:
                        continue
                    if u.kind == "name" and full.get(u.text) == v.text:
                        count["names"] += 1
                    elif u.kind == "comment":
                        count["comments"] += 1
                        if in_words(u.text, full) != in_words(v.text, {}):
                            bad.append(f"{p}: comment {u.text!r} / {v.text!r}")
                    else:
                        bad.append(f"{p}: {u.text!r} became {v.text!r}")
    # one new name from one old one, in each text
    for p in sorted(set(old_repo.antt) & set(new_repo.antt)):
        ss = [q.text for q in solid(tokens(read(os.path.join(old_top, p)))) if q.kind == "name"]
        tt = [q.text for q in solid(tokens(read(os.path.join(new_top, p)))) if q.kind == "name"]
        if len(ss) != len(tt):
            continue
        back = collections.defaultdict(set)
        for u, v in zip(ss, tt):
            back[v].add(u)
        for v, us in back.items():
            if len(us) > 1:
                count["two old names behind one new name"] += 1
                count[f"  {p}: {v}: {' '.join(sorted(us))}"] += 0
    return bad, count, files


def in_words(t, full):
    words = re.findall(r"[^\s(){}.;,@\"«»`\[\]|]+", t)
    out = []
    for w in words:
        core = w.strip("'’:!?*…/")
        out.append(w.replace(core, full.get(core, core)) if core else w)
    return out


def without_as(ts, full):
    """Drops `as b` behind `a` where both have one new name."""
    out, i = [], 0
    while i < len(ts):
        if i + 2 < len(ts) and ts[i + 1].text == "as" and full.get(ts[i].text, ts[i].text) == full.get(ts[i + 2].text, ts[i + 2].text):
            out.append(ts[i])
            i += 3
            continue
        out.append(ts[i])
        i += 1
    return out


def mentions(top, table):
    new = table_map(table)
    roots = [p for p in ("README.md", "CONTRIBUTING.md", "CHANGELOG.md", "docs", "tests", "tools", "bench") if os.path.exists(os.path.join(top, p))]
    for root in roots:
        start = os.path.join(top, root)
        walk = [(os.path.dirname(start), [], [os.path.basename(start)])] if os.path.isfile(start) else os.walk(start)
        for folder, dirs, files in walk:
            for f in sorted(files):
                p = os.path.join(folder, f)
                if f.startswith(("respell", "test_respell")) or os.path.islink(p):
                    continue
                try:
                    text = read(p)
                except (UnicodeDecodeError, OSError):
                    continue
                for n, line in enumerate(text.split("\n"), 1):
                    for w in re.findall(r"[^\s(){}.;,@\"«»`\[\]|'=:/]+", line):
                        if w in new and not w[:1].isupper() and ("-" in w or re.search(r"[a-z][A-Z]", w)):
                            in_code = any(w in s[0] for s in SPAN.finditer(line))
                            yield os.path.relpath(p, top), n, w, new[w], "code" if in_code else "plain"


def option(args, name, values=1):
    if name not in args:
        return None
    at = args.index(name)
    out = args[at + 1 : at + 1 + values]
    del args[at : at + 1 + values]
    return out[0] if values == 1 else out


def main(args):
    if "-h" in args or "--help" in args:
        print(__doc__)
        return 0
    top = os.getcwd()
    if args[:1] == ["--text"]:
        for p in args[2:]:
            t = read(p)
            n = respell_text(t, args[1])
            if n != t:
                write(p, n)
                print(p)
        return 0
    if "--edits" in args:
        # what the kit calls alike in the text that an edit is of
        repo, said, table = Repo(top), 0, read_table()
        for c in repo.crates:
            folder = os.path.join(top, "crates", c, "must-fail")
            for e in sorted(os.listdir(folder)) if os.path.isdir(folder) else ():
                if not e.endswith(".edit"):
                    continue
                t = read(os.path.join(folder, e))
                keep = set()
                for of in re.findall(r"(?m)^file:\s*(\S+)", t):
                    rel = os.path.join("crates", c, of)
                    if os.path.isfile(os.path.join(top, rel)):
                        body = read(os.path.join(top, rel))
                        keep |= FileNames(repo, rel, body).kit if of.endswith(".antt") else set().union(*(x.kit for x in RtFile(repo, rel, body).parts), set())
                n = respell_text(t, "edit", table, keep)
                if n != t:
                    said += 1
                    write(os.path.join(folder, e), n)
        print(f"respell: {said} edits changed")
        return 0
    if args[:1] == ["--docs"]:
        for p in args[1:]:
            t = read(p)
            n = respell_text(t, "md")
            if n != t:
                write(p, n)
                print(p)
        return 0
    map_to = option(args, "--map")
    old = option(args, "--verify")
    landed, landed_to = option(args, "--landed", 2) or (None, None)
    if not os.path.isdir(os.path.join(top, "crates")):
        print("respell: run it at the top of the repository", file=sys.stderr)
        return 2
    table_path = map_to or TABLE
    if old:
        bad, count, files = verify(old, top, table_path)
        for b in bad[:200]:
            print(b)
        for k, v in count.items():
            print(f"{k}: {v}" if not k.startswith("  ") else k)
        print(f"respell: {files} files differ, {len(bad)} differences that the table doesn't explain")
        return 1 if bad else 0
    if "--mentions" in args:
        for p, n, w, new, how in mentions(top, read_table(table_path)):
            print(f"{p}:{n}: {w} -> {new} ({how})")
        return 0
    check = "--check" in args
    repo = Repo(top)
    m = Map(repo)
    for w, new, why in m.clashes:
        print(f"respell: {w}: not {new}, since {why}: {m.new.get(w, 'it stays')}")
    for line in m.captures():
        print(f"respell: {line}")
    changed = 0
    for p, f in [*m.files.items(), *m.rt.items()]:
        t = f.antt.text if isinstance(f, FileNames) else f.text
        n = turned(f, m) if isinstance(f, FileNames) else turned_rt(f, m)
        if n != t:
            changed += 1
            if not check:
                write(os.path.join(top, p), n)
    if landed:
        rows, odd = landed_names(landed, repo, m)
        out = ["# What a name of the tree before port.py is called now: before port.py, after it, after respell.py, the files that define it.\n"]
        for x in sorted(rows):
            by = collections.defaultdict(set)
            for y, z, p in rows[x]:
                by[y, z].add(p)
            out += [f"{x}\t{y}\t{z}\t{' '.join(sorted(ps))}\n" for (y, z), ps in sorted(by.items())]
            if len({z for y, z in by}) > 1:
                odd.append(f"{x} has two names now: {', '.join(sorted({z for y, z in by}))}")
        write(landed_to, "".join(out))
        for o in odd:
            print("respell: landed: " + o)
        print(f"respell: {len(rows)} names of the older tree, to {landed_to}")
    if m.new and (map_to or not check):
        os.makedirs(os.path.dirname(table_path) or ".", exist_ok=True)
        write_table(m, table_path)
    if changed and not check and "--no-fmt" not in args:
        for c in repo.crates:
            subprocess.run(["rt", "fmt"], cwd=os.path.join(top, "crates", c), stdout=subprocess.DEVNULL, stderr=subprocess.DEVNULL)
    own = m.own()
    print(f"respell: {len(own)} names of the repository and {len(m.new) - len(own)} bound names; {changed} files {'would change' if check else 'changed'}; table: {table_path if m.new else 'not touched, nothing to rename'}")
    return 1 if check and changed else 0


if __name__ == "__main__":
    sys.exit(main(sys.argv[1:]))
