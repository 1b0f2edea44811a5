#!/usr/bin/env python3
"""Draws programs with generic contracts, right, near right and broken ones: the texts of `random_generics.txt`, without answers.

  python3 tests/generate/generics.py COUNT [FIRST_SEED]

It writes a sheet with the programs of COUNT seeds from 20000 on, or from FIRST_SEED. `tests/run --answer` writes what `check` says of each.

A program is put together of plain contracts, of generic contracts and interfaces by templates, each with names, permissions and parts drawn at
random, and of a main contract that makes and uses instances. Then, of three programs in five, some tokens are changed: a name for another one,
a permission for another one, an argument more, less or deeper, another parameter, a contract twice, and the like. Most changes that break the
grammar are drawn anew, so the program is asked what follows it: the one that the gate has left.
"""
import os
import random
import re
import subprocess
import sys
import tempfile

TOP = os.path.dirname(os.path.dirname(os.path.dirname(os.path.abspath(__file__))))
PROGRAM = os.path.join(TOP, "crates", "obsidian", "out", "obsidian")
# The seed of the first program of the sheet.
FIRST = 20_000
TOKENS = re.compile(r'"[^"\n]*"|\w+|::|->|>>|==|!=|<=|>=|&&|\|\||\S')
MODES = ["Owned", "Shared", "Unowned"]


class Plain:
    """A contract that isn't generic, which may be an argument."""

    def __init__(self, name, asset, states, interface=False, shared=False):
        self.name, self.asset, self.states, self.interface, self.shared = name, asset, states, interface, shared

    def made(self):
        """The permission that `new` gives."""
        return "Shared" if self.shared else self.states[0] if self.states else "Owned"


class Programs:
    """Draws programs."""

    def __init__(self, seed):
        self.r = random.Random(seed)

    def one_of(self, xs):
        return self.r.choice(xs)

    def chance(self, p):
        return self.r.random() < p

    # ---- plain contracts

    def plain(self, name):
        r = self.r
        asset, interface = self.chance(0.4), self.chance(0.1)
        states = r.sample(["S", "R", "Q", "On"], r.choice([0, 0, 1, 2, 3]))
        shared = not interface and self.chance(0.2)
        c = Plain(name, asset, states, interface, shared)
        lines = [f"  state {s};" for s in states]
        if interface:
            lines.append(f"  transaction ask({name}@Unowned this) returns int;")
        else:
            made = c.made()
            if states or shared or self.chance(0.3):
                lines.append(f"  int n;\n  {name}@{made}() {{ n = {r.randrange(9)}; {'->' + states[0] + ';' if states else ''} }}")
                lines.append("  transaction ask() returns int { return n; }")
                if states and not shared:
                    to = r.choice(states)
                    lines.append(f"  transaction go({name}@Owned >> {to} this) {{ ->{to}; n = n + 1; }}")
                if shared:
                    lines.append(f"  transaction turn({name}@Shared this) returns int {{ n = n * 2; return n; }}")
            else:
                lines.append("  transaction ask() returns int { return 7; }")
        head = ("asset " if asset else "") + ("interface " if interface else "contract ") + name
        return c, head + " {\n" + "\n".join(lines) + "\n}\n"

    # ---- generic contracts

    def head(self, asset, bound):
        """The parameter: its names, and its text."""
        t = self.one_of(["T", "T", "T", "U", "X", "A", "S"])
        s = self.one_of(["s", "s", "s", "p", "R", t, "On"])
        if s == t and self.chance(0.7):
            s = "s"
        where = f" where {s} is {bound}" if bound else ""
        self.takes = (asset, bound)
        return t, s, f"[{'asset ' if asset else ''}{t}@{s}{where}]"

    def bound(self, *right):
        return self.one_of(right * 6 + (None,) * 3 + ("Owned", "Shared", "Unowned"))

    def box(self, name, others):
        t, s, head = self.head(self.chance(0.85), self.bound("Owned"))
        given = self.one_of([s, s, s, "Owned"])
        text = f"""{'asset ' if self.chance(0.8) else ''}contract {name}{head} {{
  state Full {{ {t}@{s} item; }}
  state Void;
  {name}@Void() {{ ->Void; }}
  transaction put({name}@Void >> Full this, {t}@{given} >> Unowned x) {{ ->Full(item = x); }}
  transaction take({name}@Full >> Void this) returns {t}@{s} {{ {t} r = item; ->Void; return r; }}
}}
"""
        return "box", "Owned", text

    def cell(self, name, others):
        t, s, head = self.head(self.chance(0.85), self.bound("Owned"))
        text = f"""{'asset ' if self.chance(0.8) else ''}contract {name}{head} {{
  state Some {{ {t}@{s} first; {name}[{t}@{s}]@Owned rest; }}
  state End;
  {name}@End() {{ ->End; }}
  transaction push({name}@Owned >> Some this, {t}@{s} >> Unowned x) {{
    if (this in End) {{ ->Some(first = x, rest = new {name}[{t}@{s}]()); }} else {{ {t} old = first; first = x; rest.push(old); }}
  }}
  transaction pop({name}@Some >> Owned this) returns {t}@{s} {{
    {t} x = first;
    if (rest in Some) {{ first = rest.pop(); }} else {{ disown rest; ->End; }}
    return x;
  }}
  transaction length({name}@Owned this) returns int {{ if (this in End) {{ return 0; }} return 1 + rest.length(); }}
}}
"""
        return "cell", "Owned", text

    def holder(self, name, others):
        t, s, head = self.head(self.chance(0.3), self.bound("Shared"))
        text = f"""contract {name}{head} {{
  {t}@{s} held;
  int times;
  {name}@Shared({t}@{s} x) {{ held = x; times = 0; }}
  transaction get({name}@Shared this) returns {t}@{s} {{ times = times + 1; return held; }}
  transaction count() returns int {{ return times; }}
}}
"""
        return "holder", "Shared", text

    def view(self, name, others):
        t, s, head = self.head(self.chance(0.5), self.bound("Unowned"))
        text = f"""contract {name}{head} {{
  {t}@Unowned seen;
  {name}@Owned({t}@Unowned x) {{ seen = x; }}
  transaction look() returns {t}@Unowned {{ return seen; }}
  transaction other({name}[{t}@{s}]@Unowned o) returns bool {{ return true; }}
}}
"""
        return "view", "Any", text

    def maker(self, name, others):
        t, s, head = self.head(self.chance(0.85), self.bound("Owned"))
        text = f"""contract {name}{head} {{
  int made;
  {name}@Owned() {{ made = 0; }}
  transaction make({name}@Owned this) returns {t}@{s} {{ made = made + 1; return new {t}(); }}
}}
"""
        return "maker", "Any", text

    def wrapper(self, name, others):
        """One that uses another generic contract."""
        boxes = [o for o in others if o[1] in ("box", "cell")]
        if not boxes:
            return self.box(name, others)
        inner, kind, _ = self.one_of(boxes)
        t, s, head = self.head(self.chance(0.85), self.bound("Owned"))
        put, take = ("put", "take") if kind == "box" else ("push", "pop")
        void, full = ("Void", "Full") if kind == "box" else ("End", "Some")
        arg = self.one_of([f"{t}@{s}", f"{t}@{s}", f"{t}@{s}", f"{t}@Owned", f"{inner}[{t}@{s}]@Owned"])
        text = f"""{'asset ' if self.chance(0.8) else ''}contract {name}{head} {{
  state Open {{ {inner}[{arg}]@{void} empty; }}
  state Shut {{ {inner}[{arg}]@{full} filled; }}
  {name}@Open() {{ ->Open(empty = new {inner}[{arg}]()); }}
  transaction shut({name}@Open >> Shut this, {arg} >> Unowned x) {{ {inner}[{arg}] b = empty; b.{put}(x); ->Shut(filled = b); }}
  transaction out({name}@Shut >> Open this) returns {arg} {{
    {inner}[{arg}] b = filled;
    {arg.rsplit('@', 1)[0]} x = b.{take}();
    ->Open(empty = {'b' if kind == 'box' else 'new ' + inner + '[' + arg + ']()'});
    {'' if kind == 'box' else 'disown b;'}
    return x;
  }}
}}
"""
        return "wrapper", "Owned", text

    def deal(self, name, others):
        t, s, head = self.head(self.chance(0.85), self.bound("Owned"))
        text = f"""{'asset ' if self.chance(0.8) else ''}contract {name}{head} {{
  state Held {{ {t}@{s} thing; }}
  state Done;
  {name}@Shared({t}@{s} >> Unowned x) {{ ->Held(thing = x); }}
  transaction take({name}@Shared this) returns {t}@{s} {{
    if (this in Held) {{ {t} x = thing; ->Done; return x; }}
    revert "it is done";
  }}
}}
"""
        return "deal", "Owned", text

    def interface(self, name, others):
        t, s, head = self.head(self.chance(0.85), self.bound("Owned", "Unowned"))
        impl = name + "Of"
        u, q, head2 = self.head(self.chance(0.85), self.bound("Owned", "Unowned"))
        asset = self.chance(0.3)
        text = f"""{'asset ' if asset else ''}interface {name}{head} {{
  transaction get({name}@Shared this) returns {t}@{s};
  transaction other({name}[{t}@{s}]@Unowned o);
}}
"""
        text += f"""{'asset ' if asset else ''}contract {impl}{head2} implements {name}[{u}@{q}] {{
  {impl}@Shared() {{ }}
  transaction get({impl}@Shared this) returns {u}@{q} {{ return new {u}(); }}
  transaction other({name}[{u}@{q}]@Unowned o) {{ }}
}}
"""
        others.append((impl, "impl", ("Any", *self.takes)))
        return "interface", "Any", text

    def till(self, name, others):
        t, s, head = self.head(self.chance(0.85), self.bound("Owned"))
        text = f"""{'asset ' if self.chance(0.8) else ''}contract {name}{head} {{
  {t}@{s} top;
  {name}@Owned({t}@{s} >> Unowned x) {{ top = x; }}
  private ({t}@{s} >> Unowned top) transaction out({name}@Owned this) returns {t}@{s} {{ {t} r = top; return r; }}
  transaction swap({name}@Owned this, {t}@{s} >> Unowned x) returns {t}@{s} {{ {t} r = out(); top = x; return r; }}
  transaction test({name}@Owned this) {{ [top @ {s}]; {f'if (top in S) {{ }}' if self.chance(0.2) else ''} }}
}}
"""
        return "till", "Owned", text

    # ---- types

    def argument(self, taken, plains, generics, depth=0):
        """An argument that such a parameter mostly takes: its text, its permission, and what makes it, if that is known."""
        wanted, asset, bound = taken
        if bound == "Shared":
            wanted = "Shared"
        if depth < 2 and generics and self.chance(0.15):
            g, kind, inner = self.one_of(generics)
            if kind in ("box", "cell", "wrapper"):
                of, _, _ = self.argument(inner, plains, generics, depth + 1)
                void = {"box": "Void", "cell": "End", "wrapper": "Open"}[kind]
                perm = self.one_of(["Owned", void]) if wanted != "Shared" else "Shared"
                return f"{g}[{of}]@{perm}", perm, f"new {g}[{of}]()"
        fitting = [c for c in plains if (asset or not c.asset) and (wanted == "Shared") == c.shared and not c.interface]
        c = self.one_of(fitting if fitting and self.chance(0.95) else plains)
        perms = ["Shared"] if c.shared or wanted == "Shared" else ["Owned", "Owned", *c.states]
        if c.states and perms != ["Shared"] and self.chance(0.2):
            perms = ["|".join(self.r.sample(c.states, self.r.randint(1, len(c.states))))]
        if wanted == "Any" and bound != "Owned":
            perms.append("Unowned")
        if self.chance(0.03):
            perms = MODES + ["S", "R"]
        perm = self.one_of(perms)
        return f"{c.name}@{perm}", perm, None if c.interface else f"new {c.name}()"

    # ---- the main contract

    def main(self, plains, generics):
        lines, tx = [], 0
        name = "Main"
        for c in plains:
            if not c.interface:
                lines.append(f"  transaction make{c.name}() returns {c.name}@{c.made()} {{ return new {c.name}(); }}")
        for _ in range(self.r.choice([1, 1, 2, 2, 3, 4])):
            if not generics:
                break
            g, kind, inner = self.one_of(generics)
            of, perm, made = self.argument(inner, plains, generics)
            type_, tx = f"{g}[{of}]", tx + 1
            if kind in ("box", "cell", "wrapper"):
                void = {"box": "Void", "cell": "End", "wrapper": "Open"}[kind]
                lines.append(f"  transaction open{tx}() returns {type_}@{self.one_of([void, void, 'Owned'])} {{ return new {type_}(); }}")
                if made and self.chance(0.4):
                    put = {"box": "put", "cell": "push", "wrapper": "shut"}[kind]
                    full = {"box": "Full", "cell": "Some", "wrapper": "Shut"}[kind]
                    lines.append(f"  transaction filled{tx}() returns {type_}@{full} {{ {type_} b = new {type_}(); b.{put}({made}); return b; }}")
            elif kind in ("holder", "deal", "till"):
                out = "Owned" if kind == "till" else "Shared"
                exit_ = " >> Unowned" if kind != "holder" else ""
                lines.append(f"  transaction hold{tx}({of}{exit_} x) returns {type_}@{out} {{ return new {type_}(x); }}")
            elif kind == "view":
                lines.append(f"  transaction view{tx}({of.rsplit('@', 1)[0]}@Unowned x) returns {type_}@Owned {{ return new {type_}(x); }}")
            elif kind in ("maker", "impl"):
                out = "Owned" if kind == "maker" else "Shared"
                lines.append(f"  transaction maker{tx}() returns {type_}@{out} {{ return new {type_}(); }}")
            else:
                lines.append(f"  transaction pass{tx}({type_}@Unowned x) {{ }}")
        made = self.one_of(["Owned", "Shared"])
        lines.insert(0, f"  {name}@{made}() {{ }}")
        return f"main contract {name} {{\n" + "\n".join(lines) + "\n}\n"

    def right(self):
        """A program that is mostly right."""
        plains, parts, generics = [], [], []
        for name in self.r.sample(["A", "B", "C", "Coin", "Card"], self.r.randint(1, 3)):
            c, text = self.plain(name)
            plains.append(c)
            parts.append(text)
        makes = [self.box, self.box, self.cell, self.holder, self.view, self.maker, self.wrapper, self.deal, self.interface, self.till]
        for name in self.r.sample(["Box", "P", "Q", "List", "Safe", "I"], self.r.randint(1, 3)):
            kind, wanted, text = self.one_of(makes)(name, generics)
            generics.append((name, kind, (wanted, *self.takes)))
            parts.append(text)
        parts.append(self.main(plains, generics))
        if self.chance(0.5):
            self.r.shuffle(parts)
        return "".join(parts)

    # ---- changes

    def names_near(self, tokens):
        """Names of the program, and some that aren't there."""
        names = [t for t in tokens if re.match(r"[A-Za-z_]\w*$", t)]
        reserved = set("contract asset main interface implements state transaction private returns available in if else while return "
                       "revert disown new this true false int bool string where is".split()) | set(MODES)
        return sorted(set(names) - reserved) + ["Nobody", "nowhere"]

    def change(self, tokens):
        """One change of the tokens."""
        r = self.r
        names = self.names_near(tokens)
        brackets = [i for i, t in enumerate(tokens) if t == "[" and i and re.match(r"\w+$", tokens[i - 1]) and tokens[i - 1] not in (";", "}", "{")]
        ats = [i for i, t in enumerate(tokens) if t == "@"]
        kind = r.choice(["name", "name", "perm", "perm", "perm", "drop", "add", "deepen", "asset", "bound", "again", "main", "own", "token", "copy",
                         "swap", "implements", "states"])
        words = [i for i, t in enumerate(tokens) if t in names]
        if kind == "name" and words:
            tokens[r.choice(words)] = r.choice(names)
        elif kind == "perm" and ats:
            i = r.choice(ats) + 1
            tokens[i] = r.choice(MODES + [r.choice(names), "S", "R", "s"])
        elif kind == "states" and ats:
            i = r.choice(ats) + 2
            tokens[i:i] = ["|", r.choice(["S", "R", "s", "Full", r.choice(names)])]
        elif kind == "drop" and brackets:
            i = r.choice(brackets)
            end = closing(tokens, i)
            del tokens[i:end + 1]
        elif kind == "add" and words:
            i = r.choice(words)
            tokens[i + 1:i + 1] = ["[", r.choice(names), "@", r.choice(MODES + ["S", "s"]), "]"]
        elif kind == "deepen" and brackets:
            i = r.choice(brackets)
            end = closing(tokens, i)
            inner = tokens[i + 1:end]
            tokens[i + 1:end] = [r.choice([tokens[i - 1], r.choice(names)]), "[", *inner, "]", "@", r.choice(MODES + ["Void", "End"])]
        elif kind == "asset":
            i = r.choice([j for j, t in enumerate(tokens) if t in ("asset", "contract", "interface", "[")])
            if tokens[i] == "asset":
                del tokens[i]
            else:
                tokens.insert(i + (tokens[i] == "["), "asset")
        elif kind == "bound" and "where" in tokens:
            i = r.choice([j for j, t in enumerate(tokens) if t == "where"])
            r.choice([lambda: tokens.__setitem__(i + 3, r.choice(MODES)), lambda: tokens.__setitem__(i + 1, r.choice(names)),
                      lambda: tokens.__delitem__(slice(i, i + 4))])()
        elif kind == "again":
            i = r.choice([j for j, t in enumerate(tokens) if t in ("contract", "interface")])
            tokens[i + 1] = r.choice([tokens[j + 1] for j, t in enumerate(tokens) if t in ("contract", "interface")])
        elif kind == "main":
            i = r.choice([j for j, t in enumerate(tokens) if t in ("contract", "interface") and (j == 0 or tokens[j - 1] != "asset")])
            tokens.insert(i, "main")
        elif kind == "own" and "this" in tokens:
            i = r.choice([j for j, t in enumerate(tokens) if t == "this"])
            j = max(k for k in range(i) if tokens[k] in "(@")
            if j > 0 and tokens[j] == "@":
                tokens[j:j] = ["[", r.choice(names), "@", r.choice(MODES + ["s"]), "]"]
        elif kind == "implements":
            i = r.choice([j for j, t in enumerate(tokens) if t == "{" and j > 1 and (tokens[j - 2] == "contract" or tokens[j - 1] == "]")] or [0])
            if i:
                tokens[i:i] = ["implements", r.choice(names)] + r.choice([[], ["[", r.choice(names), "@", r.choice(MODES), "]"]])
        elif kind == "copy":
            i, j = sorted((r.randrange(len(tokens)), r.randrange(len(tokens))))
            j = min(j, i + 12)
            k = r.randrange(len(tokens))
            tokens[k:k] = tokens[i:j]
        elif kind == "swap" and len(words) > 1:
            i, j = r.sample(words, 2)
            tokens[i], tokens[j] = tokens[j], tokens[i]
        elif kind == "token":
            i = r.randrange(len(tokens))
            r.choice([lambda: tokens.__delitem__(i), lambda: tokens.insert(i, r.choice(tokens))])()

    def program(self):
        text = self.right()
        if self.chance(0.4):
            return text
        for _ in range(8):
            tokens = TOKENS.findall(text)
            for _ in range(self.r.choice([1, 1, 1, 2, 2, 3, 4])):
                try:
                    self.change(tokens)
                except (IndexError, ValueError):
                    continue
            changed = laid_out(tokens, self.r)
            # Most programs are to reach the stages behind the grammar.
            if follows_grammar(changed) or self.chance(0.05):
                return changed
        return text


def follows_grammar(text):
    """Whether `check` tells no fault of words and signs, or of the grammar."""
    with tempfile.NamedTemporaryFile(mode="w", suffix=".obs") as file:
        file.write(text)
        file.flush()
        said = subprocess.run([PROGRAM, "check", file.name], stdout=subprocess.PIPE, stderr=subprocess.DEVNULL, text=True, check=False).stdout
    return not re.match(r"\d+:\d+: [12]\d\d ", said)


def closing(tokens, i):
    depth = 0
    for j in range(i, len(tokens)):
        depth += (tokens[j] == "[") - (tokens[j] == "]")
        if depth == 0:
            return j
    raise ValueError


def laid_out(tokens, r):
    """The tokens with blanks between them, and lines."""
    out, column = [], 0
    for t in tokens:
        out.append(t)
        column += len(t) + 1
        end = t in (";", "{", "}") and r.random() < 0.6 or column > 140
        out.append("\n" if end else " ")
        column = 0 if end else column
    return "".join(out)


def main():
    if not 2 <= len(sys.argv) <= 3 or not all(word.isdigit() for word in sys.argv[1:]):
        sys.exit("usage:" + __doc__.partition("generate/generics.py")[2].splitlines()[0])
    count, seed = int(sys.argv[1]), int(sys.argv[2]) if len(sys.argv) == 3 else FIRST
    print("check Random programs with generic contracts")
    for number in range(seed, seed + count):
        text = Programs(number).program()
        print("- " + text.strip().replace("`", "``").replace("\n", "`newline`"))


if __name__ == "__main__":
    main()
