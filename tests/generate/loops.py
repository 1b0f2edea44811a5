#!/usr/bin/env python3
"""Draws programs with loops: the texts of `random_loops.txt`, without answers.

  python3 tests/generate/loops.py COUNT [FIRST_SEED]

It writes a sheet with the first COUNT programs with a `while` of the seeds from 40000 on, or from FIRST_SEED. `tests/run --answer` writes what `check`
says of each. The bodies are drawn from what is visible, in three programs of five with slips of names, types and ends. In one of four a
token is changed.
"""
import random
import re
import sys

# The seed of the first program of the sheet.
FIRST = 40_000
TOKENS = re.compile(r'"[^"\n]*"|\w+|::|->|>>|==|!=|<=|>=|&&|\|\||\S')
HELPERS = ("transaction count(int x) returns int { return x; } transaction holds(Lamp@Unowned x, bool y) returns bool { return y; } "
           "transaction word() returns string { return \"w\"; } transaction make() returns Lamp@Owned { return new Lamp(); } "
           "transaction mint() returns Coin@Owned { return new Coin(); }")
OTHERS = ["asset contract Coin { }", "interface I { state On; transaction on() returns bool; }",
          "contract Lamp implements I { state On; state Off; Lamp@Off() { ->Off; } transaction on() returns bool { return true; } transaction get() returns int { return 3; } "
          "transaction turn(Lamp@Owned this) { ->On; } private transaction hid() { } }"]
FIELDS = "{ state S { int f; bool g; } state T; int n; bool p; string s; Lamp@Owned lamp; I@Unowned view;"
# What stands before the texts of each table.
FRONTS = [[*OTHERS, "asset contract A " + FIELDS, HELPERS], [OTHERS[1] + " " + OTHERS[2] + " " + OTHERS[0], "main asset contract A " + FIELDS + " " + HELPERS]]


class Body:
    """A body of A, drawn with what is visible: each local with its type."""
    def __init__(self, r, slip, kind, result, generic):
        self.r, self.slip, self.kind, self.result, self.generic = r, slip, kind, result, generic
        self.scopes, self.count, self.budget, self.deep = [{}], 0, r.randint(3, 11), 0

    def chance(self, p):
        return self.r.random() < p
    def one(self, *xs):
        return self.r.choice(xs)

    def names(self, of):
        found = [n for scope in self.scopes for n, t in scope.items() if t == of]
        return found

    def fields(self, of):
        return {"int": ["n", "f"], "bool": ["p", "g"], "string": ["s"], "Lamp": ["lamp"], "I": ["view"], "Coin": ["coin"], "A": []}.get(of, [])

    def other(self, of):
        return self.one(*[t for t in ("int", "bool", "string", "Lamp", "A") if t != of])

    def expr(self, of, depth=0):
        """An expression of this type, mostly."""
        r = self.r
        if self.chance(self.slip * 0.15):
            return self.expr(self.other(of), depth + 1)
        if self.chance(self.slip * 0.08):
            return self.one("q", "z9", "A", "S", "turn", "t0", "this", "Lamp")
        names = self.names(of)
        leaf = depth > 2 or self.chance(0.35)
        if of == "int":
            if leaf:
                return self.one(str(r.randrange(5)), "n", *names, *names)
            return self.one(lambda: f"{self.expr('int', depth + 1)} {self.one('+', '-', '*', '/', '%')} {self.expr('int', depth + 1)}",
                            lambda: f"({self.expr('int', depth + 1)})", lambda: f"-{self.one('n', '1', *names)}",
                            lambda: f"count({self.expr('int', depth + 1)})", lambda: f"lamp.get()")()
        if of == "bool":
            if leaf:
                return self.one("true", "false", "p", "p", *names, *names, *names)
            cmp = lambda: f"{self.expr('int', depth + 1)} {self.one('<', '<=', '>', '>=', '==', '!=')} {self.expr('int', depth + 1)}"
            return self.one(cmp, cmp, lambda: f"!{self.one('p', 'true', *names)}", lambda: f"({self.expr('bool', depth + 1)})",
                            lambda: f"{self.expr('bool', depth + 1)} {self.one('&&', '||')} {self.expr('bool', depth + 1)}",
                            lambda: f"holds({self.ref('Lamp', depth + 1)}, {self.expr('bool', depth + 1)})",
                            lambda: f"s == {self.expr('string', 3)}", lambda: f"lamp.on()")()
        if of == "string":
            return self.one('""', '"no"', "s", "word()", *names)
        return self.ref(of, depth)

    def ref(self, of, depth=0):
        names = self.names(of)
        made = {"Lamp": ["new Lamp()", "lamp", "make()"], "Coin": ["new Coin()", "mint()"], "A": ["this"], "I": ["view", "new Lamp()"],
                "T": ["held"]}.get(of, ["this"])
        return self.one(*made, *names, *names)

    def args(self):
        return {"Lamp": self.ref("Lamp"), "int": self.expr("int", 2), "bool": self.expr("bool", 2)}

    def fresh(self):
        if self.chance(self.slip * 0.1):
            return self.one("n", "p", "k", "b", "lamp", *[n for scope in self.scopes for n in scope])
        self.count += 1
        return f"{self.one('x', 'y', 'v')}{self.count}"

    def block(self, pad):
        self.scopes.append({})
        self.deep += 1
        many = self.r.choice([0, 1, 1, 2, 2, 3])
        out = []
        for _ in range(many):
            out += self.stmt(pad + "  ")
        if self.chance(0.16):
            out += self.leave(pad + "  ")
            if self.chance(self.slip * 0.25):
                out += self.stmt(pad + "  ")
        self.deep -= 1
        self.scopes.pop()
        return out

    def leave(self, pad):
        if self.chance(0.4):
            return [pad + self.one("revert;", 'revert "no";', f"revert {self.expr('string', 3)};")]
        if self.chance(self.slip * 0.1):
            return [pad + self.one("return;", "return 1;", "return b;", "return this;")]
        if self.result is None:
            return [pad + "return;"]
        return [f"{pad}return {self.expr(self.result, 1)};"]

    def loop(self, pad):
        head = f"{pad}while ({self.expr('bool')}) {{"
        body = self.block(pad)
        return [head, *body, pad + "}"] if body or self.chance(0.5) else [head + " }"]

    def stmt(self, pad):
        self.budget -= 1
        r = self.r
        if self.budget > 0 and self.deep < 4:
            if self.chance(0.3):
                return self.loop(pad)
            if self.chance(0.2):
                test = self.one(f"lamp in {self.one('On', 'Off', 'On')}", f"this in {self.one('S', 'T')}") if self.chance(0.4) and not self.generic else self.expr("bool")
                if self.chance(self.slip * 0.05):
                    test = self.one("n in S", "lamp in S", "this in Q", "q in On")
                out = [f"{pad}if ({test}) {{", *self.block(pad)]
                if self.chance(0.3):
                    out += [f"{pad}}} else if ({self.expr('bool')}) {{", *self.block(pad)]
                if self.chance(0.4):
                    out += [pad + "} else {", *self.block(pad)]
                return out + [pad + "}"]
        kind = r.random()
        if kind < 0.3:
            of = self.one("int", "int", "bool", "string", "Lamp", "A", *(["T"] if self.generic else ["Coin"]))
            value = self.expr(of) if of in ("int", "bool", "string") else self.ref(of)
            name = self.fresh()
            self.scopes[-1][name] = of
            return [f"{pad}{of} {name} = {value};"]
        if kind < 0.55:
            of = self.one("int", "int", "bool", "string", "Lamp")
            mine = [n for n in self.names(of) if n not in ("k", "b", "o", "c")]
            targets = mine * 2 + ([] if self.generic else {"int": ["n"], "bool": ["p"], "string": ["s"], "Lamp": ["lamp"]}[of])
            if self.chance(self.slip * 0.06):
                targets = ["k", "b", "q", "S"]
            if not targets:
                return self.stmt(pad) if self.budget > 0 else [pad + "count(1);"]
            return [f"{pad}{self.one(*targets)} = {self.expr(of) if of in ('int', 'bool', 'string') else self.ref(of)};"]
        if kind < 0.7:
            a = self.args()
            return [pad + self.one(f"count({a['int']});", f"holds({a['Lamp']}, {a['bool']});", "lamp.turn();", "mint();", "new Lamp();", "this.count(n);", "word();",
                                   *([f"lamp.turn(1);", "count();", "holds(lamp);", "lamp.hid();", "lamp.nothing();"] if self.chance(self.slip * 0.3) else []))]
        if kind < 0.8 and not self.generic:
            given = self.one("->T;", f"->S(f = {self.expr('int', 2)}, g = {self.expr('bool', 2)});", f"S::f = {self.expr('int', 2)}; ->S(g = {self.expr('bool', 2)});",
                             f"S::f = {self.expr('int', 2)}; S::g = {self.expr('bool', 2)}; ->S;", f"S::f = 1;", f"S::f = {self.expr('int', 2)}; ->T;")
            if self.chance(self.slip * 0.1):
                given = self.one("->Q;", "->S(q = 1);", "->S(f = 1, f = 2);", "S::f = 1; ->S(f = 2);", "Q::f = 1;")
            return [pad + given]
        if kind < 0.88:
            names = self.names("Coin") + self.names("Lamp")
            return [f"{pad}disown {self.one(*names, 'lamp', *(['q', 'n'] if self.chance(self.slip * 0.2) else []))};"] if names or not self.generic else [pad + "word();"]
        if kind < 0.93:
            return [pad + self.one("[this @ Owned];", "[lamp @ Owned];", "[lamp @ On];", "[lamp @ Shared];", *(["[lamp @ S];", "[n @ Owned];"] if self.chance(self.slip * 0.2) else []))]
        return self.loop(pad)

    def whole(self, params):
        self.scopes[0].update(params)
        out = []
        for _ in range(self.r.randint(1, 5)):
            out += self.stmt("    ")
        if self.chance(0.7) and not any("while" in l for l in out):
            out += self.loop("    ")
        if self.result is not None and not self.chance(self.slip * 0.08) or self.chance(0.1):
            out += self.leave("    ")
            if self.chance(self.slip * 0.08):
                out += self.loop("    ")
        return out


class Programs:
    """The program of a seed."""

    def __init__(self, seed):
        self.r = random.Random(seed)
        self.slip = self.r.choice([0, 0, 0.3, 0.6, 1.0])

    def transaction(self, name, generic=False):
        r = self.r
        result = r.choice([None, None, "int", "bool", "string", "Lamp"])
        params = {k: v for k, v in (("k", "int"), ("b", "bool"), ("o", "Lamp")) if r.random() < 0.6}
        perm = {"int": "int k", "bool": "bool b", "Lamp": r.choice(["Lamp@Owned o", "Lamp@Owned >> Unowned o", "Lamp@Unowned o", "Lamp@Shared o"])}
        this = r.choice(["{0}@Owned this", "{0}@Owned this", "{0}@Shared this", None])
        parts = ([this.format("Cell" if generic else "A")] if this else []) + [perm[v] for v in params.values()]
        body = Body(r, self.slip, "transaction", result, generic)
        lines = body.whole(dict(params))
        returns = {None: "", "Lamp": f" returns Lamp@{r.choice(['Owned', 'Unowned', 'Shared'])}"}.get(result, f" returns {result}")
        private = "private " if r.random() < 0.15 else ""
        return [f"  {private}transaction {name}({', '.join(parts)}){returns} {{", *lines, "  }"]

    def program(self):
        """Which front it has, and the text behind it."""
        r = self.r
        lines = []
        made = r.choice(["Owned", "Shared", "S", "T"])
        maker = Body(r, self.slip, "constructor", None, False)
        start = [f"  A@{made}(int k, bool b) {{", "    n = k; p = b; s = \"\"; lamp = new Lamp(); view = lamp;"]
        start += (maker.whole({"k": "int", "b": "bool"}) if r.random() < 0.3 else []) + ["    ->T;" if made != "S" else "    ->S(f = 1, g = true);", "  }"]
        for i in range(r.choice([1, 1, 1, 2])):
            lines += self.transaction(f"t{i}")
        lines = start + lines if r.random() < 0.8 else lines + start
        lines.append("}")
        if r.random() < 0.2:
            lines += ["contract Cell[T @ c] { T@c held; int n; bool p; string s; Lamp@Owned lamp;", "  Cell@Owned(T@c x) { held = x; n = 0; p = true; s = \"\"; lamp = new Lamp(); }"]
            lines += [HELPERS.replace("A@", "Cell@")]
            for i in range(r.choice([1, 1, 2])):
                lines += self.transaction(f"g{i}", True)
            lines.append("}")
            if r.random() < 0.7:
                arg = r.choice(["Lamp@Shared", "Lamp@Unowned", "Lamp@Owned", "I@Unowned", "Lamp@On"])
                lines += [f"main contract Main {{ transaction use({arg} x) {{ Cell[{arg}] y = new Cell[{arg}](x); while (y.count(1) < 2) {{ }} }} }}"]
        text = "\n".join(lines) if r.random() < 0.15 else " ".join(line.strip() for line in lines)
        return r.randrange(len(FRONTS)), self.broken(text) if r.random() < 0.24 else text

    def broken(self, text):
        """With a token left out, doubled, changed for another one, or exchanged with the next; near a `while`, mostly."""
        r = self.r
        found = list(TOKENS.finditer(text))
        loops = [i for i, t in enumerate(found) if t[0] == "while"]
        at = min(len(found) - 2, max(0, r.choice(loops) + r.choice([0, 0, 1, 2, 3, 4, 5, 6, 8, 12, -1, -2]))) if loops and r.random() < 0.7 else r.randrange(len(found) - 1)
        this, after = found[at], found[at + 1]
        how = r.choice(["out", "twice", "other", "other", "swap", "cut"])
        if how == "out":
            return text[:this.start()] + text[this.end():]
        if how == "twice":
            return text[:this.end()] + " " + this[0] + text[this.end():]
        if how == "swap":
            return text[:this.start()] + after[0] + " " + this[0] + text[after.end():]
        if how == "cut":
            return text[:this.end()]
        other = r.choice(["while", "while", "(", ")", "{", "}", ";", "if", "else", "return", "n", "p", "x1", "1", "true", "this", "new", "&&", "+", "!", "=", "in", "lamp", "Q"])
        return text[:this.start()] + other + text[this.end():]


def row(text):
    """The text of a row."""
    return text.replace("`", "``").replace("\n", "`newline`")


def main():
    if not 2 <= len(sys.argv) <= 3 or not all(word.isdigit() for word in sys.argv[1:]):
        sys.exit("usage:" + __doc__.partition("generate/loops.py")[2].splitlines()[0])
    count, seed, rows = int(sys.argv[1]), int(sys.argv[2]) if len(sys.argv) == 3 else FIRST, [[] for _ in FRONTS]
    while sum(map(len, rows)) < count:
        front, text = Programs(seed).program()
        seed += 1
        if re.search(r"\bwhile\b", text):
            rows[front].append(row(text))
    for number, (front, texts) in enumerate(zip(FRONTS, rows), 1):
        print(f"check Random programs with loops, front {number}")
        print("".join(f"front {line}`newline`\n" for line in front), end="")
        print("".join(f"- {text}\n" for text in texts))


if __name__ == "__main__":
    main()
