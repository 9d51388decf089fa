#!/usr/bin/env python3
"""Lists places of the eight points of docs/DESIGN-PASS.md in crates/*/src, for a reader to judge.

    python3 tools/places.py POINT [FOLDER]

POINT is 1 to 8, FOLDER a checkout (the current one if it is not given). Each line is a place that a
pattern finds; the last line says how many there are. What is counted for each point:

1  numbers in place of enums, flags with a value, errors written by hand
2  groups of functions that are the same up to names, numbers and texts, or but for one token in ten
3  loops over a range, loops with a test, and loops that only search, test or count
4  conversions, tests of kinds and printing written by hand
5  facts that stand in the requires of three functions of a crate, and parameters that three have together
6  vectors and arrays in fields, parameters and locals with a fixed length
7  types that are only there to be an impl of a private trait, and enums of steps
8  files of answers and invariants, lemmas, and their lines
"""
import difflib
import itertools
import pathlib
import re
import sys

FN = re.compile(r"^( *)((?:pub(?:\(crate\))? )?(?:extern \"C\" )?fn (\w+))", re.M)


def sources(root):
    for path in sorted(pathlib.Path(root, "crates").glob("*/src/**/*.rt")):
        yield path, path.read_text()


def crate_of(path):
    parts = path.parts
    return parts[parts.index("crates") + 1]


def short(root, path):
    return str(path.relative_to(pathlib.Path(root, "crates")))


def line_of(text, at):
    return text.count("\n", 0, at) + 1


def functions(text):
    """Name, place, text up to the body, and body of each function."""
    for m in FN.finditer(text):
        indent = m.group(1)
        end = re.compile(r"^%s\}(?:\n|$)|;\n" % indent, re.M).search(text, m.end())
        whole = text[m.start(): end.end() if end else len(text)]
        brace = re.search(r"^%s\{" % indent, whole, re.M)
        if brace:
            yield m.group(3), m.start(), whole[: brace.start()], whole[brace.start():]
        elif whole.rstrip().endswith("{}"):
            yield m.group(3), m.start(), whole, "{}"
        elif "{" in whole.split("\n")[0]:
            yield m.group(3), m.start(), whole.split("\n")[0], whole[whole.index("{"):]


def grep(root, patterns):
    """A place is a line, told by the first pattern that finds it."""
    for path, text in sources(root):
        found = {}
        for name, pattern in patterns:
            for m in re.finditer(pattern, text, re.M):
                at = line_of(text, m.start() + len(m.group(0)) - len(m.group(0).lstrip()))
                said = " ".join(m.group(0).split())
                found.setdefault(at, f"{short(root, path)}:{at}: {name}: {said[:90]}")
        for at in sorted(found):
            yield found[at]


def point1(root):
    return grep(root, [
        ("code to kind", r"fn \w*from_code\b"),
        ("number for a kind", r"^(?:pub(?:\(crate\))? )?const [A-Z_]+: u(?:8|64) = "),
        ("value for none", r"^(?:pub(?:\(crate\))? )?const NO_\w+: "),
        ("flag as an answer", r"Result<bool,"),
        ("flag with a value", r"^    (?:pub(?:\(crate\))? )?\w+: bool,"),
        ("error by hand", r"=> Err\(AllocError\)|return Err\(AllocError\)"),
        ("option by hand", r"None => None,"),
        ("error mapped by hand", r"Err\(\w+\) => (?:return )?Err\("),
    ])


TOKEN = re.compile(r'"(?:[^"\\]|\\.)*"|b?\'(?:[^\'\\]|\\.)\'|\w+|[^\s\w]')
KEEP = set("fn let mut if else match for while in return loop break continue as ref self Self Some None Ok Err true false".split())


def shape(body):
    body = re.sub(r"//[^\n]*", "", body)
    out = []
    for t in TOKEN.findall(body):
        if t in KEEP or not re.match(r"\w|\"|b?'", t):
            out.append(t)
        elif t[0].isdigit():
            out.append("n")
        elif t[0] in "\"'" or t.startswith("b'"):
            out.append("s")
        else:
            out.append("id")
    return out


def point2(root):
    bodies = []
    for path, text in sources(root):
        for name, at, head, body in functions(text):
            tokens = shape(body)
            if len(tokens) >= 22:
                bodies.append((f"{short(root, path)}:{line_of(text, at)} {name}", tokens, head))
    group = list(range(len(bodies)))

    def leader(i):
        while group[i] != i:
            i = group[i]
        return i

    for (i, (_, s, _)), (j, (_, t, _)) in itertools.combinations(enumerate(bodies), 2):
        near = min(len(s), len(t)) >= 40 and abs(len(s) - len(t)) <= 0.1 * len(s)
        if s == t or near and difflib.SequenceMatcher(None, s, t, autojunk=False).ratio() >= 0.9:
            group[leader(j)] = leader(i)
    for i in range(len(bodies)):
        members = [bodies[j][0] for j in range(len(bodies)) if leader(j) == i]
        if len(members) > 1:
            yield " = ".join(members)


def point3(root):
    return grep(root, [
        ("search or test", r"for [^{\n]* in [^{\n]*\{\n\s*if [^\n]*\{\n\s*return [^\n]*\n\s*\}\n\s*\}"),
        ("count", r"for [^{\n]* in [^{\n]*\{\n\s*if [^\n]*\{\n\s*\w+ \+= 1;\n\s*\}\n\s*\}"),
        ("range", r"for \w+ in (?:\()?[^{\n]*\.\.[^{\n]*\{"),
        ("while", r"while (?!let Some\(\w+\) = \w+\.next\(\))[^{\n]*\{"),
        ("push of each", r"for [^{\n]* in [^{\n]*\{\n\s*\w+\.push\([^\n]*\)\?;\n\s*\}"),
    ])


def point4(root):
    return grep(root, [
        ("code to kind", r"fn \w*from_code\b"),
        ("test of a kind", r"fn is_(?:final|macro|normal|input_kind|from|digit|name_byte|trigger)\b"),
        ("word of a kind", r"fn (?:signal|state|transition)_(?:kind|word)\b"),
        ("text made", r"\) -> Result<String, AllocError>"),
        ("text pushed", r"text: &mut String"),
        ("error mapped", r"Err\(\w+\) => (?:return )?Err\("),
    ])


def conjuncts(clause):
    depth, part, out = 0, "", []
    for c in clause:
        depth += c == "("
        depth -= c == ")"
        if c == "×" and depth == 0:
            out.append(part)
            part = ""
        else:
            part += c
    out.append(part)
    for p in (x.strip() for x in out):
        while p.startswith("(") and p.endswith(")"):
            inner, depth = p[1:-1], 0
            if any((depth := depth + (c == "(") - (c == ")")) < 0 for c in inner):
                break
            p = inner.strip()
        if "×" in p and p not in (clause.strip(),):
            yield from conjuncts(p)
        else:
            yield p


def point5(root):
    facts, together = {}, {}
    for path, text in sources(root):
        for name, at, head, _ in functions(text):
            place = f"{short(root, path)}:{line_of(text, at)} {name}"
            for clause in re.findall(r"requires (?:\w+ )?\{ (.*) \}$", head, re.M):
                for fact in conjuncts(clause):
                    facts.setdefault((crate_of(path), fact), []).append(place)
            params = re.search(r"\(([^)]*)\)", head[head.index("fn "):])
            named = sorted({re.sub(r"<[^>]*>|&(?:'\w+ )?|mut ", "", p.strip()) for p in params.group(1).split(",") if ":" in p}) if params else []
            for pair in itertools.combinations(named, 2):
                together.setdefault((crate_of(path), pair), []).append(place)
    for (crate, fact), places in sorted(facts.items()):
        if len(places) >= 3:
            yield f"{crate}: {len(places)} times: {fact}"
    for (crate, pair), places in sorted(together.items()):
        if len(places) >= 3:
            yield f"{crate}: {len(places)} times together: {', '.join(pair)}"


def point6(root):
    return grep(root, [
        ("field", r"^    (?:pub(?:\(crate\))? )?\w+: (?:Vec<|\[)[^\n]*,$"),
        ("array", r"(?:&mut |&|: |-> )\[\w+; \d+\]"),
        ("array made", r"\[[^\[\]\n]*; \d+\];"),
    ])


def point7(root):
    return grep(root, [
        ("impl of a private trait", r"^impl(?:<[^>]*>)? (?:Rule|Column<[^{]*>|Part) for [^{]*"),
        ("type without fields", r"^(?:pub(?:\(crate\))? )?struct \w+;"),
        ("enum of steps", r"^(?:pub(?:\(crate\))? )?enum (?:At|Item|Place|Top|Step)\b"),
    ])


def point8(root):
    for crate in sorted(pathlib.Path(root, "crates").iterdir()):
        files = sorted(crate.glob("proofs/**/*.antt"))
        lemmas = sum(len(re.findall(r"^(?:abbrev )?(?:pub )?[\w≡≤<→-]+ :", f.read_text(), re.M)) for f in files if f.parent.name == "proofs")
        lines = sum(len(f.read_text().splitlines()) for f in files)
        if files:
            answers = sum(f.name == "Answers.antt" for f in files)
            loops = sum(f.name == "Invariants.antt" for f in files)
            yield f"{crate.name}: {answers} answers, {loops} invariants, {lemmas} lemmas, {lines} lines"


def main():
    if len(sys.argv) not in (2, 3) or sys.argv[1] not in "12345678":
        sys.exit(__doc__)
    root = pathlib.Path(sys.argv[2] if len(sys.argv) == 3 else ".")
    count = 0
    for place in globals()["point" + sys.argv[1]](root):
        print(place)
        count += 1
    print(count)


main()
