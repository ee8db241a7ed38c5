#!/usr/bin/env python3
"""Finds the places of the design pass in src/: python3 tools/places.py [TREE] [KIND..]

The kinds are numbered as in docs/DESIGN-PASS.md. Each line is a place, `KIND what  file:line  text`; the last lines are the counts. Files of tests count as the rest does.
"""
import collections
import glob
import os
import re
import sys

tree = sys.argv[1] if len(sys.argv) > 1 else "."
wanted = set(sys.argv[2:])
found = collections.OrderedDict()


def place(point, kind, path, line, text):
    found.setdefault((point, kind), []).append((path, line, " ".join(text.split())[:100]))


def line_of(text, at):
    return text.count("\n", 0, at) + 1


PATTERNS = [
    # (kind, what, expression over the whole file)
    (1, "a result turned by hand", r"Err\((\w+)\) => Err\(\1\)|Ok\((\w+)\) => Ok\(\2\)|Ok\(\(\)\) => Ok\("),
    (1, "an option turned to a result by hand", r"Some\((\w+)\) => Ok\(|None => Err\(|let Some\([^;{}]*? else \{\s*return Err\("),
    (1, "an option turned to an option by hand", r"None => return None|Some\((\w+)\) => Some\(\1\)|let Some\([^;{}]*? else \{\s*return None"),
    (1, "a proved result taken apart by hand", r"Err\(_\) => unreachable\(\)"),
    (1, "a result in a result", r"Result<Result<"),
    (1, "a value that stands for none", r"// [^\n]*\b0 (?:where|until)[^\n]*(?:none|is)\b[^\n]*"),
    (1, "a value with a flag beside it", r"pub \w+: \w+,\s*pub off: Option<"),
    (3, "a range of indices", r"\bfor \w+ in [^{\n]*\.\.[^{\n]*\{"),
    (3, "a while over a place or a rest", r"\bwhile (?!let)[^{\n]*\{"),
    (3, "a count kept by hand", r"\b(\w+) \+= 1;|\b(\w+) = \2\.saturating_add\(1\);"),
    (3, "a search by hand", r"for [^{]*\{\s*if [^{]*\{\s*return (?:Some\(|i;|false;|true;)"),
    (3, "a walk over what a call hands on", r"\bwhile let\b[^{\n]*\{"),
    (4, "a field copied to its own name", r"(?m)^\s*(\w+): (?:self|account|draft|gathered)\.\1,$"),
    (4, "a conversion by hand", r"fn (?:of\(n|number\(self|sort_of|verb_named|class_named|class_word|ready_word)\b[^{;]*"),
    (4, "equality by hand", r"fn (?:same|is_blank|is_none|is_within)\([^{;]*|(?:_ => false,\s*\})"),
    (4, "printing by hand", r"fn (?:spell|put_number|put_past|put_both|put_amount|put_layer)\b[^{;]*|fn (?:one|two|signed|classed|term)<W[^{;]*"),
    (6, "a buffer with a place beside it", r"&mut \[u8\],\s*at: usize"),
    (6, "a buffer of a size that a clause states", r"length (?:rows|page|figures)\.old ≡ \w+"),
    (6, "lists in step", r"delivery: &(?:mut )?\[u64\],\s*availability: &(?:mut )?\[u64\]"),
    (6, "an array of a fixed size beside a const parameter", r"\[0; PLACES\]"),
    (7, "a match that calls one of several", r"match (?:form|\*act) \{"),
    (7, "a table of functions, a function handed on", r"\bdyn |Box<|: fn\("),
]

KEYWORDS = set("as const else enum for fn if impl in let loop match mut pub ref return self Self struct trait type use where while true false Ok Err Some None u8 u64 i64 usize bool".split())


def functions(path, text):
    """Each function: its name, line, parameters, clauses and body."""
    for head in re.finditer(r"\bfn (\w+)(<[^(]*>)?\(", text):
        at, depth = head.end(), 1
        while depth:
            depth += {"(": 1, ")": -1}.get(text[at], 0)
            at += 1
        params = text[head.end():at - 1]
        clauses = []
        while True:
            rest = re.match(r"\s*(?:->\s*(?:[^\s{;]|\s(?!\s*(?:requires|ensures|where|\{|\n)))+|where\s[^{;]*?(?=ensures|requires|\{|;)|(requires|ensures)\s*(\w+)?\s*(?=\{))", text[at:])
            if not rest or not rest.group(0).strip():
                break
            at += rest.end()
            if rest.group(1):
                start, depth = at, 0
                while True:
                    depth += {"{": 1, "}": -1}.get(text[at], 0)
                    at += 1
                    if depth == 0:
                        break
                clauses.append((rest.group(1), text[start + 1:at - 1].strip()))
        body = ""
        gap = re.match(r"\s*\{", text[at:])
        if gap:
            at += gap.end()
            start, depth = at, 1
            while depth:
                depth += {"{": 1, "}": -1}.get(text[at], 0)
                at += 1
            body = text[start:at - 1]
        yield head.group(1), line_of(text, head.start()), params, clauses, body


def shape(body):
    body = re.sub(r"//[^\n]*", "", body)
    out = []
    for token in re.findall(r'b?"[^"]*"|b?\'[^\']*\'|\w+|[^\w\s]', body):
        if re.match(r"[A-Za-z_]\w*$", token) and token not in KEYWORDS:
            token = "x"
        elif re.match(r"\d", token) or token[0] in "\"'" or token[:2] in ('b"', "b'"):
            token = "0"
        out.append(token)
    return out


shapes, bodies, facts, pairs, types = (collections.defaultdict(list) for _ in range(5))
for path in sorted(glob.glob(os.path.join(tree, "crates/*/src/**/*.rt"), recursive=True)):
    short = os.path.relpath(path, tree)
    text = open(path, encoding="utf-8").read()
    for point, kind, pattern in PATTERNS:
        for hit in re.finditer(pattern, text):
            place(point, kind, short, line_of(text, hit.start()), hit.group(0))
    for hit in re.finditer(r"\bstruct (\w+)[^{;(]*\{(.*?)\n\}", text, re.S):
        fields = re.sub(r"//[^\n]*|\bpub\b", "", hit.group(2))
        fields = [" ".join(f.split()).rstrip(",") for f in fields.split(",\n") if f.strip() and not f.strip().startswith("ghost")]
        if len(fields) > 1:
            types[tuple(sorted(fields))].append((short, line_of(text, hit.start()), hit.group(1)))
    for name, line, params, clauses, body in functions(path, text):
        tokens = shape(body)
        if len(tokens) >= 18:
            shapes[" ".join(tokens)].append((short, line, name))
        if body.strip():
            bodies[(short.split("/")[1], name, "".join(body.split()))].append((short, line, name))
        for kind, clause in clauses:
            if kind == "requires":
                for fact in set(re.sub(r"\.(?:old|now|new)\b", "", part).strip("() \n") for part in clause.split(" × ")):
                    if len(fact) > 3:
                        facts[(short.split("/")[1], " ".join(fact.split()))].append((short, line, name))
        named = [" ".join(p.split()) for p in re.split(r",\s*(?![^<\[(]*[>\])])", params) if ":" in p]
        named = [re.sub(r"&'a |&mut |&", "", p) for p in named if "HostRuntime" not in p]
        for i, a in enumerate(named):
            for b in named[i + 1:]:
                pairs[(short.split("/")[1], a, b)].append((short, line, name))

for group in shapes.values():
    if len(group) > 1:
        for short, line, name in group:
            place(2, "a function of the shape of another: " + " ".join(sorted(set(n for _, _, n in group))), short, line, name)
for (crate, name, _), group in bodies.items():
    if len(group) > 1:
        for short, line, _ in group:
            place(2, "a function of the name and body of another: " + crate + " " + name, short, line, name)
for fields, group in types.items():
    if len(group) > 1:
        for short, line, name in group:
            place(2, "a type with the fields of another: " + " ".join(sorted(n for _, _, n in group)), short, line, name)
for (crate, fact), group in facts.items():
    if len(group) > 2:
        for short, line, name in group:
            place(5, "a fact asked for by three or more: " + crate + ": " + fact, short, line, name)
for (crate, a, b), group in pairs.items():
    if len(group) > 2:
        for short, line, name in group:
            place(5, "parameters that travel together: " + crate + ": " + a + ", " + b, short, line, name)

counts = collections.Counter()
for (point, kind), places in sorted(found.items()):
    if wanted and str(point) not in wanted:
        continue
    for short, line, text in places:
        print(f"{point} {kind}  {short}:{line}  {text}")
    counts[point] += len(places)
for (point, kind), places in sorted(found.items()):
    if not wanted or str(point) in wanted:
        print(f"count {point} {kind}: {len(places)}")
print("in all: " + ", ".join(f"kind {p}: {n}" for p, n in sorted(counts.items())))
