#!/usr/bin/env python3
"""forms: counts the places where crates/*/src/ has a form that today's Rattle has a plainer one for.

Run it at the repository's root: `python3 tools/forms.py` prints a line for each place, and the counts;
`python3 tools/forms.py 3` prints those of one point. It changes nothing. A line is a place to look at, not a fault.

  1  answers in code: an enum of at most three cases of which one holds a value and one holds none; a bool among a
     struct's fields; a bool from a function that changes what it is lent; a number from a match over an enum
  2  twins: functions of nearly one shape, that is, of the same words but for names and numbers
  3  loops by hand: `while`, `loop`, a `for` over a range, a `for` over `enumerate`, a `for` that returns what it finds
     or that counts
  4  by hand what a derive or a trait of std does: a match that answers true and false, a function that is only `==`,
     a function that answers a fixed number for each case of an enum, a function that formats a line
  5  what goes together: a pair of parameters of the same names in three functions or more of a crate; a clause that
     three functions or more of a crate have, but for the names of values
  6  buffers: a struct with a Vec or an array and a number or a list beside it
  7  switches: a function that is only a match on a parameter of an enum, each arm calling another function
  8  proofs: lemmas that no other text cites; answers, by lines
"""
import collections
import difflib
import os
import re
import sys

KEYWORDS = set(
    "as break const continue else enum fn for if impl in let loop match mod mut pub ref return self Self static struct"
    " trait true false type use where while crate super ghost requires ensures".split()
)


def files(kind, end):
    out = []
    for base in sorted(os.listdir("crates")):
        top = os.path.join("crates", base, kind)
        for folder, _, names in sorted(os.walk(top)):
            out += [os.path.join(folder, n) for n in sorted(names) if n.endswith(end)]
    return out


def blank(text):
    """The text with comments blanked, so that places stay."""
    return re.sub(r"//[^\n]*", lambda m: " " * len(m.group()), text)


def braces(s, i):
    depth = 0
    while i < len(s):
        depth += {"{": 1, "}": -1}.get(s[i], 0)
        i += 1
        if depth == 0:
            return i
    return i


class Function:
    def __init__(self, path, line, name, params, answer, clauses, body, public):
        self.path, self.line, self.name, self.params = path, line, name, params
        self.answer, self.clauses, self.body, self.public = answer, clauses, body, public
        self.crate = path.split("/")[1]

    def at(self):
        return f"{self.path}:{self.line} {self.name}"


def functions(path, text):
    s = blank(text)
    for m in re.finditer(r"(pub(?:\([^)]*\))? )?fn ([a-z_]\w*)(<[^(]*>)?\(", s):
        i = m.end() - 1
        depth, j = 0, i
        while True:
            depth += {"(": 1, ")": -1}.get(s[j], 0)
            j += 1
            if depth == 0:
                break
        params = s[i + 1 : j - 1]
        rest = s[j:]
        a = re.match(r"\s*->\s*((?:\[[^\]]*\]|[^\n{;])+)", rest)
        answer = a.group(1).strip() if a else ""
        k = j + (a.end() if a else 0)
        clauses = []
        while True:
            c = re.match(r"\s*(requires|ensures)\*?( \w+)? \{", s[k:])
            if not c:
                break
            start = k + c.end() - 1
            end = braces(s, start)
            clauses.append((c.group(1), s[start + 1 : end - 1].strip()))
            k = end
        b = re.match(r"[^{;]*\{", s[k:])
        if not b or ";" in s[k : k + b.end()]:
            continue
        start = k + b.end() - 1
        body = s[start + 1 : braces(s, start) - 1]
        yield Function(path, s[: m.start()].count("\n") + 1, m.group(2), params, answer, clauses, body, bool(m.group(1)))


def shape(body):
    words = re.findall(r"[A-Za-z_]\w*|\d+|\S", body)
    return " ".join(w if w in KEYWORDS or not re.match(r"\w", w) else "x" for w in words)


def main():
    only = sys.argv[1] if len(sys.argv) > 1 else ""
    found = collections.OrderedDict((str(n), []) for n in range(1, 9))
    texts = {p: open(p).read() for p in files("src", ".rt")}
    all_functions = [f for p, t in texts.items() for f in functions(p, t)]

    for p, t in texts.items():
        s = blank(t)
        for m in re.finditer(r"\benum (\w+)[^{]*\{", s):
            inner = s[m.end() : braces(s, m.end() - 1) - 1]
            inner = re.sub(r"#\[[^\]]*\]", "", inner)
            while re.search(r"[({<][^(){}<>]+[)}>]", inner):
                inner = re.sub(r"[({<][^(){}<>]+[)}>]", "()", inner)
            cases = re.findall(r"\b[A-Z]\w*\s*(?:\(\))?", inner)
            holds = [c for c in cases if "(" in c]
            if 0 < len(holds) < len(cases) <= 3:
                found["1"].append(f"{p}:{s[: m.start()].count(chr(10)) + 1} enum {m.group(1)}: {', '.join(c.split('(')[0] for c in cases)}")
        for m in re.finditer(r"\bstruct (\w+)[^{;(]*\{", s):
            inner = s[m.end() : braces(s, m.end() - 1) - 1]
            at = f"{p}:{s[: m.start()].count(chr(10)) + 1} struct {m.group(1)}"
            fields = re.findall(r"^\s*(?:pub(?:\([^)]*\))? )?(\w+): ([^\n]*),", inner, re.M)
            for name, kind in fields:
                if kind == "bool":
                    found["1"].append(f"{at}: {name}: bool")
            lists = [n for n, k in fields if re.search(r"Vec<|\[", k)]
            beside = [n for n, k in fields if k == "usize"]
            if lists and (beside or len(lists) > 1):
                found["6"].append(f"{at}: {', '.join(lists + beside)}")
            for name, kind in fields:
                if re.fullmatch(r"Vec<(u\d+|Cell)>", kind):
                    found["6"].append(f"{at}: a list to search: {name}: {kind}")
    for f in all_functions:
        if "bool" in f.answer and "&mut" in f.params:
            found["1"].append(f"{f.at()} -> {f.answer}")
        if f.answer in ("u8", "FaultCode", "RefusalCode") and re.search(r"\bmatch self\b|match \w+ \{", f.body) and "fmt" not in f.name:
            (found["1"] if f.answer == "u8" else found["4"]).append(f"{f.at()} -> {f.answer}")
        flat = " ".join(f.body.split())
        if re.fullmatch(r"match [^{]*\{.*=> true,.*=> false,? \}", flat):
            found["4"].append(f"{f.at()}: a match for true and false")
        if re.fullmatch(r"\w+ == \w+", flat):
            found["4"].append(f"{f.at()}: only ==")
        if re.search(r"format!\(", flat) and f.crate != "piles":
            found["4"].append(f"{f.at()}: formats a line")
        for m in re.finditer(r"\b(while|loop)\b|\bfor (.*?) in ([^{]*)\{", f.body):
            line = f.line + 0
            if m.group(1):
                found["3"].append(f"{f.at()}: {' '.join(f.body[m.start(): m.start() + 60].split())}")
                continue
            inner = f.body[m.end() : braces(f.body, m.end() - 1) - 1]
            over = m.group(3).strip()
            how = None
            if re.search(r"\.\.", over):
                how = "a range"
            elif "enumerate" in over:
                how = "enumerate"
            elif "return" in inner:
                how = "returns what it finds"
            elif re.search(r"\b\w+ (\+=|\|=|&=)|\b\w+ = ", inner):
                how = "counts or carries"
            elif re.search(r"\.push_reserved\(|\.push\(|\.add\w*\(|\.copy\(|\.push_\w+\(", inner):
                how = "pushes one by one"
            if how:
                found["3"].append(f"{f.at()}: for {m.group(2)} in {over}: {how}")
        if re.match(r"match \w+ \{", flat) and not re.search(r"=> (true|false)", flat):
            arms = re.findall(r"=> (?:self\.)?([a-z_]\w*(?:\.\w+)?)\(", flat)
            if len(arms) >= 2 and flat.count("=>") == len(arms):
                found["7"].append(f"{f.at()}: {', '.join(arms)}")
    shapes = [(f, shape(f.body).split()) for f in all_functions if len(shape(f.body).split()) >= 12]
    for f, a in shapes:
        like = []
        for g, b in shapes:
            if g is not f and max(len(a), len(b)) <= 1.5 * min(len(a), len(b)):
                m = difflib.SequenceMatcher(None, a, b, autojunk=False)
                if m.quick_ratio() >= 0.86 and m.ratio() >= 0.86:
                    like.append(g.name)
        if like:
            found["2"].append(f"{f.at()}: like {', '.join(like)}")
    by_crate = collections.defaultdict(lambda: collections.defaultdict(list))
    clauses = collections.defaultdict(lambda: collections.defaultdict(set))
    for f in all_functions:
        params = [" ".join(x.split()) for x in re.split(r",(?![^<(]*[>)])", f.params) if ":" in x]
        for a, b in zip(params, params[1:]):
            by_crate[f.crate][f"{a}, {b}"].append(f)
        for kind, c in f.clauses:
            plain = re.sub(r"\b(self|into|memory|first|second|reader|out|marks|arrivals|storage|result|from|routine)\b", "_", " ".join(c.split()))
            for part in re.split(r" × \(?", plain):
                part = part.strip("() ")
                if len(part) > 12:
                    clauses[f.crate][kind + " " + part].add(f.at())
    for crate, pairs in by_crate.items():
        for pair, fs in pairs.items():
            if len(fs) >= 3:
                found["5"].append(f"crates/{crate}: {len(fs)} functions take {pair}")
    for crate, cs in clauses.items():
        for c, fs in cs.items():
            if len(fs) >= 3:
                found["5"].append(f"crates/{crate}: {len(fs)} functions: {c}")
    proofs = {p: open(p).read() for p in files("proofs", ".antt")}
    specs = {p: open(p).read() for p in files("specs", ".antt")}
    every = "\n".join(list(proofs.values()) + list(specs.values()) + list(texts.values()))
    used = collections.Counter(re.findall(r"[^\s(){},;:.\[\]◌]+", every))
    for p, t in proofs.items():
        if os.path.basename(p) in ("Answers.antt", "Invariants.antt", "Lib.antt"):
            continue
        for m in re.finditer(r"^(?:abbrev |unfoldable )?pub (?:record |data |abbrev )?(\S+) [:(]", t, re.M):
            clauses_of = len(re.findall(r"^" + re.escape(m.group(1)) + r"(?=[ \n])", t, re.M))
            if used[m.group(1)] <= 1 + clauses_of:
                found["8"].append(f"{p}: {m.group(1)} is cited by nothing")
    for point, places in found.items():
        if only in ("", point):
            for place in places:
                print(point, place)
    answers = sum(t.count("\n") for p, t in proofs.items() if p.endswith("Answers.antt"))
    rest = sum(t.count("\n") for p, t in proofs.items() if not p.endswith("Answers.antt"))
    print(", ".join(f"point {n}: {len(p)}" for n, p in found.items() if only in ("", n)))
    print(f"lines of proofs: {answers} of answers, {rest} of lemmas and invariants; lines of src: {sum(t.count(chr(10)) for t in texts.values())}")


main()
