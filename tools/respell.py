"""Brings the repository's own definitions, lemmas, fields and locals to the
spelling of today's libraries, after the kit's port.py, once.

Words are joined by an underscore and are in lower case; types and modules are
in camel case already.  A dash stays only where it joins the names of two
functions or operators in the name of a lemma (`dot-neg`, `length-sums`).
Names that the prover makes (`loop-k-preserved`), names of the library,
functions of src/, strings and comments are left alone.

    python3 tools/respell.py      at the top of the repository
"""

import re
import sys
from pathlib import Path

# Names of functions and operators: a dash between two of them joins them.
JOINED = set(
    "dot neg times plus minus cross 𝟎 inside within length greatest least products products_with sums "
    "sum combine append weighted total map ++ *ℤ +ℤ get_or blocks opposites capture written shifted "
    "mirrored wrappedᵛ weigh put without det dets differences numbered * ⊕ ⊗ ⊖ quote up down joined "
    "monomial points".split()
)

# Names that no signature declares: bound variables, and names that a clause's import gives.
LOCALS = set(
    "at-u at-v at-w c-top first-many second-many p-in t-in w-in w-low corner-of flat-is holds-ridge "
    "next-in normal-of outward-is outward-of tetrahedron-rows hA hM hM₁ hN sA sB".split()
)

SIGNATURE = re.compile(r"\s*((?:abbrev |pub |unfoldable |record |data |module )*)([^\s:(){};.]+)\s*(?:[({].*)?:\s")
NAME = re.compile(r"[^\s(){};,.\[\]«»@\\]+")


def code_of(line, mark):
    """The line up to its comment, and the comment."""
    at = line.find(mark)
    while at >= 0 and line[:at].count('"') % 2:
        at = line.find(mark, at + 1)
    if at < 0 or (mark == "--" and not re.match(r"--( |$|-)", line[at:])):
        return line, ""
    return line[:at], line[at:]


def snake(word):
    """A word in lower case, its capitals as words: eqZ is eq_z, i16At is i16_at."""
    if re.fullmatch(r"[A-Z]\w*", word):
        return word.lower()
    return re.sub(r"(?<=[a-z0-9])([A-Z])", lambda m: "_" + m.group(1).lower(), word)


def respelled(name, lemma):
    name = name.replace("getD", "get_or").replace("products-with", "products_with").replace("′", "'")
    words = name.split("-") if name.strip("-") == name else [name]
    if lemma and all(w in JOINED for w in words):
        return name
    return "_".join(snake(w) for w in words)


def declared(files):
    """Names with a dash or a capital inside, and whether each is only ever a lemma."""
    kinds = {n: False for n in LOCALS}
    for p in files:
        made = p.name in ("Answers.antt", "Invariants.antt")
        for line in p.read_text().splitlines():
            m = SIGNATURE.match(code_of(line, "--")[0])
            if not m or (made and re.search(r":\s*goal\.", line)):
                continue
            n = m.group(2)
            if "◌" in n or not ("-" in n.strip("-") or "′" in n or re.match(r"[a-z]\w*[A-Z]", n)):
                continue
            lemma = "proofs" in p.parts and "abbrev" not in m.group(1)
            kinds[n] = kinds.get(n, True) and lemma
    return kinds


def main():
    top = Path("crates")
    if not top.is_dir():
        sys.exit("run it at the top of the repository")
    antt = sorted(p for p in top.rglob("*.antt") if "out" not in p.parts)
    rt = sorted(p for p in top.rglob("*.rt") if "out" not in p.parts)
    names = {n: respelled(n, lemma) for n, lemma in declared(antt).items()}
    names = {n: m for n, m in names.items() if n != m}
    backward = {}
    for n, m in names.items():
        backward.setdefault(m, []).append(n)
    for m, ns in sorted(backward.items()):
        if len(ns) > 1:
            print("fall together:", m, ns)
    seen = set()
    for p in antt + rt:
        mark = "--" if p.suffix == ".antt" else "//"
        new = []
        for line in p.read_text().splitlines(keepends=True):
            code, comment = code_of(line, mark)
            parts = code.split('"')
            for i in range(0, len(parts), 2):
                seen.update(NAME.findall(parts[i]))
                parts[i] = NAME.sub(lambda m: names.get(m.group(), m.group()), parts[i])
            new.append('"'.join(parts) + comment)
        text = "".join(new)
        if text != p.read_text():
            p.write_text(text)
    for n in sorted(set(names.values()) & seen):
        print("stood before:", n, backward[n])
    print(len(names), "names respelled")


if __name__ == "__main__":
    main()
