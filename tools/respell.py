#!/usr/bin/env python3
"""Respells the repository's own names in specs/, proofs/ and clauses, once, after Rattle's port.py: `first-fault` becomes
`first_fault`, `Header-fault` becomes `HeaderFault`. A dash stays where it joins the names of two definitions, as in
`length-bytes_of`. usage: respell.py FOLDER (the top of the checkout). It prints each name that it turns.

Own names are those that a file of specs/ or proofs/ of this repository declares or binds; names of std and names that Rattle makes
(behind `goal.` and `c.`, and the answers themselves) are left alone. Strings and comments of the code are left alone too.
It stops, writing nothing, where two names would fall together."""

import glob
import os
import re
import sys

# a name with a dash, or a fact with an underscore
NAME = r"[A-Za-z][\w']*(?:-[\w']+)*"
TOKEN = re.compile(r"(?<![\w'.·-])" + NAME + r"|(?<=\.)" + NAME)
# a dash here joins two definitions' names
JOINED = {
    "length-bytes-of": "length-bytes_of",
    "le-bytes-of": "le-bytes_of",
    "bytes-of-le": "bytes_of-le",
    "octets-take": "Octets-take",
    "octets-drop": "Octets-drop",
    "ofZ-small": "of_z-small",
    "between-put_mid": "between-put_mid",
}
# words of std whose spelling port.py leaves, and that are cited without a list of imports
STD = {"to_z-of_z", "of_z-to_z"}


def spelled(name):
    if name in JOINED:
        return JOINED[name]
    parts = re.split(r"[-_]" if name[0].isupper() else r"-", name)
    if name[0].isupper():
        return "".join(p[:1].upper() + p[1:] for p in parts)
    return "_".join(parts)


def wants(name):
    return "-" in name or (name[0].isupper() and "_" in name.strip("_") and name.upper() != name)


def blanked(text, code):
    """The text with what must not be turned blanked: imports of std, and in code comments and strings."""
    out = list(text)

    def blank(a, b):
        for i in range(a, b):
            if out[i] != "\n":
                out[i] = " "

    if code:
        for m in re.finditer(r'//[^\n]*|b?"(?:\\.|[^"\\])*"', text):
            blank(m.start(), m.end())
    else:
        for m in re.finditer(r"(?m)^ *--[^\n]*", text):
            blank(m.start(), m.end())
    return "".join(out)


def imports(text, own):
    """The names that a file brings in: from the repository's crates if own, else from elsewhere."""
    names = set()
    for m in re.finditer(r"(?m)^(?:ghost )?use ([^{};\n]+)\.\{([^}]*)\}", text):
        mine = bool(re.match(r"Rattle\.(" + "|".join(CRATES) + r")\.", m[1])) and ".declared." not in m[1]
        if mine == own:
            names |= {n.strip().split(" as ")[0].strip() for n in m[2].split(",")}
    return names


def declared(text):
    """The names that a file of specs/ or proofs/ declares or binds."""
    names = set()
    head = r"(?m)^ *(?:(?:abbrev|unfoldable|pub|data|record|axiom) +)*(" + NAME + r") *(?=[:({])"
    for m in re.finditer(head, text):
        line, depth, i = text[m.end():].split("\n")[0], 0, 0
        while i < len(line) and (depth or line[i] in "({ "):
            depth += (line[i] in "({") - (line[i] in ")}")
            i += 1
        if line[i:i + 2] == ": " and not line[i:].lstrip(": ").startswith("goal."):
            names.add(m[1])
    for m in re.finditer(r"\blet (" + NAME + r")", text):
        names.add(m[1])
    for m in re.finditer(r"[({]((?:" + NAME + r" )+): ", text):
        names |= set(m[1].split())
    for m in re.finditer(r"λ ((?:" + NAME + r" ?)+)\.", text):
        names |= set(m[1].split())
    return names


def main(top):
    global CRATES
    CRATES = sorted(os.listdir(os.path.join(top, "crates")))
    antt = sorted(p for k in ("specs", "proofs") for p in glob.glob(os.path.join(top, "crates", "*", k, "**", "*.antt"), recursive=True))
    code = sorted(glob.glob(os.path.join(top, "crates", "*", "src", "**", "*.rt"), recursive=True))
    texts = {p: open(p, encoding="utf-8").read() for p in antt + code}
    own, all_names = set(), set()
    for p in antt:
        t = blanked(texts[p], False)
        own |= {n for n in declared(t) if wants(n)}
        all_names |= declared(t)
    outside = set(STD)
    for p in texts:
        outside |= imports(texts[p], False)
    both = sorted(own & outside)
    if both:
        print("also a name from elsewhere, left alone: " + " ".join(both))
    own -= outside
    turned = {n: spelled(n) for n in sorted(own)}
    clash = [n for n, s in turned.items() if s in all_names | outside or list(turned.values()).count(s) > 1]
    for n in clash:
        print(f"falls together? {n} -> {turned[n]}: " + ", ".join(os.path.relpath(p, top) for p in antt if turned[n] in declared(blanked(texts[p], False)))[:300])
    if clash and "--anyway" not in sys.argv:
        raise SystemExit(1)
    for p, t in texts.items():
        b = blanked(t, p.endswith(".rt"))
        out, at = [], 0
        for m in TOKEN.finditer(b):
            n = m[0]
            if n not in turned:
                continue
            before = b[max(0, m.start() - 80):m.start()]
            if re.search(r"\b(?:goal|c)\.$", before) or re.search(r"(?:^|[ (])c\.[\w'.-]*\.$", before):
                continue
            out += [t[at:m.start()], turned[n]]
            at = m.end()
        new = "".join(out) + t[at:]
        if new != t and "--dry" not in sys.argv:
            with open(p, "w", encoding="utf-8") as f:
                f.write(new)
    for n, s in turned.items():
        print(f"{n} {s}")


main(sys.argv[1])
