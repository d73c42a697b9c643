#!/usr/bin/env python3
"""Respells this repository's own definitions, lemmas, fields and clause labels as today's Rattle spells them: words in snake case.

usage: python3 tools/respell.py [--list]      once, at the top of the repository, after the toolchain's own script; --list only prints what it would do

A definition `digestOf` becomes `digest_of`. In a lemma a dash stays where it joins two names, as in `length-digest_of`, and is `_` otherwise.
Names of types, modules, functions of src/, goals, strings and comments' plain words stay. It stops where two names would fall together.
The crate `bytes` becomes `byte_strings`, since the toolchain has a library of the first name.
"""
import glob
import os
import re
import sys

LETTER = r"A-Za-z0-9_'\u2032\-"
TOKEN = re.compile(r'"(?:[^"\\\n]|\\.)*"|(?<![A-Za-z0-9_\'])[A-Za-z_][' + LETTER + r']*')
HEAD = re.compile(r"(?:pub |abbrev |unfoldable |record |data |ruleset )*([A-Za-z][" + LETTER + r"]*)\s*:(?!:)")
LABEL = re.compile(r"(?:ensures|requires|ghost)\*? ([A-Za-z]\w*)(?: \{|:| =)")
# Where the plain spelling is taken: a lemma that would have its function's name gets `_lem`, and a definition may not have the name of a ghost field.
CHOSEN = {
    "added-all": "added_all_lem",
    "length-in": "length_in_lem",
    "saltLength": "salt_length_of",
    "layoutBytes": "are_layout_bytes",
}
# Lemmas that the toolchain's script had already given a definition's new name, by the crates that have them.
LEMMAS = {"all_blocks": ("all_blocks_lem", "figures"), "read_answer": ("read_answer_lem", "bench")}


def snake(name):
    return re.sub(r"([a-z0-9])([A-Z])", lambda m: m.group(1) + "_" + m.group(2).lower(), name)


def read(path):
    with open(path, encoding="utf-8") as f:
        return f.read()


def files(ending):
    return sorted(p for p in glob.glob("crates/*/**/*" + ending, recursive=True) if "/out/" not in p)


def goals():
    """The names that Rattle asks for: what the answer files are typed by."""
    found = set()
    for p in files(".antt"):
        found |= set(re.findall(r"^(?:abbrev )?(?:pub )?([\w'-]+)\s*:\s*(?:goal|need|given)\.", read(p), re.M))
    return found


def own():
    """Names that are defined here, and among them the fields and labels."""
    names, fields = set(), set()
    for p in files(".antt"):
        for line in read(p).split("\n"):
            m = HEAD.match(line.strip())
            if not m:
                continue
            if line.startswith(" "):
                if m.group(0).startswith("pub "):
                    fields.add(m.group(1))
            else:
                names.add(m.group(1))
        if re.search(r"/specs/", p):
            for line in read(p).split("\n"):
                m = re.match(r"\s{2,}(?:pub )?([a-z]\w*)\s*:\s", line)
                if m:
                    fields.add(m.group(1))
    for p in files(".rt"):
        fields |= set(LABEL.findall(read(p)))
    return names, fields


def words():
    """Names that come from the library."""
    found = set()
    for p in files(".antt") + files(".rt"):
        for group in re.findall(r"use Rattle\.std[\w.+'-]*\.\{([^}]*)\}", read(p)):
            found |= {w.strip().split(" as ")[-1] for w in group.split(",")}
    return found


def renames():
    asked = goals()
    names, fields = own()
    names -= asked
    known = {snake(n) for n in names if "-" not in n} | words()
    out = {}
    for n in sorted(names | fields):
        if not n[0].islower() or (n in fields and "-" in n and n not in names):
            continue
        parts = [snake(x) for x in n.split("-")]
        new = parts[0]
        for i, x in enumerate(parts[1:], 1):
            joins = parts[i - 1] in known and x in known and x[0].islower()
            new += ("-" if joins else "_") + x
        new = CHOSEN.get(n, new)
        if new != n:
            out[n] = new
    return out, names, fields


def respell(text, table, fields):
    def one(m):
        t = m.group(0)
        if t.startswith('"') or t not in table:
            return t
        before = text[: m.start()]
        if before.endswith(".") and "-" in t:
            chain = re.search(r"[\w'.+-]*\.$", before).group(0)
            if not re.match(r"(Rattle|[A-Z]\w*)\.", chain):
                return t
        return table[t]

    return TOKEN.sub(one, text)


def rename_crate(old, new):
    """Moves a crate, and names it anew where the others name it."""
    for p in files(".antt") + files(".rt"):
        text = read(p)
        turned = re.sub(r"(?<![\w.])Rattle\.%s\." % old, "Rattle.%s." % new, text)
        if not p.startswith("crates/%s/" % old):
            turned = re.sub(r"(?<![\w:.])%s::(?=[A-Za-z{])" % old, new + "::", turned)
        if turned != text:
            with open(p, "w", encoding="utf-8") as f:
                f.write(turned)
    listed = re.sub(r"(?m)(?<=[ \n])%s(?=[ :\n])" % old, new, "\n" + read("crates.txt"))[1:]
    with open("crates.txt", "w", encoding="utf-8") as f:
        f.write(listed)
    os.rename("crates/" + old, "crates/" + new)


def main():
    table, names, fields = renames()
    paths = files(".antt") + files(".rt") + files(".edit")
    texts = {p: read(p) for p in paths}
    for old, (new, crate) in LEMMAS.items():
        for p in paths:
            if p.startswith("crates/%s/proofs/" % crate):
                texts[p] = re.sub(r"(?<![\w'-])" + old + r"(?![\w'-])", new, texts[p])
    present = set()
    for t in texts.values():
        present |= {m.group(0) for m in TOKEN.finditer(t)}
    together = {}
    for old, new in table.items():
        together.setdefault(new, []).append(old)
    bad = [(new, olds) for new, olds in together.items() if len(olds) > 1 or new in names - set(table)]
    seen = [(old, new) for old, new in table.items() if new in present]
    if "--list" in sys.argv:
        for old, new in table.items():
            print(old, "->", new)
        for old, new in seen:
            print("present already:", old, "->", new, [p for p in paths if re.search(r"(?<![\w'-])" + re.escape(new) + r"(?![\w'-])", texts[p])][:6])
    if bad:
        print("names that would fall together:", bad)
        raise SystemExit(1)
    if "--list" in sys.argv:
        return
    changed = 0
    for p in paths:
        new = respell(texts[p], table, fields)
        if new != read(p):
            changed += 1
            with open(p, "w", encoding="utf-8") as f:
                f.write(new)
    print(len(table), "names respelled in", changed, "files")
    if os.path.isdir("crates/bytes"):
        rename_crate("bytes", "byte_strings")


if __name__ == "__main__":
    main()
