"""Holds the documents to the code: the table of refusals, the promises and the functions that bear them, the table of checks, links, and the toolchain's line."""
import pathlib
import re
import sys

wrong = []
tried = 0


def hold(condition, complaint):
    global tried
    tried += 1
    if not condition:
        wrong.append(complaint)


def text(path):
    return pathlib.Path(path).read_text()


# The table of refusals is the enum's.
source = text("crates/fault/src/refusal.rt")
numbers = dict(re.findall(r"^    (\w+) = (\d+),$", source, re.M))
sentences = dict(re.findall(r'Refusal::(\w+) =>\s+"(.*)"', source))
table = {row[1]: row for row in re.findall(r"^\| (\d+) \| `(\w+)` \| (\w+) \| [^|]* \| (.*) \|$", text("docs/REFUSALS.md"), re.M)}
hold(set(numbers) == set(sentences) == set(table), "docs/REFUSALS.md does not list the refusals of the enum")
for name, number in numbers.items():
    if name in table:
        hold(table[name][0] == number, f"docs/REFUSALS.md has another number for {name}")
        hold(table[name][3] == sentences.get(name), f"docs/REFUSALS.md has another sentence for {name}")

# Every public function of a library stands in the promises and in a must-fail edit, and every promise names a function that there is.
promises = text("docs/PROMISES.md")
public = set()
for crate in sorted(pathlib.Path("crates").iterdir()):
    if (crate / "src/main.rt").exists() or crate.name.endswith("_tests"):
        continue
    edits = "\n".join(text(edit) for edit in crate.glob("must-fail/*.edit"))
    for source in crate.glob("src/**/*.rt"):
        for name in re.findall(r"^\s*pub (?:extern \"C\" )?fn (\w+)", text(source), re.M):
            public.add(name)
            hold(re.search(rf"\b{name}\b", promises), f"docs/PROMISES.md says nothing of {crate.name}'s {name}")
            hold(re.search(rf"\b{name}\b", edits), f"no must-fail edit of {crate.name} names {name}")
for row in re.findall(r"^\| [^|]+ \| ([^|]+) \|", promises, re.M):
    for name in re.findall(r"`(?:\w+::)*(\w+)`", row):
        hold(name in public or name[0].isupper(), f"docs/PROMISES.md names {name}, which is no public function")

# The table of checks has every crate with the number of its must-fail edits.
checks = dict(re.findall(r"^\| `(\w+)` \| [^|]+ \| (\S+) \|$", text("docs/CHECKS.md"), re.M))
for line in text("crates.txt").splitlines():
    name = line.split(":")[0].split(" ")[0].strip()
    if name and not name.startswith("#"):
        edits = len(list(pathlib.Path("crates", name, "must-fail").glob("*.edit")))
        hold(checks.get(name) == (str(edits) if edits else "–"), f"docs/CHECKS.md has not {name} with {edits} must-fail edits")

# Links lead somewhere, and README has the line of the toolchain that proves the repository.
for page in ["README.md", *sorted(str(p) for p in pathlib.Path("docs").glob("*.md"))]:
    for link in re.findall(r"\]\(([^)#:]+)\)", text(page)):
        hold((pathlib.Path(page).parent / link).exists(), f"{page} links to {link}, which is not there")
hold(sys.argv[1] in text("README.md"), "README.md has not the line of this toolchain")

for complaint in wrong:
    print(f"tests/docs: {complaint}")
print(f"tests/docs: {tried} checks, {len(wrong)} wrong")
sys.exit(1 if wrong else 0)
