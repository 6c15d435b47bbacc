#!/usr/bin/env python3
"""Checks that the pages are true: first sentences of files, tables of crates and definitions, files that promises cite, outputs of examples."""
import pathlib, re, subprocess, sys, tempfile, shutil

top = pathlib.Path(__file__).resolve().parent.parent
faults = []

sources = [f for crate in (top / "crates").iterdir() for part in ("src", "specs", "proofs") for f in (crate / part).rglob("*") if f.suffix in (".rt", ".antt")]
for f in sources:
    first = f.read_text().split("\n", 1)[0]
    generated = f.name in ("Lib.antt", "Answers.antt", "Invariants.antt", "Proof.antt") or "formers" in f.relative_to(top).as_posix()
    if not generated and not re.match(r"(//!|--) \S.*[.:;,)\w]", first):
        faults.append(f"{f.relative_to(top)}: no first sentence")

architecture = (top / "docs/ARCHITECTURE.md").read_text()
crates = {name: below for name, _, below in (line.partition(":") for line in (top / "crates.txt").read_text().splitlines())}
for name, below in crates.items():
    src = top / "crates" / name / "src"
    root = src / "lib.rt" if (src / "lib.rt").exists() else src / "main.rt"
    sentence = root.read_text().split("\n", 1)[0].removeprefix("//! ").rstrip(".")
    if f"| {name} | {sentence} | {', '.join(below.split())} |" not in architecture:
        faults.append(f"docs/ARCHITECTURE.md: no row '| {name} | {sentence} | {', '.join(below.split())} |'")

named = [f"{crate}/specs/{part}.antt" for crate, parts in re.findall(r"(\w+)/specs/(\{[\w,]+\}|\w+)\.antt", (top / "docs/DEFINITIONS.md").read_text()) for part in parts.strip("{}").split(",")]
specs = [f"{f.parent.parent.name}/specs/{f.name}" for f in sources if f.parent.name == "specs" and f.name not in ("Lib.antt", "formers.antt")]
faults += [f"docs/DEFINITIONS.md: {s} stands there {named.count(s)} times" for s in sorted(specs) if named.count(s) != 1]
faults += [f"docs/DEFINITIONS.md: there is no {s}" for s in sorted(set(named) - set(specs))]

def files_cited(text):
    """Each file below src/ or specs/ that a text cites, of the crate that is named last before it, or behind it by `of`."""
    crate = ""
    for path, of, name in re.findall(r"`((?:src|specs)/[^`\s]+)`(?: of (\w+))?|`[^`]*`|\b(\w+)\b", text):
        if path:
            before, parts, after = re.fullmatch(r"([^{]*)\{?([^}]*)\}?(.*)", path).groups() if "{" in path else (path, "", "")
            yield from (f"{of or crate}/{before}{part}{after}" for part in parts.split(","))
        elif name in crates:
            crate = name


for page in ("README.md", "docs/PROVED.md"):
    text = " ".join((top / page).read_text().split())
    faults += [f"{page}: there is no {file}" for file in files_cited(text) if not (top / "crates" / file).exists()]

program = top / "crates/nescmote/out/nescmote"
for wanted in sorted((top / "examples").glob("*.out")) if program.exists() else []:
    words = (wanted.parent / f"{wanted.stem}.args").read_text().split()
    with tempfile.TemporaryDirectory() as folder:
        shutil.copytree(top / "examples", folder, dirs_exist_ok=True)
        if subprocess.run([program, *words], cwd=folder, capture_output=True).stdout != wanted.read_bytes():
            faults.append(f"examples/{wanted.name}: nescmote {' '.join(words)} prints something else")

if faults:
    print("\n".join(faults))
sys.exit(1 if faults else 0)
