#!/usr/bin/env python3
"""What the gate would refuse without proving anything, found in seconds: run it at the top before submitting.

It reports files that are not in the layout of `rt fmt` (run on a copy), must-fail edits whose old text is not in its
file exactly once, lines of documents that are over 120 characters, public definitions without a comment, names and
paths that documents cite and the repository does not have, functions of many parameters, lemmas that say the same, and
what tools/pages/tree_facts.py, tools/pages/prose.py, tools/pages/meanings.py and tools/pages/program_words.py find.
"""
import concurrent.futures
import os
import pathlib
import shutil
import subprocess
import sys
import tempfile

# (modules of tools/ have one name, whether a person runs this or another module does)
sys.path[0] = str(pathlib.Path(__file__).resolve().parent.parent)

from tools.pages import cited_names, definitions_index, meanings, program_words, prose, tree_facts  # noqa: E402
from tools.prover import parameters, same_statements  # noqa: E402


def lay_out(crate):
    """Has the kit lay out the files of a crate."""
    subprocess.run(["rt", "fmt"], cwd=crate, check=True, stdout=subprocess.DEVNULL, stderr=subprocess.DEVNULL)


def out_of_layout(root):
    """The files that `rt fmt` would change."""
    with tempfile.TemporaryDirectory() as room:
        copy = pathlib.Path(room)
        shutil.copytree(root / "crates", copy / "crates", ignore=shutil.ignore_patterns("out", "data"))
        shutil.copy2(root / "crates.txt", copy)
        with concurrent.futures.ThreadPoolExecutor(os.cpu_count()) as pool:
            list(pool.map(lay_out, sorted((copy / "crates").iterdir())))
        for path in sorted(copy.rglob("*")):
            if path.suffix in (".rt", ".antt"):
                name = path.relative_to(copy)
                if path.read_bytes() != (root / name).read_bytes():
                    yield f"{name}: not in the layout"


def pairs(edit):
    """The files and old texts that an edit names."""
    file, old = None, None
    for line in edit.read_text().splitlines():
        if line.startswith("file: "):
            file = line[len("file: "):].strip()
        elif line.startswith("old: "):
            old = line[len("old: "):]
        elif line.startswith("new: "):
            yield file, old, line[len("new: "):]


def misplaced(edit):
    """What keeps an edit from being applied, one pair after another."""
    texts = {}
    for file, old, new in pairs(edit):
        path = edit.parent.parent / file
        if not path.is_file():
            return f"{edit}: there is no {file}"
        text = texts.get(file) or path.read_text()
        if text.count(old) != 1:
            return f"{edit}: found {text.count(old)} times: {old}"
        texts[file] = text.replace(old, new)
    return None


def too_long(path):
    """The lines of a document that are over 120 characters, but those of tables and of code."""
    is_code = False
    for number, line in enumerate(path.read_text().splitlines(), 1):
        is_code ^= line.startswith("```")
        if len(line) > 120 and not is_code and not line.startswith("|"):
            yield f"{path}:{number}: {len(line)} characters"


def main():
    root = pathlib.Path.cwd()
    found = list(out_of_layout(root))
    found += [it for it in map(misplaced, sorted(root.glob("crates/*/must-fail/*.edit"))) if it]
    for path in [*root.glob("*.md"), *root.glob("docs/*/*.md"), *root.glob("examples/*.md"),
                 *root.glob("cases/*.md"), *root.glob("crates/*/README.md"),
                 *root.glob("python/README.md"), *root.glob("tools/*/README.md")]:
        found += too_long(path)
    found += definitions_index.uncommented()
    found += cited_names.missing()
    found += tree_facts.missing()
    found += prose.missing()
    found += meanings.missing()
    found += program_words.missing()
    found += parameters.missing()
    found += same_statements.missing()
    print("\n".join(found) if found else "ready")
    return 1 if found else 0


if __name__ == "__main__":
    sys.exit(main())
