"""Makes a release of given programs in a folder of its own, and asks it: run_release.py TSB TSB_FIELD TSB_LIVE.

It shows how tools/release makes its files and what it refuses, and nothing of what was proved: here the note of the
gate is made up. The wheel goes into a new environment without network, which sees the system's packages; the Debian
package is installed into a folder, which needs root. The last line is `N passed, M failed`.
"""
import hashlib
import os
import pathlib
import re
import shutil
import signal
import subprocess
import sys
import tempfile
import urllib.request
from collections.abc import Callable

from tools import TOP
from tools.pages import manual_pages
from tools.programs import release_parts
from tools.prover import proved_programs

EXAMPLES = TOP / "examples"
SECONDS = 600
# Where Debian keeps the installer that it puts into new environments; it runs from there as well.
PIP = pathlib.Path("/usr/share/python-wheels")
# Of the caller's environment only this is passed on, so that no other program or package is found.
KEPT = {it: os.environ[it] for it in ("HOME", "LANG", "TMPDIR") if it in os.environ}
# dpkg looks for its helpers, such as ldconfig, where the superuser's programs are.
DPKG = {"PATH": f"{os.defpath}:/usr/sbin:/sbin"}


class Wrong(Exception):
    """What is not as it should be."""


def check(is_so: bool, what: str) -> None:
    """Raises `Wrong` where something is not so."""
    if not is_so:
        raise Wrong(what)


def ran(words: list[str | pathlib.Path], room: pathlib.Path, more: dict[str, str], text: str = "") -> str:
    """What a command writes; it has to end well."""
    done = subprocess.run(words, cwd=room, env={**KEPT, "PATH": os.defpath, **more}, input=text, capture_output=True,
                          text=True, timeout=SECONDS)
    check(done.returncode == 0, f"{' '.join(map(str, words))}: {done.returncode} {done.stderr}")
    return done.stdout


def asked(programs: pathlib.Path, python: pathlib.Path, room: pathlib.Path, more: dict[str, str]) -> None:
    """Asks an installed release for a check, a record, a version, a test by pytest and the first answer of a panel."""
    plan, log = EXAMPLES / "quad.json", EXAMPLES / "preempt_and_undo.log"
    check(ran([programs / "tsb", "check", plan], room, more) == "plan ok\n", "tsb check")
    words: list[str | pathlib.Path] = ["record", "--from", "2026-11-22 07:00:00", "--device", "7", plan, log]
    record = ran([programs / "tsb_field", *words], room, more, "step 100\n")
    check("7,2026-11-22 07:00:05.0,4,2\n" in record, "tsb_field record")
    line = "0000001 RGRRRGRR-------- -D-------------- G--- 0 ----\n"
    check(ran([programs / "tsb_live", plan], room, more, f"{16 * '0'} {8 * '0'} 0000\n") == line, "tsb_live")
    collected = [python, "-m", "pytest", "-q", "-p", "no:cacheprovider", EXAMPLES / "acceptance/minimum_green.scenario"]
    check("1 passed" in ran(collected, room, more), "pytest has no plugin for scenario files")
    version = manual_pages.version(TOP)
    for name, told in {"tsb-py": "tsb", "tsb_field": "tsb_field", "tsb_live": "tsb_live"}.items():
        check(ran([programs / name, "--version"], room, more) == f"{told} {version}\n", f"{name} --version")
    listed = ran([programs / "tsb-py"], room, more)
    check(all(str(programs / it) in listed for it in proved_programs.RELEASED), f"other programs: {listed}")
    check("commands: tsb-py COMMAND .." in listed, f"another name of the command: {listed}")
    with subprocess.Popen([programs / "tsb-py", "panel", plan, log], cwd=room, text=True, stdout=subprocess.PIPE,
                          env={**KEPT, "PATH": os.defpath, **more}) as running:
        assert running.stdout is not None
        said = running.stdout.readline()
        address = re.fullmatch(r"quad\.json .*: (http://127\.0\.0\.1:\d+/\S+)\n", said)
        check(address is not None, f"tsb-py panel: {said}")
        assert address is not None
        with urllib.request.urlopen(address[1], timeout=SECONDS) as page:
            check(b"tsb panel" in page.read(), "the panel's first answer")
        running.send_signal(signal.SIGINT)
        check(running.wait(SECONDS) == 0, "the panel's end")


def the_wheel_works(made: pathlib.Path, room: pathlib.Path) -> None:
    """Installed without network, and run by the names that it puts on PATH."""
    ran(["/usr/bin/python3", "-m", "venv", "--system-site-packages", "--without-pip", "venv"], room, {})
    words: list[str | pathlib.Path] = ["install", "-q", "--no-index", "--no-deps", *made.glob("*.whl")]
    pip = next(PIP.glob("pip-*.whl"))
    ran([room / "venv/bin/python", pip / "pip", *words], room, {"PIP_DISABLE_PIP_VERSION_CHECK": "1"})
    asked(room / "venv/bin", room / "venv/bin/python", room, {})


def the_debian_package_works(made: pathlib.Path, room: pathlib.Path) -> None:
    """Apt finds what it depends on; dpkg installs it into a folder, its programs run, and dpkg takes it all away."""
    package = next(made.glob("*.deb"))
    control = ran(["dpkg-deb", "--field", package, "Package", "Architecture", "Depends"], room, {})
    check("Package: tsb\n" in control and "libc6 (>= 2." in control, control)
    planned = ran(["apt-get", "--simulate", "--no-install-recommends", "install", package], room, {})
    check(re.search(r"^Inst tsb ", planned, re.M) is not None, planned)
    root = room / "root"
    dpkg = installer(root)
    ran([*dpkg, "--install", package], room, DPKG)
    programs = root / "usr/bin"
    packages = str(root / "usr/lib/python3/dist-packages")
    asked(programs, pathlib.Path("/usr/bin/python3"), room, {"PYTHONPATH": packages, "PATH": f"{programs}:{os.defpath}"})
    listed = ran([*dpkg, "--listfiles", "tsb"], room, DPKG).splitlines()
    check("/usr/bin/tsb-py" in listed, "dpkg --listfiles")
    ran([*dpkg, "--remove", "tsb"], room, DPKG)
    check(not [it for it in listed if (root / it[1:]).is_file()], "dpkg --remove leaves a file")


def installer(root: pathlib.Path) -> list[str | pathlib.Path]:
    """The words of a dpkg for a folder of its own, which has none of the packages of the system."""
    for name in ("info", "updates"):
        (root / "var/lib/dpkg" / name).mkdir(parents=True)
    (root / "var/lib/dpkg/status").touch()
    return ["dpkg", f"--root={root}", f"--log={root}/log", "--force-depends", "--force-unsafe-io"]


def the_archive_is_whole(made: pathlib.Path, room: pathlib.Path) -> None:
    """Its programs are those that were given, and its pages are there."""
    ran(["tar", "-xzf", next(made.glob("*.tar.gz"))], room, {})
    folder = next(room.glob("tsb-*"))
    check(ran([folder / "bin/tsb", "check", folder / "examples/quad.json"], room, {}) == "plan ok\n", "tsb check")
    pages = [*release_parts.PAGES, "PROVED.txt", "docs/use/MANUAL.md", "docs/trust/LAWS.md"]
    check(all((folder / it).is_file() for it in pages), "a page is missing")
    for name in proved_programs.RELEASED:
        the_manual_page_is_well(folder / "man/man1" / f"{name}.1", room)


def the_manual_page_is_well(page: pathlib.Path, room: pathlib.Path) -> None:
    """It has its parts and no mark of the document, and groff has nothing to say of it, where there is groff."""
    text = page.read_text()
    check(text.startswith(f".TH {page.stem.upper()} 1 ") and ".SH SYNOPSIS\n" in text, f"{page.name}: its head")
    check(not re.search(r"\*\*|`|^\|", text, re.M) and text.count("\n.TP\n") > 5, f"{page.name}: its marks")
    if shutil.which("groff", path=os.defpath):
        words = ["groff", "-man", "-ww", "-Tutf8", str(page)]
        done = subprocess.run(words, cwd=room, capture_output=True, text=True, timeout=SECONDS)
        check(done.returncode == 0 and not done.stderr, f"{page.name}: {done.stderr}")


def the_sums_are_right(made: pathlib.Path, _room: pathlib.Path) -> None:
    """Of each file that is handed out."""
    sums = {name: found for found, name in map(str.split, (made / "SHA256SUMS").read_text().splitlines())}
    names = {it.name for it in made.iterdir()} - {"SHA256SUMS"}
    check(sums == {it: hashlib.sha256((made / it).read_bytes()).hexdigest() for it in names}, "a sum")
    check(len(names) == 4, f"{sorted(names)}")


def it_is_made_alike(made: pathlib.Path, room: pathlib.Path, release: release_parts.Release) -> None:
    """The same programs and commit give the same bytes."""
    release_parts.make(release, room)
    check((room / "SHA256SUMS").read_text() == (made / "SHA256SUMS").read_text(), "other bytes")


def it_refuses(room: pathlib.Path, programs: dict[str, pathlib.Path]) -> None:
    """What is not clean, not proved, proved of another commit, or not the program that was proved."""
    shutil.copytree(TOP / "tools", room / "tools", ignore=shutil.ignore_patterns("__pycache__"))
    for name in ["VERSION", "CHANGELOG.md", ".gitignore"]:
        shutil.copy2(TOP / name, room / name)
    git = ["git", "-c", "user.name=tsb", "-c", "user.email=tsb@localhost"]
    (room / "CHANGELOG.md").write_text("## [Unreleased]\n")
    ran([*git, "init", "-q"], room, {})

    def commit(text: str) -> str:
        ran([*git, "add", "-A"], room, {})
        ran([*git, "commit", "-q", "--allow-empty", "-m", text], room, {})
        return ran(["git", "rev-parse", "HEAD"], room, {}).strip()

    def refused(words: str) -> None:
        done = subprocess.run([room / "tools/release"], cwd=room, capture_output=True, text=True, timeout=SECONDS)
        check(done.returncode == 1 and words in done.stderr and not (room / "dist").exists(), f"{words}: {done.stderr}")

    was = commit("first")
    refused("no gate that passed")
    (room / "new").touch()
    refused("git status lists it")
    (room / "new").unlink()
    for name, path in programs.items():
        proved_programs.place(room, name).parent.mkdir(parents=True)
        shutil.copy2(path, proved_programs.place(room, name))
    proved_programs.keep(room, was, "kit", "table")
    refused("CHANGELOG.md has no")
    commit("second")
    refused(f"the gate passed on {was}")
    proved_programs.keep(room, was, "kit", "table")
    refused(f"the gate passed on {was}")
    proved_programs.keep(room, commit("third"), "kit", "table")
    with proved_programs.place(room, "tsb_live").open("ab") as file:
        file.write(b"\n")
    refused("crates/tsb_live/out/tsb_live is not the program")


def main(words: list[str]) -> int:
    """Runs all, and gives the status to end with."""
    if len(words) != 3:
        sys.exit("usage: python3 -m tools.programs.run_release TSB TSB_FIELD TSB_LIVE")
    programs = dict(zip(proved_programs.RELEASED, (pathlib.Path(it).resolve() for it in words)))
    sums = {name: proved_programs.sum_of(path) for name, path in programs.items()}
    proof = proved_programs.Proof("a test", "a test", "none", sums)
    release = release_parts.Release(TOP, programs, proof, release_parts.moment_of(TOP))
    failed = 0
    with tempfile.TemporaryDirectory(prefix="tsb-release-") as folder:
        made = pathlib.Path(folder, "dist")
        made.mkdir()
        release_parts.make(release, made)
        cases: dict[str, Callable[[pathlib.Path], None]] = {
            "the wheel": lambda room: the_wheel_works(made, room),
            "the Debian package": lambda room: the_debian_package_works(made, room),
            "the archive": lambda room: the_archive_is_whole(made, room),
            "the sums": lambda room: the_sums_are_right(made, room),
            "the same again": lambda room: it_is_made_alike(made, room, release),
            "what is refused": lambda room: it_refuses(room, programs),
        }
        for number, (name, case) in enumerate(cases.items()):
            room = pathlib.Path(folder, str(number))
            room.mkdir()
            try:
                case(room)
            except (Wrong, OSError, subprocess.SubprocessError, StopIteration) as fault:
                failed += 1
                print(f"release, {name}: {fault or type(fault).__name__}", flush=True)
    print(f"{len(cases) - failed} passed, {failed} failed")
    return 1 if failed else 0


if __name__ == "__main__":
    sys.exit(main(sys.argv[1:]))
