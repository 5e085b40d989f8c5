"""What tools/release makes of three programs: a wheel, a Debian package, an archive, their sums, and what was proved.

The same commit and programs give the same wheel and archive: all times in them are that of the commit.
"""
import base64
import dataclasses
import gzip
import hashlib
import io
import os
import pathlib
import re
import shutil
import subprocess
import sys
import tarfile
import tempfile
import time
import tomllib
import zipfile
from typing import Any

from tools.pages import manual_pages, written
from tools.prover.proved_programs import RELEASED, Proof

# The command of the package in Python, beside the programs.
COMMAND = "tsb-py"
CONSOLE = f"""#!/usr/bin/python3
import sys

from tsb.__main__ import console

sys.exit(console())
"""
# Pages that go with the programs, and what the Debian package asks for.
PAGES = ["README.md", "CHANGELOG.md", "LICENSE-APACHE", "LICENSE-MIT", "SECURITY.md"]
DEPENDS = "python3 (>= 3.11), python3-numpy, python3-pandas (>= 1.5), python3-tqdm"
RECOMMENDS = ("python3-aiohttp, python3-jinja2, python3-matplotlib, python3-dask, python3-distributed, "
              "python3-pysnmp4, python3-pytest")


@dataclasses.dataclass(frozen=True)
class Release:
    """What a release is made of: the repository, the programs by their names, what was proved, and the time of it."""

    top: pathlib.Path
    programs: dict[str, pathlib.Path]
    proof: Proof
    moment: int

    def version(self) -> str:
        """The version, from the one file that has it."""
        return manual_pages.version(self.top)

    def name(self) -> str:
        """The name and the version, with which each file begins."""
        return f"tsb-{self.version()}"

    def sources(self) -> list[str]:
        """The files of the package in Python, below `python/`."""
        words = ["git", "ls-files", "-z", "tsb"]
        listed = subprocess.run(words, cwd=self.top / "python", capture_output=True, text=True, check=True).stdout
        return sorted(it for it in listed.split("\0") if it)


def moment_of(top: pathlib.Path) -> int:
    """The time of the newest commit, in seconds."""
    words = ["git", "log", "-1", "--format=%ct"]
    return int(subprocess.run(words, cwd=top, capture_output=True, text=True, check=True).stdout)


def is_logged(release: Release) -> bool:
    """Whether the change log has this version, with its day."""
    text = (release.top / "CHANGELOG.md").read_text()
    return re.search(rf"^## \[{re.escape(release.version())}\] - \d{{4}}-\d\d-\d\d$", text, re.M) is not None


def make(release: Release, to: pathlib.Path) -> None:
    """Makes all files of a release in this folder, which is empty."""
    (to / "PROVED.txt").write_text(proved(release))
    wheel(release, to)
    debian(release, to)
    archive(release, to)
    files = sorted(it for it in to.iterdir() if it.is_file())
    sums = "".join(f"{hashlib.sha256(it.read_bytes()).hexdigest()}  {it.name}\n" for it in files)
    (to / "SHA256SUMS").write_text(sums)


def proved(release: Release) -> str:
    """What was proved, with what, and of which programs."""
    sums = "".join(f"{release.proof.sums[it]}  {it}\n" for it in RELEASED)
    return (f"{release.name()}\n\ncommit {release.proof.commit}\nkit {release.proof.kit}\n\n"
            f"The three programs were proved by tools/gate of that commit. Their SHA-256:\n\n{sums}\n"
            "What is promised of them stands in docs/trust/PROVED.md of the commit. The package in Python is tested.\n\n"
            f"The gate passed:\n\n{release.proof.table.rstrip()}\n")


def project_of(release: Release) -> dict[str, Any]:
    """What python/pyproject.toml says of the package."""
    project: dict[str, Any] = tomllib.loads((release.top / "python/pyproject.toml").read_text())["project"]
    return project


def information(release: Release) -> dict[str, str]:
    """What an installed package says of itself, by file: its command too, and the plugin that pytest finds by it."""
    groups = {"console_scripts": {COMMAND: "tsb.__main__:console"}, **project_of(release)["entry-points"]}
    points = [line for group, names in groups.items()
              for line in (f"[{group}]", *(f"{name} = {it}" for name, it in names.items()), "")]
    return {"METADATA": metadata(release), "entry_points.txt": "\n".join(points)}


def metadata(release: Release) -> str:
    """What a wheel says of itself, by python/pyproject.toml."""
    project = project_of(release)
    lines = ["Metadata-Version: 2.1", f"Name: {project['name']}", f"Version: {release.version()}",
             f"Summary: {project['description']}", "License: Apache-2.0 OR MIT",
             f"Requires-Python: {project['requires-python']}"]
    lines += [f"Requires-Dist: {it}" for it in project["dependencies"]]
    for extra, needed in project["optional-dependencies"].items():
        lines += [f"Provides-Extra: {extra}", *(f'Requires-Dist: {it} ; extra == "{extra}"' for it in needed)]
    lines += ["Description-Content-Type: text/markdown", "", (release.top / "README.md").read_text()]
    return "\n".join(lines)


def wheel(release: Release, to: pathlib.Path) -> None:
    """The package in Python, with the programs, which are put where programs of its environment are."""
    info, tag = f"{release.name()}.dist-info", "py3-none-linux_x86_64"
    files = {it: (release.top / "python" / it).read_bytes() for it in release.sources()}
    files |= {f"{release.name()}.data/scripts/{it}": release.programs[it].read_bytes() for it in RELEASED}
    files |= {f"{info}/{it}": (release.top / it).read_bytes() for it in PAGES if it.startswith("LICENSE")}
    texts = {**information(release),
             "WHEEL": f"Wheel-Version: 1.0\nGenerator: tsb\nRoot-Is-Purelib: false\nTag: {tag}\n",
             "PROVED.txt": proved(release)}
    files |= {f"{info}/{it}": text.encode() for it, text in texts.items()}
    record = "".join(f"{it},sha256={_digest(data)},{len(data)}\n" for it, data in files.items())
    files[f"{info}/RECORD"] = f"{record}{info}/RECORD,,\n".encode()
    when = time.gmtime(release.moment)[:6]
    with zipfile.ZipFile(to / f"{release.name()}-{tag}.whl", "w", zipfile.ZIP_DEFLATED) as made:
        for name, data in files.items():
            entry = zipfile.ZipInfo(name, when)
            entry.compress_type = zipfile.ZIP_DEFLATED
            entry.external_attr = (0o100755 if "/scripts/" in name else 0o100644) << 16
            made.writestr(entry, data)


def _digest(data: bytes) -> str:
    """A sum as the RECORD of a wheel has it."""
    return base64.urlsafe_b64encode(hashlib.sha256(data).digest()).decode().rstrip("=")


def least_libc(release: Release) -> str:
    """The least version of the C library that has all that the programs call."""
    found = {tuple(map(int, it)) for path in release.programs.values()
             for it in re.findall(rb"GLIBC_(\d+)\.(\d+)", path.read_bytes())}
    return ".".join(map(str, max(found, default=(2, 31))))


def debian(release: Release, to: pathlib.Path) -> None:
    """The same for Debian and what is made of it, by `dpkg-deb`."""
    with tempfile.TemporaryDirectory(prefix="tsb-deb-") as folder:
        root = pathlib.Path(folder, "root")
        for it in release.sources():
            _put(root / "usr/lib/python3/dist-packages" / it, (release.top / "python" / it).read_bytes())
        for name, text in information(release).items():
            _put(root / f"usr/lib/python3/dist-packages/{release.name()}.dist-info" / name, text.encode())
        for name, path in release.programs.items():
            _put(root / "usr/bin" / name, path.read_bytes(), 0o755)
        _put(root / "usr/bin" / COMMAND, CONSOLE.encode(), 0o755)
        for name in RELEASED:
            _put(root / f"usr/share/man/man1/{name}.1.gz", gzip.compress(manual(release, name), 6, mtime=0))
        documents = root / "usr/share/doc/tsb"
        for it in PAGES:
            _put(documents / it, (release.top / it).read_bytes())
        _put(documents / "PROVED.txt", proved(release).encode())
        _put(documents / "copyright", (release.top / "LICENSE-MIT").read_bytes())
        size = sum(it.stat().st_size for it in root.rglob("*") if it.is_file()) // 1024 + 1
        _put(root / "DEBIAN/control", control(release, size).encode())
        package = f"{to}/tsb_{release.version()}_amd64.deb"
        words = ["dpkg-deb", "--root-owner-group", "-Zgzip", "-z6", "--build", str(root), package]
        environment = {**os.environ, "SOURCE_DATE_EPOCH": str(release.moment)}
        subprocess.run(words, check=True, env=environment, stdout=subprocess.DEVNULL)


def control(release: Release, kilobytes: int) -> str:
    """What a Debian package says of itself."""
    return (f"Package: tsb\nVersion: {release.version()}\nArchitecture: amd64\n"
            "Maintainer: The tsb authors <tsb@localhost>\n"
            f"Installed-Size: {kilobytes}\nDepends: libc6 (>= {least_libc(release)}), libgcc-s1, {DEPENDS}\n"
            f"Recommends: {RECOMMENDS}\nSection: science\nPriority: optional\n"
            "Description: bench for traffic signal timing plans\n"
            " It simulates an actuated dual-ring controller, and can be wound back.\n"
            " The programs tsb, tsb_live and tsb_field are proved; tsb-py is the package in Python.\n")


def _put(path: pathlib.Path, data: bytes, mode: int = 0o644) -> None:
    """Writes a file, with the folders above it."""
    path.parent.mkdir(parents=True, exist_ok=True)
    path.write_bytes(data)
    path.chmod(mode)


def manual(release: Release, name: str) -> bytes:
    """The manual page of a program."""
    return manual_pages.page(name, release.version()).encode()


def archive(release: Release, to: pathlib.Path) -> None:
    """The programs alone, with the pages, those that are made of the source too, the documents and the examples."""
    words = ["git", "ls-files", "-z", "docs", "examples"]
    listed = subprocess.run(words, cwd=release.top, capture_output=True, text=True, check=True).stdout
    made = [sys.executable, "-m", "tools.pages.written"]
    subprocess.run(made, cwd=release.top, stdout=subprocess.DEVNULL, check=True)
    pages = [*PAGES, *map(str, written.PAGES), *filter(None, listed.split("\0"))]
    files = {it: ((release.top / it).read_bytes(), 0o644) for it in pages}
    files |= {f"bin/{it}": (release.programs[it].read_bytes(), 0o755) for it in RELEASED}
    files |= {f"man/man1/{it}.1": (manual(release, it), 0o644) for it in RELEASED}
    files["PROVED.txt"] = proved(release).encode(), 0o644
    packed = io.BytesIO()
    with tarfile.open(fileobj=packed, mode="w", format=tarfile.PAX_FORMAT) as made:
        for name, (data, mode) in sorted(files.items()):
            entry = tarfile.TarInfo(f"{release.name()}/{name}")
            entry.size, entry.mode, entry.mtime = len(data), mode, release.moment
            made.addfile(entry, io.BytesIO(data))
    path = to / f"{release.name()}-linux_x86_64.tar.gz"
    path.write_bytes(gzip.compress(packed.getvalue(), 6, mtime=0))


def replace(made: pathlib.Path, to: pathlib.Path) -> None:
    """Puts a folder in place of another, whole."""
    shutil.rmtree(to, ignore_errors=True)
    os.replace(made, to)
