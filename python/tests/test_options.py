"""Wrong words of commands are answered with the right ones that they are near."""

import subprocess
import sys
from pathlib import Path

import pytest
from tsb.__main__ import COMMANDS
from tsb.options import Words, called, nearest


@pytest.mark.parametrize(
    ("word", "right"),
    [
        ("pannel", "panel"),
        ("reprot", "report"),
        ("SWEEP", "sweep"),
        ("reports", "report"),
        ("frobnicate", None),
        ("", None),
    ],
)
def test_the_nearest_right_word(word: str, right: str | None) -> None:
    assert nearest(word, ["new", "panel", "report", "sumo", "sweep"]) == right


@pytest.mark.parametrize(
    ("words", "told"),
    [
        ("pannel", "there is no command pannel, did you mean panel?; "),
        ("walk", "there is no command walk; python3 -m tsb lists them"),
        ("\x1b[31m", "there is no command ?[31m; python3 -m tsb lists them"),
        ("report --plan_a p.json --out o", "--plan_a: did you mean --plan-a?"),
        ("report --otu=o.html", "required: --out; --otu: did you mean --out?"),
        ("sweep p --dys d --out o", "--dys d; --dys: did you mean --days?"),
        ("panel p.json --layuot f", "--layuot: did you mean --layout?"),
        ("sumo exmaple folder", "exmaple: did you mean example?"),
        ("sumo example f --pedestrain", "--pedestrain: did you mean --pedestrians?"),
    ],
)
def test_what_commands_say(words: str, told: str, tmp_path: Path) -> None:
    """With status 2, as for all bad words."""
    whole = [sys.executable, "-m", "tsb", *words.split()]
    done = subprocess.run(whole, cwd=tmp_path, capture_output=True, text=True)
    assert done.returncode == 2 and told in done.stderr
    assert list(tmp_path.iterdir()) == []


def test_new_says_it_in_a_line(tmp_path: Path) -> None:
    words = [sys.executable, "-m", "tsb", "new", "--phase", "2", "--out", "o.json"]
    done = subprocess.run(words, cwd=tmp_path, capture_output=True, text=True)
    assert done.returncode == 2
    assert done.stderr == (
        "python3 -m tsb new: unrecognized arguments: --phase 2; "
        "--phase: did you mean --phases?\n"
    )


def test_what_is_right_or_far_is_not_corrected() -> None:
    """Options, those that are shortened where they may be, and values of options."""
    words = Words(others=["nema"])
    words.add_argument("--pattern")
    for given, told in (
        (["nets", "--pattern=1", "--patt", "2", "-3", "-x"], "bad"),
        (["--weather"], "bad"),
        (["--patern", "nema"], "bad; --patern: did you mean --pattern?"),
        (["nemo"], "bad; nemo: did you mean nema?"),
    ):
        words.parse_known_args(given)
        assert words.with_nearest("bad") == told


@pytest.mark.parametrize("word", ["--help", "-h"])
def test_help_lists_what_there_is(word: str) -> None:
    whole = [sys.executable, "-m", "tsb"]
    plain, helped = (
        subprocess.run(it, capture_output=True, text=True, check=True).stdout
        for it in (whole, [*whole, word])
    )
    assert plain == helped and "commands: python3 -m tsb COMMAND .." in plain


#: What a wheel puts on the path, and the help of all commands by the same name.
CONSOLE = "import sys\nfrom tsb.__main__ import console\nsys.exit(console())\n"
ALL_HELP = """import contextlib
from tsb.__main__ import COMMANDS, main
for it in COMMANDS:
    with contextlib.suppress(SystemExit):
        main([it, "--help"])
"""


@pytest.mark.parametrize(
    ("words", "said"),
    [
        ("", "commands: tsb-py COMMAND .."),
        ("--help", "commands: tsb-py COMMAND .."),
        ("walk", "there is no command walk; tsb-py lists them"),
        ("diff a b", "tsb-py diff: a: No such file or directory"),
        ("report --help", "\n  tsb-py report --plan-a PLAN [--plan-b PLAN"),
        ("sumo example --help", "usage: tsb-py sumo example "),
    ],
)
def test_an_installed_command_has_its_name(
    words: str, said: str, tmp_path: Path
) -> None:
    (tmp_path / "tsb-py").write_text(CONSOLE)
    told = printed(tmp_path, *words.split())
    assert said in told and "python3 -m" not in told


def test_the_help_of_all_commands_has_their_name(tmp_path: Path) -> None:
    (tmp_path / "tsb-py").write_text(ALL_HELP)
    told = printed(tmp_path)
    assert told.count("usage:") == len(COMMANDS) and "python3 -m" not in told
    assert all(f" tsb-py {it} " in told for it in COMMANDS)


def printed(folder: Path, *words: str) -> str:
    """What a script of the name prints, on either stream."""
    script = [sys.executable, "tsb-py", *words]
    done = subprocess.run(script, cwd=folder, capture_output=True, text=True)
    return done.stdout + done.stderr


@pytest.mark.parametrize(
    ("first", "name"),
    [
        (["/usr/bin/tsb-py"], "tsb-py"),
        (["/venv/tsb/__main__.py"], "python3 -m tsb"),
        (["/tmp/tsb-py/pytest"], "python3 -m tsb"),
        ([""], "python3 -m tsb"),
        ([], "python3 -m tsb"),
    ],
)
def test_names_of_commands(
    first: list[str], name: str, monkeypatch: pytest.MonkeyPatch
) -> None:
    """Also where another program imports the package, or none has a name."""
    monkeypatch.setattr(sys, "argv", first)
    assert (called(), called("report")) == (name, f"{name} report")
