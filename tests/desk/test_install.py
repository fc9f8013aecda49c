"""make install and pip: what they put in place, and the commands as a person finds them there."""

import os
import re
import shutil
import subprocess
import sys
from pathlib import Path

import pytest

import braildesk
from tool import ROOT, Ran


UEB = ROOT / "src" / "braildesk" / "tables" / "ueb.utb"


def make(target: str, program: str, prefix: Path, stage: Path, umask: int = -1) -> None:
    """Runs make with the program as it is, for a folder that is filled below another one."""
    words = [f"PREFIX={prefix}", f"DESTDIR={stage}", f"PROGRAM={program}"]
    environment = {key: it for key, it in os.environ.items() if key[:4] != "MAKE"}
    subprocess.run(
        ["make", "--silent", f"--old-file={program}", target, *words],
        cwd=ROOT,
        env=environment,
        umask=umask,
        check=True,
    )


def files(folder: Path) -> list[str]:
    """The files below a folder."""
    return sorted(
        str(path.relative_to(folder)) for path in folder.rglob("*") if path.is_file()
    )


@pytest.fixture(scope="module")
def prefix(program: str, tmp_path_factory: pytest.TempPathFactory) -> Path:
    """A folder with what is installed: filled elsewhere, and moved to its place as packages are."""
    folder = tmp_path_factory.mktemp("installed")
    prefix, stage = folder / "usr", folder / "stage"
    make("install", program, prefix, stage, umask=0o077)
    assert not prefix.exists()
    shutil.move(f"{stage}{prefix}", prefix)
    return prefix


def scribe(prefix: Path, folder: Path, *words: str) -> Ran:
    """Runs scribe as it is installed, by nothing but its name and the path."""
    path = f"{prefix / 'bin'}:{os.environ['PATH']}"
    ran = subprocess.run(
        ["scribe", *words],
        cwd=folder,
        env={"PATH": path, "LC_ALL": "C.UTF-8"},
        capture_output=True,
        encoding="utf-8",
    )
    return Ran(ran.returncode, ran.stdout, ran.stderr)


def test_programs_tables_and_manual_pages_are_put_in_place(prefix: Path) -> None:
    found = files(prefix)
    assert {
        "bin/braildesk",
        "bin/scribe",
        "share/bash-completion/completions/scribe",
        "share/braildesk/python/scribe/__main__.py",
        "share/braildesk/python/braildesk/tables/ueb.utb",
        "share/man/man1/braildesk.1",
    } <= {*found}


def test_each_module_is_compiled(prefix: Path) -> None:
    modules = [path for path in files(prefix / "share") if path.endswith(".py")]
    compiled = [path for path in files(prefix / "share") if path.endswith(".pyc")]
    of_packages = [path for path in modules if "/python/" in path]
    assert sorted(
        re.sub(r"/__pycache__/(\w+)\.cpython-\d+\.pyc$", r"/\1.py", path)
        for path in compiled
    ) == sorted(of_packages)


def test_others_may_read_all_that_a_person_installs_for_whom_new_files_are_private(
    prefix: Path,
) -> None:
    for path in prefix.rglob("*"):
        wanted = 0o555 if path.is_dir() else 0o444
        assert path.stat().st_mode & wanted == wanted, path


def test_the_table_ueb_is_found_by_its_name(prefix: Path, tmp_path: Path) -> None:
    assert scribe(prefix, tmp_path, "new", "sea.braildesk") == Ran(
        0, "sea.braildesk is a new book with the table ueb.\n", ""
    )
    assert scribe(prefix, tmp_path, "table", "sea.braildesk", "ueb") == Ran(
        0,
        "Table ueb is in the book. No paragraph has it yet.\nThe book is at version 2.\n",
        "",
    )
    (table,) = braildesk.read_tables(tmp_path / "sea.braildesk")
    assert table.text == UEB.read_bytes()


def test_a_text_becomes_pages(prefix: Path, tmp_path: Path) -> None:
    (tmp_path / "sea.txt").write_text("“Élan” costs £5 – or €6…\n", encoding="utf-8")
    scribe(prefix, tmp_path, "new", "sea.braildesk")
    assert scribe(prefix, tmp_path, "import", "sea.braildesk", "sea.txt") == Ran(
        0, "1 paragraph typed, number 1, by the table ueb.\n", ""
    )
    assert scribe(prefix, tmp_path, "export", "sea.braildesk", "pages").status == 0
    page = (tmp_path / "pages" / "sea-1.brf").read_bytes()
    assert page.startswith(b"  8,^/ELAN0 COSTS @L#E ,- OR @E#F444\r\n")


@pytest.mark.parametrize("place", ["installed", "checkout"])
def test_no_module_is_taken_from_the_folder_that_somebody_is_in(
    place: str, prefix: Path, program: str, tmp_path: Path
) -> None:
    command = prefix / "bin" / "scribe" if place == "installed" else ROOT / "bin/scribe"
    for module in ("argparse", "json", "readline", "scribe", "braildesk", "louis"):
        strange = tmp_path / f"{module}.py"
        strange.write_text("raise SystemExit('taken from here')\n", encoding="utf-8")
    for count, path in enumerate((":", ".", str(tmp_path))):
        ran = subprocess.run(
            [command, "new", f"{count}.braildesk"],
            cwd=tmp_path,
            env={
                "PATH": os.environ["PATH"],
                "PYTHONPATH": path,
                "PYTHONSTARTUP": "json.py",
                "BRAILDESK": program,
            },
            capture_output=True,
            encoding="utf-8",
        )
        assert (ran.returncode, ran.stderr) == (0, "")
    assert not (tmp_path / "__pycache__").exists()


def test_uninstall_takes_all_of_it_away(program: str, tmp_path: Path) -> None:
    prefix, stage = Path("/usr"), tmp_path / "stage"
    make("install", program, prefix, stage)
    assert files(stage)
    make("uninstall", program, prefix, stage)
    assert files(stage) == []


@pytest.fixture(scope="module")
def environment_of_pip(tmp_path_factory: pytest.TempPathFactory) -> Path:
    """A virtual environment in which pip installed the checkout, of which it made a copy."""
    folder = tmp_path_factory.mktemp("pip")
    checkout, environment = folder / "checkout", folder / "environment"
    checkout.mkdir()
    for name in ("pyproject.toml", "README.md"):
        shutil.copy(ROOT / name, checkout)
    shutil.copytree(
        ROOT / "src", checkout / "src", ignore=shutil.ignore_patterns("*.pyc")
    )
    venv = [sys.executable, "-m", "venv", "--without-pip", "--system-site-packages"]
    subprocess.run([*venv, environment], check=True)
    python = environment / "bin" / "python3"
    words = [
        "--quiet",
        "--no-deps",
        "--no-build-isolation",
        "--no-index",
        str(checkout),
    ]
    subprocess.run(
        [python, "-m", "pip", "install", *words],
        env={"PATH": os.environ["PATH"], "PIP_DISABLE_PIP_VERSION_CHECK": "1"},
        check=True,
    )
    return environment


def test_pip_installs_both_packages_with_their_files_and_the_command(
    environment_of_pip: Path, program: str, tmp_path: Path
) -> None:
    binaries = environment_of_pip / "bin"
    bare = {"PATH": "/usr/bin:/bin", "BRAILDESK": program, "LC_ALL": "C.UTF-8"}

    def ran(*words: str | Path) -> str:
        done = subprocess.run(words, cwd=tmp_path, env=bare, capture_output=True)
        assert (done.returncode, done.stderr) == (0, b"")
        return done.stdout.decode()

    show = "import braildesk; print(braildesk.__file__, braildesk.__version__)"
    path, version = ran(binaries / "python3", "-c", show).split()
    assert Path(path).is_relative_to(environment_of_pip)
    assert version == braildesk.__version__ != "unknown"
    assert ran(binaries / "scribe", "--version") == f"scribe {version}\n"
    assert ran(binaries / "scribe", "new", "sea.braildesk") == (
        "sea.braildesk is a new book with the table ueb.\n"
    )
    (table,) = braildesk.read_tables(tmp_path / "sea.braildesk")
    assert table.text == UEB.read_bytes()
    kinds = (
        "from importlib.resources import files; import braildesk.tables.convert as c"
    )
    read = f"{kinds}; print((files(c) / 'measured.tsv').is_file())"
    assert ran(binaries / "python3", "-c", read) == "True\n"


def test_a_folder_beside_the_command_is_not_taken_for_the_program(
    tmp_path: Path,
) -> None:
    (tmp_path / "bin" / "braildesk").mkdir(parents=True)
    (tmp_path / "src").symlink_to(ROOT / "src")
    command = shutil.copy(ROOT / "bin" / "scribe", tmp_path / "bin")
    done = subprocess.run(
        [sys.executable, "-I", command, "show", "none.braildesk"],
        cwd=tmp_path,
        env={"PATH": os.environ["PATH"], "LC_ALL": "C.UTF-8"},
        capture_output=True,
    )
    assert done.returncode != 0 and b"BRAILDESK names" not in done.stderr
