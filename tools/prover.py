"""How the prover is asked about a crate, over the libraries that make build or rt ci left."""

import subprocess
from pathlib import Path

TOP = Path(__file__).resolve().parent.parent
# the folders of a crate that the prover reads
PARTS = ("src", "specs", "proofs")


def crates_of_list():
    """Of each crate of crates.txt the words behind its name, and what it stands on."""
    lines = [it.split("#")[0].split(":") for it in (TOP / "crates.txt").read_text().splitlines()]
    return {it[0].split()[0]: (it[0].split()[1:], it[1].split()) for it in lines if len(it) == 2}


def below(name):
    """The crates of this repository that a crate stands on, directly or not."""
    return subprocess.run([TOP / "tools" / "below", name], capture_output=True, text=True, check=True).stdout.split()[:-1]


def library(name):
    return TOP / "crates" / name / "out" / "rlib" / f"{name}.rlib"


def words_of(name):
    """The words of a check of the crate, as rt makes them."""
    kit = Path(subprocess.run(["rt", "doc"], capture_output=True, text=True, check=True).stdout.strip()).parent
    crates = crates_of_list()
    kinds, uses = crates[name]
    root = "src/main.rt" if (TOP / "crates" / name / "src" / "main.rt").is_file() else "src/lib.rt"
    words = [kit / "bin" / "rattle", "check", "--crate-name", name, root]
    for it in ["std", *uses]:
        words += ["--extern", f"{it}={library(it) if it in crates else kit / 'rlibs' / f'{it}.rlib'}"]
    for folder in [kit / "rlibs", *(library(it).parent for it in below(name))]:
        words += ["-L", f"dependency={folder}"]
    words += ["--antt-project", kit / "rattle" / "logic" / "antt-project.json", "--logic-built", kit / "logic_built"]
    words += ["--jobs", "1", "--links", f"{name}="]
    return words + (["--crate-type", "staticlib"] if "staticlib" in kinds else [])
