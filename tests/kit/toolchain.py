"""The crates of the repository, and the arguments by which the toolchain checks one of them over the libraries below it."""
import dataclasses
import pathlib
import shutil

PARTS = ["src", "specs", "proofs"]


@dataclasses.dataclass(frozen=True)
class Crate:
    """A line of crates.txt. Of what it uses, `uses` has the repository's crates, and `libraries` the toolchain's."""

    name: str
    words: tuple[str, ...]
    uses: tuple[str, ...]
    libraries: tuple[str, ...]


def crates_of(root: pathlib.Path) -> dict[str, Crate]:
    """The crates that root/crates.txt lists, by their names and in its order."""
    lines = [line.partition("#")[0].strip() for line in (root / "crates.txt").read_text(encoding="utf-8").splitlines()]
    heads = {line.partition(":")[0].split()[0]: line for line in lines if line}
    found = {}
    for name, line in heads.items():
        head, _, tail = line.partition(":")
        uses = tail.split()
        own = tuple(each for each in uses if each in heads)
        found[name] = Crate(name, tuple(head.split()[1:]), own, ("std", *(each for each in uses if each not in heads)))
    return found


def below(crates: dict[str, Crate], name: str) -> list[str]:
    """The repository's crates that a crate uses, directly or not."""
    found: list[str] = []
    for used in crates[name].uses:
        found += [each for each in [used, *below(crates, used)] if each not in found]
    return found


def kit() -> pathlib.Path:
    """The toolchain's folder. FileNotFoundError where `rt` is not on the PATH."""
    command = shutil.which("rt")
    if command is None:
        raise FileNotFoundError("no toolchain: rt isn't on the PATH (docs/INSTALL.md, \"From the repository\")")
    return pathlib.Path(command).resolve().parent.parent


def library(root: pathlib.Path, name: str) -> pathlib.Path:
    """Where a crate's library is, once it is built."""
    return root / "crates" / name / "out" / "rlib" / f"{name}.rlib"


def prover(verb: str, root: pathlib.Path, crates: dict[str, Crate], name: str) -> list[str]:
    """The command that checks or builds a library whose folder is the current one, over the libraries of root/crates."""
    crate, toolchain = crates[name], kit()
    words = [str(toolchain / "bin" / "rattle"), verb, "--crate-name", name, "src/lib.rt"]
    for each in crate.libraries:
        words += ["--extern", f"{each}={toolchain}/rlibs/{each}.rlib"]
    words += ["-L", f"dependency={toolchain}/rlibs"]
    for each in crate.uses:
        words += ["--extern", f"{each}={library(root, each)}"]
    for each in below(crates, name):
        words += ["-L", f"dependency={library(root, each).parent}"]
    words += ["--antt-project", f"{toolchain}/rattle/logic/antt-project.json", "--logic-built", f"{toolchain}/logic_built"]
    words += ["--links", f"{name}=", *(["--crate-type", "staticlib"] if "staticlib" in crate.words else [])]
    return words
