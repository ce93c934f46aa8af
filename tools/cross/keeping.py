"""The static libraries for C, proved and built, and the LLVM module of each, which is kept.

`rt lib` proves the libraries that they stand on; or `rt ci` did just before, and left them in crates/NAME/out. Over these
`rattle build`, as `rt lib` calls it too, proves a static library, lowers it to one module, module.bc, and has bin/clang of a
toolchain folder compile that. The folder is made here: links to all that is in the kit's, but in the place of clang a script
that copies the module and then calls the real one.
"""
import contextlib
import fcntl
import hashlib
import os
import pathlib
import subprocess
import sys
import tempfile
from collections.abc import Iterator

from .targets import TARGETS

CRATES = pathlib.Path(__file__).resolve().parent.parent.parent / "crates"
# The crates of the library for C, and with the program as a call, which the libraries for microcontrollers leave out.
NAMES = ("fuota_c", "fuota_server_c")
ALL = (*NAMES, "fuota_run_c")
# The processor whose modules are kept.
HERE = "x86_64"
# Where rt leaves a library, the file that a whole one has, and what says that another command than `rt ci` built it.
LEFT, WHOLE, STAMP = "out/rlib/{name}.rlib", "format", "out/rlib/stamp"
MODULE = "module.bc"
CLANG = """#!/bin/sh
if [ -f {module} ]; then cp -f {module} '{kept}' || exit 1; fi
exec '{clang}' "$@"
"""


def run(*words: str, cwd: pathlib.Path) -> str:
    done = subprocess.run(words, cwd=cwd, stdout=subprocess.PIPE, stderr=subprocess.STDOUT, text=True)
    if done.returncode:
        sys.exit(f"{words[0]} {words[1]} in {cwd}: status {done.returncode}\n{done.stdout[-2000:]}")
    return done.stdout


def kit() -> pathlib.Path:
    """The folder of the toolchain, in which the page that `rt doc` names lies."""
    done = subprocess.run(["rt", "doc"], stdout=subprocess.PIPE, text=True, check=True)
    return pathlib.Path(done.stdout.strip()).parent


def link_all(source: pathlib.Path, to: pathlib.Path, but: str) -> None:
    """Makes a folder of links to what is in another one, but for a name."""
    to.mkdir()
    for path in source.iterdir():
        if path.name != but:
            (to / path.name).symlink_to(path)


def toolchain(place: pathlib.Path, module: pathlib.Path) -> pathlib.Path:
    """Makes a folder as the kit's toolchain, which leaves the module that it compiles at a place."""
    real, ours = kit() / "toolchain", place / "toolchain"
    link_all(real, ours, but="bin")
    link_all(real / "bin", ours / "bin", but="clang")
    clang = ours / "bin" / "clang"
    clang.write_text(CLANG.format(module=MODULE, kept=module, clang=real / "bin" / "clang"))
    clang.chmod(0o755)
    return ours


# ---- The libraries below


def listed() -> dict[str, list[str]]:
    """The crates of crates.txt, and the libraries that each names, the kit's too."""
    lines = [line.partition("#")[0].partition(":") for line in (CRATES.parent / "crates.txt").read_text().splitlines()]
    return {head.split()[0]: names.split() for head, _, names in lines if head.strip()}


def below(name: str) -> list[str]:
    """The repository's libraries below a crate."""
    names, found, left = listed(), [], [name]
    while left:
        new = [it for it in names[left.pop()] if it in names and it not in found]
        found += new
        left += new
    return found


def library(name: str) -> pathlib.Path:
    return CRATES / name / LEFT.format(name=name)


def is_left(name: str) -> bool:
    """Whether a whole `rt ci` left the library of a crate, and none of its files was touched since."""
    crate, made = CRATES / name, library(name)
    if not (made / WHOLE).is_file() or (crate / STAMP).exists():
        return False
    files = [path for part in ("src", "specs", "proofs") for path in [crate / part, *(crate / part).rglob("*")] if path.exists()]
    files += [CRATES.parent / "crates.txt", CRATES.parent / "HANDLES"]
    return max(path.stat().st_ctime for path in files) < made.stat().st_mtime


def prove_below(name: str, is_after_ci: bool) -> None:
    """Proves and builds the libraries below a crate where none is built of what they are now; after `rt ci` they are there."""
    if is_after_ci:
        lacking = [it for it in below(name) if not is_left(it)]
        if not lacking:
            return
        print(f"rt ci left no library of {lacking[0]} as it is now, so rt lib proves what {name} stands on", file=sys.stderr)
    direct = [it for it in listed()[name] if it in listed()]
    for it in direct:
        if not any(it in below(other) for other in direct):
            run("rt", "lib", cwd=CRATES / it)


# ---- The static libraries


@contextlib.contextmanager
def alone_in(names: list[str]) -> Iterator[None]:
    """Waits until no rt works in the folders of these crates, and keeps others out."""
    with contextlib.ExitStack() as held:
        for name in sorted(names):
            folder = os.open(CRATES / name, os.O_RDONLY)
            held.callback(os.close, folder)
            fcntl.flock(folder, fcntl.LOCK_EX)
        yield


def built(name: str, target: str = HERE, is_after_ci: bool = False) -> pathlib.Path:
    """Proves a static library and builds it for a target of the toolchain's: gives its archive. Of that for x86-64 the module is
    kept."""
    crate, made = CRATES / name, CRATES / name / "out" / f"lib{name}.a"
    module, said = kept(name)
    sum_before = sum_of(CRATES)
    prove_below(name, is_after_ci)
    with tempfile.TemporaryDirectory() as place, alone_in([name, *below(name)]):
        made.parent.mkdir(exist_ok=True)
        if target == HERE:
            said.unlink(missing_ok=True)
            module.unlink(missing_ok=True)
        by = toolchain(pathlib.Path(place), module) if target == HERE else kit() / "toolchain"
        run(*words_of(name, target), "--toolchain", str(by), "-o", str(made), cwd=crate)
    if target == HERE:
        if not module.is_file():
            sys.exit(f"rattle build in {crate} left no {MODULE}: this toolchain compiles in another way")
        said.write_text(sum_before)
    return made


def words_of(name: str, target: str) -> list[str]:
    """The words by which rattle proves and builds a static library over the libraries below it."""
    real, names = kit(), listed()
    words = [str(real / "bin" / "rattle"), "build", "src/lib.rt", "--crate-name", name, "--crate-type", "staticlib", "--backend", "llvm"]
    for it in ("std", *names[name]):
        words += ["--extern", f"{it}={library(it) if it in names else real / 'rlibs' / f'{it}.rlib'}"]
    for folder in (real / "rlibs", *(library(it).parent for it in below(name))):
        words += ["-L", f"dependency={folder}"]
    words += ["--antt-project", str(real / "rattle" / "logic" / "antt-project.json"), "--logic-built", str(real / "logic_built")]
    # (that it declares no function of C is checked too)
    words += ["--links", f"{name}=", "--target", TARGETS[target].triple, "--incremental", "out/incremental"]
    return [*words, "--jobs", str(min(2, len(os.sched_getaffinity(0))))]


def sum_of(crates: pathlib.Path) -> str:
    """A sum of all that a module of these crates comes from: their texts, what says how they are built, and which kit
    this is."""
    told = hashlib.sha256((kit() / "KIT-ID").read_bytes())
    files = [path for folder in ("src", "specs", "proofs") for path in crates.glob(f"*/{folder}/**/*") if path.is_file()]
    for path in sorted([*files, crates.parent / "crates.txt", crates.parent / "HANDLES"]):
        told.update(f"{path.relative_to(crates.parent)} {path.stat().st_size}\n".encode())
        told.update(path.read_bytes())
    return told.hexdigest()


def kept(name: str) -> tuple[pathlib.Path, pathlib.Path]:
    """Where the module of a crate is kept, and the sum of what it comes from."""
    out = CRATES / name / "out"
    return out / f"{name}.bc", out / f"{name}.bc.sum"


def is_kept(name: str) -> bool:
    """Whether the module of a crate is kept, and of what is there now."""
    module, said = kept(name)
    return module.is_file() and said.is_file() and said.read_text() == sum_of(CRATES)


def modules(names: tuple[str, ...] = NAMES, is_after_ci: bool = False) -> list[pathlib.Path]:
    """The modules of these crates, which are proved where none is kept of what they are now."""
    for name in names:
        if not is_kept(name):
            built(name, is_after_ci=is_after_ci)
    return [kept(name)[0] for name in names]
