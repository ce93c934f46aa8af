"""What the tests share: the words that they are called by, the program that they try, and what their tries gave."""
import argparse
import importlib.machinery
import importlib.util
import os
import pathlib
import subprocess
import sys
import tomllib
import types

TOP = pathlib.Path(__file__).resolve().parent.parent
# (the packages of python/ and tools/, for all tests)
sys.path[:0] = [str(TOP / "python"), str(TOP / "tools")]
CRATE = TOP / "crates" / "fuota"
BUILT = CRATE / "out" / "fuota"


def parser(text: str) -> argparse.ArgumentParser:
    """Reads the words of a test; `text` is what --help prints, its first line for the line of the usage."""
    return argparse.ArgumentParser(description=text, formatter_class=argparse.RawDescriptionHelpFormatter)


def add_program(words: argparse.ArgumentParser, built: pathlib.Path = BUILT) -> None:
    """A test that tries the built program takes another one as PROGRAM."""
    words.add_argument("program", nargs="?", type=pathlib.Path, metavar="PROGRAM",
                       help="the program to try; without it the one that `rt ci` or `rt run` built, and where there is "
                            "none it is proved and built")
    words.set_defaults(built=built)


def program_of(words: argparse.Namespace) -> pathlib.Path:
    """The path of the program that is to be tried."""
    return built_program(words.program, words.built)


def built_program(named: pathlib.Path | None, built: pathlib.Path) -> pathlib.Path:
    """The path of the program that is named, or of the one that was built."""
    if named:
        if not named.is_file():
            sys.exit(f"{named} is no program")
        return named.resolve()
    if built == BUILT and not BUILT.is_file():
        try:
            subprocess.run(["rt", "run", "--", "campaign", "data/image.fuim", "data/update.txt"], cwd=CRATE, check=True,
                           stdout=subprocess.DEVNULL)
        except (FileNotFoundError, subprocess.CalledProcessError) as why:
            sys.exit(f"{BUILT} is missing, and could not be built: {why}")
    if not built.is_file():
        sys.exit(f"{built} is missing: `rt ci` builds it")
    return built


def script_of(path: pathlib.Path) -> types.ModuleType:
    """A script of this repository, whose name has no ending, as a module."""
    loader = importlib.machinery.SourceFileLoader(path.name, str(path))
    spec = importlib.util.spec_from_loader(path.name, loader)
    assert spec
    module = importlib.util.module_from_spec(spec)
    sys.modules[path.name] = module
    loader.exec_module(module)
    return module


def commands_in(folder: pathlib.Path, package: pathlib.Path = TOP / "python") -> pathlib.Path:
    """Puts the commands of the Python package into a new folder, as an installation does."""
    folder.mkdir()
    for name, place in tomllib.loads((package / "pyproject.toml").read_text())["project"]["scripts"].items():
        module, function = place.split(":")
        words = f"PYTHONPATH='{package}' exec '{sys.executable}' -c 'import sys; from {module} import {function}; sys.exit({function}())'"
        (folder / name).write_text(f'#!/bin/sh\n{words} "$@"\n')
        (folder / name).chmod(0o755)
    return folder


class Tries:
    """What the tries gave so far."""

    def __init__(self) -> None:
        self.passed = 0
        self.failed = 0

    def count(self, name: str, wrong: str | None) -> None:
        """Counts a try, and says what is wrong with it, if anything is."""
        if wrong is None:
            self.passed += 1
        else:
            self.failed += 1
            print(f"{name}: {wrong}")

    def wants(self, name: str, wanted: object, got: object) -> None:
        """A try that wants a value."""
        self.count(name, None if got == wanted else f"{got!r:.400} in place of {wanted!r:.400}")

    def status(self) -> int:
        """Prints the counts, and gives the status: 0 where there was a try and none failed."""
        print(f"{self.passed} passed, {self.failed} failed")
        return 1 if self.failed or not self.passed else 0


def library_of(word: str | None, place: str | os.PathLike[str]) -> pathlib.Path:
    """The path of libfuota.so: the word's, the environment's, or one that tools/c_library makes in a folder."""
    named = word or os.environ.get("FUOTA_LIBRARY")
    if named:
        if not pathlib.Path(named).is_file():
            sys.exit(f"{named} is no library")
        return pathlib.Path(named).resolve()
    subprocess.run([TOP / "tools" / "c_library", place], check=True)
    return pathlib.Path(place) / "libfuota.so"
