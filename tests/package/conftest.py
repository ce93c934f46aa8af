"""What the tests of the package share: the program and the library that are tried, and the commands as they are called."""
import contextlib
import importlib
import io
import os
import pathlib
import tempfile
import tomllib
from dataclasses import dataclass

import pytest

import common

PYTHON = common.TOP / "python"
# (for the commands that a test begins as processes)
os.environ["PYTHONPATH"] = str(PYTHON)
FILE_DEVICE = common.TOP / "crates" / "file_device" / "out" / "file_device"


def pytest_addoption(parser):
    parser.addoption("--program", type=pathlib.Path, help="the program fuota; else the one that was built")
    parser.addoption("--file-device", type=pathlib.Path, help="the program file_device; else the one that was built")
    parser.addoption("--library", type=pathlib.Path, help="libfuota.so; else FUOTA_LIBRARY names it, or tools/c_library makes it")


@pytest.fixture(scope="session")
def program(request):
    """The path of the program fuota."""
    return common.built_program(request.config.getoption("program"), common.BUILT)


@pytest.fixture(scope="session")
def file_device(request):
    """The path of the program file_device."""
    return common.built_program(request.config.getoption("file_device"), FILE_DEVICE)


@pytest.fixture(scope="session")
def library(request, tmp_path_factory):
    """The path of libfuota.so."""
    return common.library_of(request.config.getoption("library"), tmp_path_factory.mktemp("library"))


@pytest.fixture
def place():
    """A folder in memory where there is such a place: files are put in the place of others a hundred thousand times."""
    with tempfile.TemporaryDirectory(dir="/dev/shm" if os.access("/dev/shm", os.W_OK) else None) as folder:
        yield pathlib.Path(folder)


@dataclass
class Done:
    """How a command ended."""

    status: int
    said: str
    message: str


@pytest.fixture
def call(tmp_path, monkeypatch):
    """Calls a command of the package, as fuota-image, in a folder that is the test's own, without a process of its own."""
    def call(name, *words, folder=tmp_path):
        monkeypatch.chdir(folder)
        said, message = io.StringIO(), io.StringIO()
        with contextlib.redirect_stdout(said), contextlib.redirect_stderr(message):
            try:
                status = function_of(name)([*map(str, words)])
            except SystemExit as end:
                status = end.code or 0
        return Done(status, said.getvalue(), message.getvalue())
    return call


def function_of(name):
    """The function that a command is, as pyproject.toml says."""
    module, function = tomllib.loads((PYTHON / "pyproject.toml").read_text())["project"]["scripts"][name].split(":")
    return getattr(importlib.import_module(module), function)


def pytest_make_parametrize_id(val):
    """A name of a case that can be read and asked for by -k: of long bytes their number."""
    if isinstance(val, bytes):
        return f"{len(val)}_bytes"
    return f"{val!s:.40}" if isinstance(val, (str, list, tuple, dict)) else None
