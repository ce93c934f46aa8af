"""The wheel of tools/wheel, installed in a fresh environment, from a folder that is no clone."""
import os
import re
import subprocess
import sys

import pytest

import fuota
from common import TOP

pytestmark = pytest.mark.xdist_group("wheel")


@pytest.fixture(scope="module")
def installed(library, tmp_path_factory):
    """The folder of the commands, once the wheel was made and installed, and no network was asked."""
    folder = tmp_path_factory.mktemp("wheel")
    looked = subprocess.run([sys.executable, "-c", "import setuptools, wheel, pip, ensurepip"], capture_output=True, text=True)
    if looked.returncode:
        pytest.skip(looked.stderr.splitlines()[-1])
    subprocess.run([sys.executable, TOP / "tools" / "wheel", folder], check=True, env={**os.environ, "FUOTA_LIBRARY": str(library)})
    made = list(folder.iterdir())
    assert [path.name for path in made] == [f"fuota-{fuota.__version__}-py3-none-linux_x86_64.whl"]
    subprocess.run([sys.executable, "-m", "venv", folder / "fresh"], check=True)
    subprocess.run([folder / "fresh" / "bin" / "pip", "install", "--quiet", "--no-index", made[0]], check=True)
    return folder / "fresh" / "bin"


@pytest.fixture
def run(installed, tmp_path):
    """Runs an installed command in a folder of the test, without a word of the clone in its environment."""
    plain = {name: value for name, value in os.environ.items() if name not in ("FUOTA_LIBRARY", "PYTHONPATH")}
    return lambda name, *words: subprocess.run([installed / name, *words], cwd=tmp_path, env=plain, capture_output=True, text=True)


def test_version(run):
    """The header's, the package's and the library's version are one."""
    header = re.findall(r"^#define FUOTA_VERSION_\w+ (\d+)$", (TOP / "c" / "fuota.h").read_text(), re.M)
    assert fuota.__version__ == ".".join(header)
    for name in ("fuota-campaign", "fuota-plan", "fuota-image", "fuota-capture"):
        assert run(name, "--version").stdout == f"fuota {fuota.__version__}\n"
    told = run("python", "-c", "import fuota; print(fuota.Library().version(), fuota.__file__)").stdout
    assert told.startswith(f"{tuple(map(int, header))} ") and "site-packages" in told


def test_rehearsal(run, tmp_path):
    """A campaign is rehearsed from nothing, with the library of the wheel."""
    (tmp_path / "plan.toml").write_text(run("fuota-campaign", "sample").stdout)
    (tmp_path / "body").write_text("".join(f"{number}\n" for number in range(1, 1201)))
    assert run("fuota-image", "body", "1", "1", "7", "image").returncode == 0
    assert run("fuota-campaign", "check", "plan.toml").returncode == 0
    done = run("fuota-campaign", "rehearse", "plan.toml", "state", "--loss", "10")
    assert (done.returncode, done.stderr) == (0, "") and ": updated 4; fragments " in done.stdout
    assert run("fuota-campaign", "status", "state").stdout.count("  updated ") == 4


def test_types(installed):
    """It says that it has types."""
    assert list(installed.parent.glob("lib/python3*/site-packages/fuota/py.typed"))
