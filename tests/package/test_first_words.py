"""What is said where a program is begun without what it needs: a sentence, and no traceback."""
import os
import subprocess
import sys

import pytest

from common import TOP

RECEIVE = [sys.executable, str(TOP / "python" / "receive.py")]
C_LIBRARY = [sys.executable, str(TOP / "tools" / "c_library"), "nowhere"]


@pytest.mark.parametrize("words, message", [
    (RECEIVE, "usage: python3 python/receive.py library/libfuota.so"), ([*RECEIVE, "nowhere.so"], "the library: nowhere.so: "),
    (C_LIBRARY, "rt is not on PATH: README.md says which kit has it")], ids=["no word", "no library", "no rt"])
def test_without(tmp_path, words, message):
    done = subprocess.run(words, cwd=tmp_path, env=os.environ | {"PATH": str(tmp_path)}, capture_output=True, text=True)
    assert done.returncode == 1 and done.stdout == "" and done.stderr.startswith(message) and done.stderr.count("\n") == 1
    assert not (tmp_path / "nowhere").exists()
