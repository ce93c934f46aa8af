"""The programs of C that run in more places than one, the words that they take, and what they print."""
import pathlib
import shutil
import subprocess

from common import TOP
from cross.boards import PARTS, STRICT
from cross.building import C

SMALL_IMAGE = TOP / "crates" / "fuota" / "data" / "image.fuim"
COMPLETE = "received 1 missing 2\nreceived 2 missing 1\nreceived 3 missing 0\ncomplete at 3: 11 22 33 44 55\n"
SENDER = PARTS / "sender.c"
# Random devices.
DEVICES = [PARTS / "devices.c", SENDER]
# (words are files of the folder that `put_files` has prepared)
PROGRAMS: list[tuple[str, list[str], str]] = [
    ("answers.c", ["small"], ""),
    ("receive.c", [], COMPLETE),
    ("outlasts.c", ["kept"], "uplink of 2 bytes on port 201\nreceived 0 missing 3\n" + COMPLETE),
    # 64 pieces of 48 bytes and 64 coded fragments, of which each third is lost
    ("campaign.c", ["image"], "sent 128 heard 86\nthe file is as sent, 3049 bytes\nupdated, running 7\n"),
]


def put_files(place: pathlib.Path) -> None:
    """Puts the files that the programs read into a folder, and none that they leave."""
    place.mkdir(parents=True, exist_ok=True)
    (place / "kept").unlink(missing_ok=True)
    shutil.copy(SMALL_IMAGE, place / "small")
    (place / "body").write_bytes(bytes(k * k % 251 for k in range(3000)))
    subprocess.run([str(TOP / "tools" / "make_image"), str(place / "body"), "1", "1", "7", str(place / "image")], check=True)


def sessions_by(decoder: str) -> list[pathlib.Path]:
    """The files of random sessions of a decoder."""
    return [PARTS / "sessions.c", SENDER, PARTS / f"{decoder}_decoder.c"]


def printed(program: pathlib.Path, word: object, *sources: pathlib.Path) -> str:
    """What a program of these sources prints here, in its folder, called by a word."""
    subprocess.run(["cc", *STRICT, "-O2", f"-I{C}", "-o", str(program), *map(str, sources)], check=True)
    done = subprocess.run([str(program), str(word)], cwd=program.parent, stdout=subprocess.PIPE, text=True, check=True)
    return done.stdout
