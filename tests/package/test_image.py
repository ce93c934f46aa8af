"""Image files, made by fuota-image, held against what the program fuota says of them.

Each goes to devices of hardware versions inside and outside of its range, with format 1 alone and with both: what the report
says of them, and what `recover` writes, must be as the command's words say.
"""
import subprocess

import pytest

from common import CRATE, TOP
from fuota import image
from fuota.errors import Wrong

FRAG_SIZE = 239
MAX_IMAGE = 262_144
LAST = 2**32 - 1
# The SHA-256 of the text abc, an example of the standard (FIPS 180-4), and that of no bytes.
ABC = "ba7816bf8f01cfea414140de5dae2223b00361a396177a9cb410ff61f20015ad"
NOTHING = "e3b0c44298fc1c149afbf4c8996fb92427ae41e4649b934ca495991b7852b855"
# Images that are made: body, format asked for or None, lowest, highest, firmware, format wanted.
IMAGES = [
    (b"abc", None, 1, 1, 2, 1),
    (b"abc", 1, 7, 7, 1, 1),
    (b"abc", 2, 7, 7, 1, 2),
    (b"abc", None, 1, 3, 2, 2),
    (b"abc", 2, 0, LAST, LAST, 2),
    (b"", None, 0, 0, LAST, 1),
    (b"", None, 0, 1, 256, 2),
    (b"", 1, LAST, LAST, 65536, 1),
    (bytes(range(256)) * 8, None, 255, 256, 16777216, 2),
    (b"\x01" * (MAX_IMAGE - 49), None, 1, 1, 9, 1),
    (b"\x02" * (MAX_IMAGE - 53), None, 1, 2, 9, 2),
]
BYTES = [
    ((b"abc", None, 1, 1, 2), "4655494d 01 01000000 02000000 03000000" + ABC + "616263"),
    ((b"abc", None, 1, 3, 2), "4655494d 02 01000000 03000000 02000000 03000000" + ABC + "616263"),
    ((b"", 2, 258, 258, 16909060), "4655494d 02 02010000 02010000 04030201 00000000" + NOTHING),
]
# Words that make no image: body, format asked for or None, versions, what the message says.
REFUSALS = [
    (b"abc", None, [1, 1, 0], "firmware version 0"),
    (b"abc", 2, [1, 1, 0], "firmware version 0"),
    (b"abc", None, [2, 1, 1], "above the highest"),
    (b"abc", 2, [2, 1, 1], "above the highest"),
    (b"abc", 1, [1, 2, 1], "one hardware version"),
    (b"abc", 0, [1, 1, 1], "--format: invalid choice: 0"),
    (b"abc", 3, [1, 1, 1], "--format: invalid choice: 3"),
    (b"abc", None, [LAST + 1, LAST + 1, 1], "LOWEST: not a decimal from 0 to 4294967295"),
    (b"abc", None, [1, LAST + 1, 1], "HIGHEST: not a decimal from 0 to 4294967295"),
    (b"abc", None, [1, 1, LAST + 1], "FIRMWARE: not a decimal from 0 to 4294967295"),
    (b"abc", None, [1, 1, "9" * 5000], "FIRMWARE: not a decimal from 0 to 4294967295"),
    *((b"abc", None, [word, 1, 1], "LOWEST: not a decimal from 0 to 4294967295")
      for word in ("-1", "+1", "01", "", "0x1", "1.0", "1_0", " 1", "1\n", "\u0661")),
    (b"abc", None, [1, 1], "usage"),
    (b"abc", None, [1, 1, 1, 1], "usage"),
    (b"a" * (MAX_IMAGE - 48), None, [1, 1, 1], "more than 262095 bytes"),
    (b"a" * (MAX_IMAGE - 52), None, [1, 2, 1], "more than 262091 bytes"),
    (b"a" * (MAX_IMAGE - 52), 2, [1, 1, 1], "more than 262091 bytes"),
    (b"a" * (MAX_IMAGE + 1000), None, [1, 1, 1], "more than 262095 bytes"),
]


@pytest.fixture
def make(call, tmp_path):
    """Makes an image, `asked` being the format or None: status, image or None, message."""
    def make(body, asked, *versions):
        (tmp_path / "body").write_bytes(body)
        option = [] if asked is None else ["--format", asked]
        done = call("fuota-image", *option, "body", *versions, "image")
        made = tmp_path / "image"
        return done.status, made.read_bytes() if made.is_file() else None, done.message
    return make


@pytest.fixture
def run(program, tmp_path):
    """What the program writes of the image that was made."""
    def run(form, script, *words):
        (tmp_path / "script").write_text("".join(line + "\n" for line in script))
        return subprocess.run([program, form, "image", "script", *words], cwd=tmp_path, capture_output=True, timeout=120).stdout
    return run


def first_lines(hardware, knows):
    """The lines up to the uplink that tells the hardware version; `knows` is empty, or ` v1`."""
    device = f"device 1 c {hardware} 0 0 {'0' * 32}{knows}"
    return ["fuota 1", f"image {FRAG_SIZE} 0", device, "ask 1", "down 1 1", "up 1"]


def heard(hardware, knows, pieces):
    """The lines up to the last fragment."""
    setup = ["ask 1", "down 2 1", "up 2"]
    return [*first_lines(hardware, knows), *setup, *["frag"] * pieces, *(f"down {3 + k} 1" for k in range(pieces))]


def updated(hardware, knows, pieces):
    """The lines of a whole update."""
    lines = heard(hardware, knows, pieces)
    for turn in range(4):
        lines += ["ask 1", f"down {3 + pieces + turn} 1", f"up {3 + turn}"]
    return lines


def told(run, script):
    """What the report of a campaign of one device says of it, without its counts."""
    lines = run("campaign", [*script, "end"]).decode().split("\n")
    return [line for line in lines if line.startswith(("device", "session"))]


def hears(run, made, hardware, firmware, migrates, knows):
    """An image on a device that it is for."""
    pieces = -(-len(made) // FRAG_SIZE)
    done = f"session 0 received {pieces} missing 0 complete at {9 + 2 * pieces} same"
    clock = "clock 0 token 0"
    assert run("recover", [*heard(hardware, knows, pieces), "end"], "1") == made
    following = f"device 1 status {clock} running 0 next"
    if migrates:
        assert told(run, heard(hardware, knows, pieces)) == [f"{following} corrupt", done]
        assert told(run, [*heard(hardware, knows, pieces), "migrate 1"]) == [f"{following} valid {firmware}", done]
    else:
        assert told(run, heard(hardware, knows, pieces)) == [f"{following} valid {firmware}", done]
        assert told(run, updated(hardware, knows, pieces)) == [f"device 1 updated {clock} running {firmware} next none", done]


@pytest.mark.parametrize("body, asked, lowest, highest, firmware, layout", IMAGES)
def test_images(make, run, body, asked, lowest, highest, firmware, layout):
    status, made, message = make(body, asked, lowest, highest, firmware)
    assert (status, message, made and made[4]) == (0, "", layout)
    assert made[49 if layout == 1 else 53:] == body
    for hardware in sorted({lowest, highest, (lowest + highest) // 2}):
        hears(run, made, hardware, firmware, False, "")
    hears(run, made, lowest, firmware, layout == 2, " v1")
    for hardware in [lowest - 1] * (lowest > 0) + [highest + 1] * (highest < LAST):
        assert told(run, first_lines(hardware, "")) == ["device 1 refused version 1 clock 0 token 0 running 0 next none"]
    assert image.read(made) == image.Image(made, firmware, lowest, highest)


@pytest.mark.parametrize("words, wanted", BYTES)
def test_bytes(make, words, wanted):
    assert make(*words) == (0, bytes.fromhex(wanted), "")


def test_sample(make):
    assert make(b"abc", 1, 1, 1, 2)[1] == (CRATE / "data" / "image.fuim").read_bytes()


@pytest.mark.parametrize("body, asked, versions, wanted", REFUSALS)
def test_refusals(make, body, asked, versions, wanted):
    status, made, message = make(body, asked, *versions)
    assert (status, made) == (2, None)
    assert "fuota-image: " in message and wanted in message


@pytest.mark.parametrize("words", [["absent", 1, 1, 1, "image"], ["body", 1, 1, 1, "absent/image"]])
def test_files(call, tmp_path, words):
    (tmp_path / "body").write_bytes(b"abc")
    done = call("fuota-image", *words)
    assert done.status == 1
    assert done.message == f"fuota-image: {words[0] if words[0] == 'absent' else words[-1]}: No such file or directory\n"


@pytest.mark.parametrize("launcher, command", [("make_image", "fuota-image"), ("plan_campaign", "fuota-plan"),
                                               ("capture_from_lns", "fuota-capture"), ("run_campaign", "fuota-campaign")])
def test_launchers(call, tmp_path, launcher, command):
    """The launchers of tools are the commands; each says what it does, its version and its statuses."""
    def run(*words):
        return subprocess.run([TOP / "tools" / launcher, *words], cwd=tmp_path, capture_output=True, text=True)
    done = run("--help")
    assert (done.returncode, done.stderr) == (0, "") and done.stdout == call(command, "--help").said
    assert f"usage: {command} " in done.stdout and "The status is 0 where" in done.stdout
    assert run("--version").stdout == "fuota 0.1.0\n"


@pytest.mark.parametrize("change", [lambda d: d[:-1], lambda d: d + b"\0", lambda d: b"X" + d[1:], lambda d: d[:4] + b"\3" + d[5:],
                                    lambda d: d[:9] + bytes(4) + d[13:], lambda d: d[:-1] + b"d", lambda d: d[:48], lambda d: b"FUIM"])
def test_no_images(change):
    """What is not an image is not read as one."""
    made = image.make(b"abc", 1, 1, 2).data
    with pytest.raises(Wrong, match="not an image file"):
        image.read(change(made))
