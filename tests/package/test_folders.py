"""Files and folders that are not as they should be: each is refused with a sentence, and none is waited for."""
import os
import stat

import pytest

from fuota import fields, image
from fuota.campaign import mqtt, progress
from fuota.campaign.folder import Folder
from fuota.campaign.plan import read_plan
from fuota.errors import Wrong
from fuota.lns import ChirpStack
from lives import laid_out


def token_of(path):
    ChirpStack(host="h", application="a", token_file=path).prepare()


READERS = {"plan": read_plan, "image": image.load, "token": token_of, "access": mqtt.access_of, "journal": lambda path: progress.Kept(path.parent)}
STRANGERS = {"a pipe": os.mkfifo, "a folder": os.mkdir, "a device": lambda path: path.symlink_to("/dev/zero")}


@pytest.mark.parametrize("kind", STRANGERS)
@pytest.mark.parametrize("name", READERS)
def test_no_file(tmp_path, name, kind):
    """What is read whole has to be a file."""
    STRANGERS[kind](tmp_path / name)
    with pytest.raises(Wrong, match=f"{name}: not a regular file$"):
        READERS[name](tmp_path / name)


def made(path):
    """A folder of a campaign in which a state was kept."""
    folder = Folder(path)
    folder.keep(b"one")
    folder.journal.write({"t": 1})
    folder.close()
    return path


def test_modes(tmp_path):
    """All in it is the user's alone, whatever others' files are."""
    before = os.umask(0)
    try:
        path = made(tmp_path / "campaign")
    finally:
        os.umask(before)
    assert {one.name: stat.S_IMODE(one.stat().st_mode) for one in (path, *path.iterdir())} == {
        "campaign": 0o700, "state": 0o600, "journal": 0o600, "lock": 0o600}


@pytest.mark.parametrize("name", ["state", "journal", "lock", "state.new", "more"])
@pytest.mark.parametrize("kind", ["a pipe", "a folder", "a link", "a broken link"])
def test_strange_things_in_it(tmp_path, name, kind):
    path = made(tmp_path / "campaign")
    (path / name).unlink(missing_ok=True)
    (tmp_path / "else").write_bytes(b"one")
    {"a pipe": os.mkfifo, "a folder": os.mkdir, "a link": lambda one: one.symlink_to("../else"),
     "a broken link": lambda one: one.symlink_to("../nowhere")}[kind](path / name)
    with pytest.raises(Wrong, match=f"campaign/{name}: not a regular file, and no other belongs there"):
        Folder(path)
    assert (tmp_path / "else").read_bytes() == b"one" and not (tmp_path / "nowhere").exists()


@pytest.mark.parametrize("name, mode", [("", 0o770), ("", 0o777), ("", 0o702), ("state", 0o620), ("journal", 0o602), ("lock", 0o666)])
def test_rights_of_others(tmp_path, name, mode):
    path = made(tmp_path / "campaign")
    (path / name).chmod(mode)
    with pytest.raises(Wrong, match=f"campaign{'/' * bool(name)}{name}: others may write to it .mode {mode:04o}.: chmod go-w "):
        Folder(path)


@pytest.mark.parametrize("name", ["", "state"])
def test_another_owner(tmp_path, monkeypatch, name):
    path = made(tmp_path / "campaign")
    if os.geteuid() == 0:
        os.chown(path / name, 1, 1)
    else:
        monkeypatch.setattr(os, "geteuid", lambda: -1)
    with pytest.raises(Wrong, match="campaign.*: it belongs to another user"):
        Folder(path)


def test_readers_are_let_in(tmp_path):
    """That others may read it is the operator's choice: there is no key in it."""
    path = made(tmp_path / "campaign")
    path.chmod(0o755)
    (path / "state").chmod(0o644)
    Folder(path).close()


def test_a_refused_folder(call, tmp_path, library):
    """The command says so, and leaves it as it is."""
    path = made(laid_out(tmp_path) / "campaign")
    path.chmod(0o777)
    for name in ("state", "journal"):
        (path / name).unlink()
    done = call("fuota-campaign", "rehearse", "plan.toml", "campaign", "--library", library)
    assert (done.status, done.message) == (2, "fuota-campaign: campaign: others may write to it (mode 0777): chmod go-w campaign\n")


@pytest.mark.parametrize("text, said", [('password = 1234567', "password: not a text"), ('password = ["secret"]', "password: not a text")])
def test_no_password_is_shown(tmp_path, text, said):
    path = tmp_path / "access.toml"
    path.write_text(text)
    path.chmod(0o600)
    with pytest.raises(Wrong) as why:
        mqtt.access_of(path)
    assert str(why.value) == f"{path}: {said}"


def test_no_key_is_shown():
    with pytest.raises(ValueError, match="^not a text$"):
        fields.digits(32)(10 ** 31)
