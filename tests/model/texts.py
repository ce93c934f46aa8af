"""Commands as text: the name, and a word `field=value` for each field (docs/FORMATS.md, texts of commands).

Numbers are decimal and truth values 0 or 1, unless the table below asks for another form.
"""
from typing import Any

from .commands import Command

# name: the fields in the order of the text, each with its form where that is not a decimal
FIELDS = {
    "PackageVersionReq": "",
    "PackageVersionAns": "id version",
    "McGroupStatusReq": "mask",
    "McGroupStatusAns": "total mask groups:groups",
    "McGroupSetupReq": "id addr:address key:bytes min max",
    "McGroupSetupAns": "id error",
    "McGroupDeleteReq": "id",
    "McGroupDeleteAns": "id undefined",
    "McClassCSessionReq": "id time timeout freq dr",
    "McClassCSessionAns": "id errors:bits start:absent",
    "McClassBSessionReq": "id time periodicity timeout freq dr",
    "McClassBSessionAns": "id errors:bits start:absent",
    "FragSessionStatusReq": "index all",
    "FragSessionStatusAns": "index received missing norows",
    "FragSessionSetupReq": "index mask nbfrag fragsize algo delay padding descriptor:address",
    "FragSessionSetupAns": "index bits",
    "FragSessionDeleteReq": "index",
    "FragSessionDeleteAns": "index missing",
    "DataFragment": "index n bytes:bytes",
    "AppTimeReq": "time required token",
    "AppTimeAns": "correction token",
    "DeviceAppTimePeriodicityReq": "period",
    "DeviceAppTimePeriodicityAns": "unsupported time",
    "ForceDeviceResyncReq": "count",
    "DevVersionReq": "",
    "DevVersionAns": "fw hw",
    "DevRebootTimeReq": "time",
    "DevRebootTimeAns": "time",
    "DevRebootCountdownReq": "count",
    "DevRebootCountdownAns": "count",
    "DevUpgradeImageReq": "",
    "DevUpgradeImageAns": "status next:absent",
    "DevDeleteImageReq": "version",
    "DevDeleteImageAns": "bits",
}


def groups_text(groups: tuple[tuple[int, int], ...]) -> str:
    """ID:ADDR of each, with commas between them; `-` for none."""
    return ",".join(f"{ident}:{addr:08x}" for ident, addr in groups) or "-"


def value_text(form: str, value: Any) -> str:
    """A value in one of the forms."""
    if form == "address":
        return f"{value:08x}"
    if form == "bytes":
        return bytes(value).hex()
    if form == "absent":
        return "-" if value is None else str(value)
    if form == "groups":
        return groups_text(value)
    return str(int(value))


def command_text(command: Command) -> str:
    """The text of a command. The error bits of a class session's answer are told as they stand in their byte."""
    words = [command.name]
    for entry in FIELDS[command.name].split():
        name, _, form = entry.partition(":")
        value = command[name]
        if form == "bits":
            words.append(f"bits={value << 2}")
        else:
            words.append(f"{name}={value_text(form, value)}")
    return " ".join(words)
