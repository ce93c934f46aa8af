"""What the library takes of small processors: flash, memory, stack and instructions, beside a decoder in plain C."""
import pathlib
import re
import subprocess
from dataclasses import astuple, dataclass

from .boards import BOARDS, PARTS, Board, Kind, compiled, played
from .building import C

# Room for the heap when it is measured how much of it is taken.
ROOM = 2_000_000
# What is measured: its name, its files, whether it takes memory of the heap, and how gcc compiles them.
THINGS = (
    ("a receiver", ("proved_decoder.c",), True, "-Os"),
    ("a device", ("device_decoder.c",), True, "-Os"),
    ("plain C, `-Os`", ("plain_decoder.c",), False, "-Os"),
    ("plain C, `-O2`", ("plain_decoder.c",), False, "-O2"),
)


class Unmeasured(Exception):
    """A program could not be made, or did not end as it should."""


@dataclass(frozen=True)
class Row:
    """A thing on a processor: bytes, and instructions. `heap` is a part of `ram`, and `to_hear` of `stack`."""

    flash: int
    ram: int
    heap: int
    stack: int
    to_hear: int
    uncoded: int
    coded: int
    last: int


def measured_boards() -> list[Board]:
    return [board for board in BOARDS if board.kind is not Kind.LINUX]


def made(board: Board, program: pathlib.Path, sources: list[pathlib.Path], *flags: str) -> None:
    fault = compiled(board, program, sources, *flags)
    if fault:
        raise Unmeasured(f"{program.name} for {board.target}: {fault}")


def told(board: Board, program: pathlib.Path) -> dict[str, int]:
    """The numbers that a program prints."""
    status, text = played(board, program, [], is_counted=True)
    if status:
        raise Unmeasured(f"{program.name} on {board.target}: status {status}\n{text[-500:]}")
    return {name: int(number) for name, number in re.findall(r"^([a-z ]+) (\d+)$", text, re.M)}


def sizes(board: Board, program: pathlib.Path) -> tuple[int, int]:
    """What a program takes of flash and of memory."""
    tool = board.compiler.replace("gcc", "size")
    done = subprocess.run([tool, str(program)], stdout=subprocess.PIPE, text=True, check=True)
    text, data, bss = done.stdout.split("\n")[1].split()[:3]
    return int(text) + int(data), int(data) + int(bss)


def firmware(board: Board, program: pathlib.Path, sources: list[pathlib.Path], *flags: str) -> tuple[int, int]:
    """Makes the least firmware, and gives what it takes of flash and of memory."""
    memory = ["-nostartfiles", f"-L{PARTS}", "-T", board.memory or "virt.ld", "-Wl,--gc-sections,--no-warn-rwx-segments"]
    specs = "--specs=nosys.specs" if board.kind is Kind.CORTEX_M else "--specs=picolibc.specs"
    words = [board.compiler, "-std=c99", *board.flags, "-ffunction-sections", "-fdata-sections", f"-I{C}", *flags,
             "-o", str(program), str(PARTS / "firmware.c"), *map(str, sources), specs, *memory]
    done = subprocess.run(words, stdout=subprocess.PIPE, stderr=subprocess.STDOUT, text=True)
    if done.returncode:
        raise Unmeasured(f"{program.name} for {board.target}: {done.stdout[-500:]}")
    return sizes(board, program)


def row(board: Board, library: pathlib.Path, thing: tuple[str, tuple[str, ...], bool, str], place: pathlib.Path) -> Row:
    """Measures one thing on one processor, in a folder; the area of the heap is as long in the end as what is taken
    of it."""
    name, files, has_heap, level = thing
    sources = [PARTS / file for file in files] + ([C / "area_heap.c", library] if has_heap else [])
    program = place / re.sub(r"\W+", "_", name)
    heap = ROOM
    for _ in range(2 if has_heap else 1):
        flags = [level, f"-DFUOTA_HEAP_BYTES={heap}", f"-DPER_1000={board.ticks}", *(["-DHAS_HEAP"] if has_heap else [])]
        made(board, program, [PARTS / "measure.c", PARTS / "sender.c", *sources], *flags)
        found = told(board, program)
        heap = found.get("heap", 0)
    flash, ram = firmware(board, program, sources, level, f"-DFUOTA_HEAP_BYTES={heap}")
    stack = max(number for word, number in found.items() if word.startswith("stack"))
    return Row(flash, ram, heap, stack, found["stack of hear"], found["uncoded"], found["coded"], found["last"])


def table(rows: dict[tuple[str, str], Row]) -> str:
    """The rows as a table of the page, by processor and thing."""
    lines = ["| processor | what | flash | RAM | of it heap | stack | of it to hear | uncoded | coded | the last |",
             "|---|---|---|---|---|---|---|---|---|---|"]
    for (target, name), it in rows.items():
        cells = [f"{number:,}" if number else "" for number in astuple(it)]
        lines.append(f"| {target} | {name} | {' | '.join(cells)} |")
    return "\n".join(lines)


def rows_of(page: str) -> dict[tuple[str, str], Row]:
    """The rows that a page has."""
    found = {}
    for line in page.splitlines():
        cells = [cell.strip() for cell in line.strip("|").split("|")]
        if len(cells) == 10 and re.fullmatch(r"[\d,]+", cells[2]):
            found[cells[0], cells[1]] = Row(*(int(cell.replace(",", "") or 0) for cell in cells[2:]))
    return found
