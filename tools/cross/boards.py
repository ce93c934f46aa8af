"""Where programs with the library run: boards that qemu plays, Linux for other processors, and valgrind."""
import pathlib
import shutil
import subprocess
from dataclasses import dataclass
from enum import Enum

from .building import C

PARTS = C.parent / "tests" / "parts"
STRICT = ("-std=c99", "-Wall", "-Wextra", "-pedantic", "-Werror")
SECONDS = 300


class Kind(Enum):
    """What stands around a program."""

    CORTEX_M = "newlib on a board with a Cortex-M"
    RISCV = "picolibc on a board with a RISC-V of 32 bits"
    LINUX = "a program of Linux"


@dataclass(frozen=True)
class Board:
    """Where the library for a target runs. `runs` are the words of the emulator, to which those of the program come;
    `memory` is the map for the linker; `ticks` of a Cortex-M's clock go by while 1,000 instructions are played with
    -icount shift=10."""

    target: str
    kind: Kind
    compiler: str
    runs: tuple[str, ...]
    packages: str
    flags: tuple[str, ...] = ()
    memory: str = ""
    ticks: int = 25600


NEWLIB = "qemu-system-arm gcc-arm-none-eabi libnewlib-arm-none-eabi"


def cortex(target: str, machine: str, *flags: str, memory: str = "mps2.ld", ticks: int = 25600) -> Board:
    runs, own = ("qemu-system-arm", "-M", machine), (f"-mcpu={target}", "-mthumb", "-mfloat-abi=soft")
    return Board(target, Kind.CORTEX_M, "arm-none-eabi-gcc", runs, NEWLIB, (*own, *flags), memory, ticks)


BOARDS = (
    # (qemu has no board with a Cortex-M0+ and memory enough: its code runs on a Cortex-M3 that traps at each word at
    # an odd place)
    cortex("cortex-m0plus", "mps2-an385", "-DNO_UNALIGNED"),
    cortex("cortex-m3", "mps2-an385"),
    cortex("cortex-m4", "mps2-an386"),
    cortex("cortex-m33", "mps2-an505", memory="an505.ld", ticks=20480),
    Board("rv32imac", Kind.RISCV, "riscv64-unknown-elf-gcc", ("qemu-system-riscv32", "-M", "virt", "-bios", "none"),
          "qemu-system-misc gcc-riscv64-unknown-elf picolibc-riscv64-unknown-elf", ("-march=rv32imac", "-mabi=ilp32")),
    Board("riscv64", Kind.LINUX, "riscv64-linux-gnu-gcc", ("qemu-riscv64-static",), "qemu-user-static gcc-riscv64-linux-gnu",
          ("-static",)),
    Board("x86_32", Kind.LINUX, "gcc", ("valgrind", "--quiet", "--leak-check=full", "--error-exitcode=9"),
          "valgrind, a gcc with -m32 and libc6-dbg:i386", ("-m32", "-malign-double")),
)
VIRT = ("__flash=0x80000000", "__flash_size=0x400000", "__ram=0x80400000", "__ram_size=0x2000000", "__stack_size=0x10000")


EMPTY = "#include <stdio.h>\nint main(void) { return 0; }\n"


def missing(board: Board) -> str | None:
    """Why nothing can be tried on a board here; None where it can."""
    for word in (board.compiler, board.runs[0]):
        if not shutil.which(word):
            return f"{word} is not installed: {board.packages}"
    if board.target == "x86_32":
        words = [board.compiler, *board.flags, "-x", "c", "-", "-o", "/dev/null"]
        done = subprocess.run(words, input=EMPTY, text=True, capture_output=True)
        return f"{board.packages} are not installed" if done.returncode else None
    return None


def linked(board: Board) -> list[str]:
    """The words by which the compiler makes a program for a board."""
    if board.kind is Kind.CORTEX_M:
        words = [board.compiler, *board.flags, "-print-file-name=rdimon-crt0.o"]
        start = subprocess.run(words, capture_output=True, text=True).stdout.strip()
        return [str(PARTS / "startup.c"), start, "-nostartfiles", "--specs=rdimon.specs", f"-L{PARTS}", "-T", board.memory,
                "-Wl,--gc-sections,--no-warn-rwx-segments,-z,noexecstack"]
    if board.kind is Kind.RISCV:
        places = [f"-Wl,--defsym={it}" for it in VIRT]
        return ["--specs=picolibc.specs", "--oslib=semihost", "--crt0=semihost", "-Wl,--gc-sections", *places]
    return []


def compiled(board: Board, program: pathlib.Path, sources: list[pathlib.Path], *flags: str) -> str:
    """Makes a program for a board of sources and a library; what the compiler says, and nothing where all is well."""
    words = [board.compiler, *STRICT, *board.flags, "-O1", "-ffunction-sections", "-fdata-sections", f"-I{C}", *flags,
             "-o", str(program), *map(str, sources), *linked(board)]
    done = subprocess.run(words, stdout=subprocess.PIPE, stderr=subprocess.STDOUT, text=True)
    if done.returncode:
        return f"status {done.returncode}\n{done.stdout}"
    # (newlib warns that some of its functions do nothing, which nothing here calls)
    return "\n".join(line for line in done.stdout.splitlines() if "warning" in line and "is not implemented" not in line)


def played(board: Board, program: pathlib.Path, words: list[str], is_counted: bool = False) -> tuple[int, str]:
    """Runs a program in its folder: its status, and what it prints; with -icount where instructions are counted."""
    call = [*board.runs]
    if board.kind is Kind.LINUX:
        call += [str(program), *words]
    else:
        # (picolibc puts a name before these words, newlib takes the first as such)
        named = [program.name] if board.kind is Kind.CORTEX_M else []
        told = "".join(f",arg={word}" for word in [*named, *words])
        call += ["-nographic", "-monitor", "none", "-serial", "none", *(["-icount", "shift=10"] if is_counted else [])]
        call += ["-semihosting-config", f"enable=on,target=native{told}", "-kernel", str(program)]
    try:
        done = subprocess.run(call, cwd=program.parent, stdin=subprocess.DEVNULL, stdout=subprocess.PIPE,
                              stderr=subprocess.STDOUT, text=True, errors="replace", timeout=SECONDS)
    except subprocess.TimeoutExpired:
        return -1, f"no end after {SECONDS} s"
    return done.returncode, done.stdout
