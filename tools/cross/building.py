"""Makes objects and archives of a translated module by the toolchain's clang, which compiles for all processors."""
import pathlib
import re
import subprocess
import sys

from . import narrow
from .keeping import kit
from .targets import FOR_SIZE, TARGETS, Target, Way

HERE = pathlib.Path(__file__).resolve().parent
C = HERE.parent.parent / "c"
# What a module of WebAssembly hands out beside the calls of the header.
HEAP = ("fuota_heap_take", "fuota_heap_give", "fuota_heap_used")
# (The toolchain's clang has no headers, so the few that c/ takes are here.)
FREE = ("-ffreestanding", "-nostdinc", "-isystem", str(HERE / "include"))
STACK, FIRST_HEAP, LONGEST_MEMORY = 524288, 65536, 2**31


def run(*words: str | pathlib.Path, by: pathlib.Path | None = None) -> str:
    """Runs a command, `by` another program under the name of the first word, and gives what it says."""
    plain = [str(word) for word in words]
    done = subprocess.run(plain, executable=by, stdout=subprocess.PIPE, stderr=subprocess.STDOUT, text=True)
    if done.returncode:
        sys.exit(f"{' '.join(plain)}: status {done.returncode}\n{done.stdout[-2000:]}")
    return done.stdout


def clang() -> pathlib.Path:
    return kit() / "toolchain" / "bin" / "clang"


def options(target: Target, level: str) -> list[str]:
    """What clang takes for a target: each function can be left out by the linker, and for size, stretches of code that stand in
    more places than one become functions."""
    outlined = ["-mllvm", "-enable-machine-outliner=always"] if target.is_outlined and level in FOR_SIZE else []
    return [f"--target={target.triple}", *target.flags, f"-O{level}", "-ffunction-sections", "-fdata-sections", *outlined]


def translated(module: pathlib.Path, name: str, level: str, place: pathlib.Path) -> pathlib.Path:
    """The object of a kept module for a target, in a folder."""
    target = TARGETS[name]
    text, to, made = (place / f"{module.stem}{end}" for end in (".x86_64.ll", ".ll", ".o"))
    run(clang(), "--target=x86_64-unknown-linux-gnu", "-x", "ir", module, "-S", "-emit-llvm", "-O0", "-Xclang",
        "-disable-llvm-passes", "-o", text)
    try:
        to.write_text(narrow.rewritten(text.read_text(), target, level))
    except narrow.Refused as fault:
        sys.exit(f"{module.stem} is not translated for {name}: no rule of tools/cross/narrow.py has the line\n{fault}")
    run(clang(), *options(target, level), "-Wno-override-module", "-c", "-x", "ir", to, "-o", made)
    return made


def compiled(source: str | pathlib.Path, name: str, level: str, place: pathlib.Path) -> pathlib.Path:
    """The object of a file, as of c/, for a target."""
    path = C / source
    made = place / f"{path.stem}.o"
    run(clang(), *options(TARGETS[name], level), *FREE, "-I", C, "-c", path, "-o", made)
    return made


def archive(modules: list[pathlib.Path], name: str, level: str, place: pathlib.Path) -> pathlib.Path:
    """libfuota.a for a target, in a folder, of the kept modules of the crates."""
    target = TARGETS[name]
    assert target.way is Way.TRANSLATED
    sources = ["pointer_bits.c", "heap.c", *(["heap_calls.c"] if target.bits == 64 else [])]
    objects = [*(translated(module, name, level, place) for module in modules),
               *(compiled(source, name, level, place) for source in sources)]
    made = place / "libfuota.a"
    made.unlink(missing_ok=True)
    run("llvm-ar", "rcs", made, *objects, by=clang())
    return made


def wasm(modules: list[pathlib.Path], name: str, level: str, place: pathlib.Path,
         calls: tuple[str, ...] | None = None) -> pathlib.Path:
    """fuota.wasm, in a folder, of the kept modules of the crates, with these calls, or with all."""
    assert TARGETS[name].way is Way.WEB
    objects = [*(translated(module, name, level, place) for module in modules),
               *(compiled(source, name, level, place) for source in ("pointer_bits.c", "area_heap.c", "wide.c"))]
    return linked_wasm(objects, place, calls=calls)


def linked_wasm(objects: list[pathlib.Path], place: pathlib.Path, more: tuple[str, ...] = (),
                calls: tuple[str, ...] | None = None) -> pathlib.Path:
    """fuota.wasm, in a folder: it imports nothing, and has a heap that grows. `more` are words of the linker, and `calls` what
    it hands out, or all of the header. (The stack is below all else, so that what runs out of it ends, and no address is above
    2^31.)"""
    calls = calls or tuple(re.findall(r"^\w+ (fuota_\w+)\(", (C / "fuota.h").read_text(), re.M))
    made = place / "fuota.wasm"
    run("ld.lld", "-flavor", "wasm", "--no-entry", "--gc-sections", "--strip-all", "--stack-first", "-z", f"stack-size={STACK}",
        f"--initial-heap={FIRST_HEAP}", f"--max-memory={LONGEST_MEMORY}", *(f"--export={call}" for call in (*calls, *HEAP)),
        *objects, *more, "-o", made, by=kit() / "toolchain" / "bin" / "ld.lld")
    return made
