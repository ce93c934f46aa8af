"""The processors for which the library is built."""
from dataclasses import dataclass
from enum import Enum


class Way(Enum):
    """How the library comes to a processor."""

    TOOLCHAIN = "the toolchain proves and builds for it"
    TRANSLATED = "the module that was proved for x86-64 is translated"
    WEB = "it is translated, and linked as a module of WebAssembly"


@dataclass(frozen=True)
class Target:
    """A processor. `layout` and `triple` are LLVM's, `flags` clang's; `tools` stands before the names of binutils and gcc
    where they are taken; `signs` says that C takes a result of 32 bits as widened by its sign; `has_vectors` that the
    processor takes 16 bytes at a time; `is_outlined` that for size what stands twice becomes a function; `is_checked` that each
    pointer that is read is looked at, for a test."""

    triple: str
    way: Way
    bits: int
    level: str
    flags: tuple[str, ...] = ()
    layout: str = ""
    tools: str = ""
    signs: bool = False
    has_vectors: bool = False
    is_outlined: bool = False
    is_checked: bool = False


ARM = "e-m:e-p:32:32-Fi8-i64:64-v128:64:128-a:0:32-n32-S64"
RISCV32 = "e-m:e-p:32:32-i64:64-n32-S128"
RISCV64 = "e-m:e-p:64:64-i64:64-i128:128-n32:64-S128"
WASM32 = "e-m:e-p:32:32-p10:8:8-p20:8:8-i64:64-i128:128-n32:64-S128-ni:1:10:20"
X86_32 = "e-m:e-p:32:32-p270:32:32-p271:32:32-p272:64:64-i128:128-f64:32:64-f80:32-n8:16:32-S128"


def cortex(architecture: str, name: str) -> Target:
    """A Cortex-M, without its unit for floating point, which the library does not use."""
    flags = (f"-mcpu={name}", "-mfloat-abi=soft", "-fshort-enums")
    return Target(f"{architecture}-none-eabi", Way.TRANSLATED, 32, "s", flags, ARM, is_outlined=True)


TARGETS = {
    "x86_64": Target("x86_64-unknown-linux-gnu", Way.TOOLCHAIN, 64, "3"),
    "aarch64": Target("aarch64-unknown-linux-gnu", Way.TOOLCHAIN, 64, "3", tools="aarch64-linux-gnu-"),
    "cortex-m0plus": cortex("thumbv6m", "cortex-m0plus"),
    "cortex-m3": cortex("thumbv7m", "cortex-m3"),
    "cortex-m4": cortex("thumbv7em", "cortex-m4"),
    "cortex-m33": cortex("thumbv8m.main", "cortex-m33"),
    "rv32imac": Target("riscv32-unknown-elf", Way.TRANSLATED, 32, "s", ("-march=rv32imac", "-mabi=ilp32"), RISCV32,
                       is_outlined=True),
    "riscv64": Target("riscv64-unknown-linux-gnu", Way.TRANSLATED, 64, "2", ("-fPIC", "-march=rv64gc", "-mabi=lp64d"),
                      RISCV64, signs=True),
    # (of what engines added to the first WebAssembly it takes two things, which all have had since 2021)
    "wasm32": Target("wasm32-unknown-unknown", Way.WEB, 32, "s", ("-mcpu=mvp", "-mbulk-memory", "-msign-ext"), WASM32),
    # (for tests/on_parts alone: valgrind looks at what the translated code does with its memory there)
    "x86_32": Target("i686-unknown-linux-gnu", Way.TRANSLATED, 32, "s", ("-fPIC", "-msse2"), X86_32, has_vectors=True,
                     is_checked=True),
}
# Of a translated module; that of the toolchain is its own.
LEVELS = ("1", "2", "3", "s", "z")
FOR_SIZE = ("s", "z")
