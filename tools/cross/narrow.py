"""Translates the LLVM module of a static library, which the toolchain lowered for x86-64, for another processor.

docs/NARROW.md has the rules, and why the code means the same. For pointers of 32 bits all in memory stays where it
was: a pointer has 8 bytes there, of which the upper 4 are 0. Each line is of a form that stands here, or the module
is refused; so a later toolchain cannot bring in one that nobody thought of.
"""
import math
import re
from collections.abc import Callable

from .targets import Target

NAME = r'%(?:"[^"]*"|[\w.]+)'
GLOBAL = r'@(?:"[^"]*"|[\w.$]+)'
INT = r"i(?:1|8|16|32|64|128)"
# An integer or a float: binary64 means the same on each of these processors, bits of a NaN aside.
NUMBER = rf"(?:{INT}|double)"
BYTES, BITS = r"<\d+ x i8>", r"<\d+ x i1>"
VECTOR = r"<\d+ x i(?:8|64)>"
WHOLE = rf"(?:{NUMBER}|{VECTOR})"
PARTS = rf"\{{ (?:{NUMBER}|ptr)(?:, (?:{NUMBER}|ptr))+ \}}"
KIND = rf"(?:{NUMBER}|ptr|{PARTS})"
FLOAT = r"-?\d+\.\d+e[+-]\d+|0x[0-9A-F]{16}"
VALUE = rf"(?:{NAME}|{GLOBAL}|{FLOAT}|-?\d+|true|false|null|undef|poison|zeroinitializer|splat \(i8 -?\d+\))"
META = r"(?:, ![\w.]+ !\d+)*"
PLACE = rf"ptr ({VALUE}), align (\d+)"
LABEL = r'(?:"[^"]*"|[\w.]+)'
GIVEN = rf"{KIND}(?: (?:noundef|zeroext|signext|nonnull))* {VALUE}"
RESULT = rf"(?:noundef )?(?:zeroext )?(?:{KIND}|void)"
# Functions of LLVM that work on numbers alone.
NUMBERS = r"llvm\.(?:ctpop|cttz|ctlz|bswap|bitreverse|fshl|fshr|umin|umax|smin|smax)\.i\d+"
CALLED = rf"(?!@llvm\.)(?:{GLOBAL}|{NAME})|@{NUMBERS}|@llvm\.trap"

# What stands as it is: it touches no pointer in memory, or means the same whatever the width of one.
PLAIN = [re.compile(form) for form in (
    rf"  {NAME} = (?:add|sub|mul|udiv|urem|sdiv|srem|shl|lshr|ashr|and|or|xor)(?: nuw| nsw| exact| disjoint)* {WHOLE} "
    rf"{VALUE}, {VALUE}",
    rf"  {NAME} = icmp \w+ {INT} {VALUE}, {VALUE}",
    rf"  {NAME} = icmp (?:eq|ne) ptr {VALUE}, {VALUE}",
    rf"  {NAME} = (?:zext|sext|trunc)(?: nneg| nuw| nsw)* {INT} {VALUE} to {INT}",
    rf"  {NAME} = (?:fadd|fsub|fmul|fdiv) double {VALUE}, {VALUE}",
    rf"  {NAME} = fneg double {VALUE}",
    rf"  {NAME} = fcmp \w+ double {VALUE}, {VALUE}",
    rf"  {NAME} = [us]itofp {INT} {VALUE} to double",
    rf"  {NAME} = fpto[us]i double {VALUE} to {INT}",
    rf"  {NAME} = bitcast (?:i64 {VALUE} to double|double {VALUE} to i64)",
    rf"  {NAME} = freeze {INT} {VALUE}",
    rf"  {NAME} = select i1 {VALUE}, ({NUMBER}|ptr) {VALUE}, \1 {VALUE}",
    rf"  {NAME} = phi (?:{NUMBER}|ptr) \[ {VALUE}, {NAME} \](?:, \[ {VALUE}, {NAME} \])*",
    rf"  {NAME} = extractvalue {PARTS} {VALUE}, \d+",
    rf"  {NAME} = insertvalue {PARTS} {VALUE}, (?:{NUMBER}|ptr) {VALUE}, \d+",
    rf"  {NAME} = extractelement {VECTOR} {VALUE}, i\d+ {VALUE}",
    rf"  {NAME} = insertelement {VECTOR} {VALUE}, {INT} {VALUE}, i\d+ {VALUE}",
    rf"  {NAME} = shufflevector {BYTES} {VALUE}, {BYTES} {VALUE}, <\d+ x i32> (?:zeroinitializer|<i32 \d+(?:, i32 \d+)*>)",
    rf"  {NAME} = icmp \w+ {BYTES} {VALUE}, {VALUE}",
    rf"  {NAME} = (?:sext|zext) {BITS} {VALUE} to {BYTES}",
    rf"  {NAME} = select {BITS} {VALUE}, {BYTES} {VALUE}, {BYTES} {VALUE}",
    # (the first bit is the lowest, as on x86-64: none of these processors is big-endian)
    rf"  {NAME} = bitcast {BITS} {VALUE} to i\d+",
    rf"  {NAME} = ptrtoint ptr {VALUE} to i64",
    rf"  {NAME} = inttoptr i64 {VALUE} to ptr",
    # (an index is cut to 32 bits by LLVM, as the layout says)
    rf"  {NAME} = getelementptr (?:inbounds )?(?:nuw )?(?:i8|\[\d+ x i8\]), ptr {VALUE}, i64 {VALUE}",
    rf"  {NAME} = alloca (?:{NUMBER}|\[\d+ x i8\]), align \d+",
    rf"  {NAME} = load {WHOLE}, ptr {VALUE}, align \d+{META}",
    rf"  store {WHOLE} {VALUE}, ptr {VALUE}, align \d+",
    rf"  (?:{NAME} = )?call {RESULT} (?:{CALLED})\((?:{GIVEN}(?:, {GIVEN})*)?\)(?: #\d+)?",
    rf"  br label {NAME}",
    rf"  br i1 {VALUE}, label {NAME}, label {NAME}",
    rf"  switch {INT} {VALUE}, label {NAME} \[",
    rf"    {INT} -?\d+, label {NAME}",
    r"  \]",
    rf"  ret (?:void|{KIND} {VALUE})",
    r"  unreachable",
    rf"{LABEL}:(?: +; .*)?",
    r"",
)]

CONSTANT = "private (?:unnamed_addr )?constant"
# What a pointer in a constant points to: a constant, or so many bytes after its front, where they stand here too.
POINTED = rf"ptr (?:{GLOBAL}|getelementptr \(i8, ptr {GLOBAL}, i64 \d+\))"
FENCE = r"llvm\.arithmetic\.fence\.f64"
COUNTED = r"llvm\.(memset|memmove|memcpy)\.(p0(?:\.p0)?)"
PARAMETERS = r"[\w ,()]*"
# Of a function's attributes, those that are of x86-64, or say what its frame does there.
DROPPED = r' "(?:probe-stack|stack-probe-size|target-cpu|target-features|tune-cpu|frame-pointer)"="[^"]*"'

# What the code calls for memory, over the functions of c/heap.h, which count in 32 bits. A block of no bytes has
# `align`. One that is to be longer than 2^31 - 1, or to stand at a multiple of more than 8, is answered as missing
# memory.
ASKED = """  %is_none = icmp eq i64 %size, 0
  %wanted = select i1 %is_none, i64 %align, i64 %size
  %is_long = icmp ugt i64 %wanted, 2147483647
  %is_strict = icmp ugt i64 %align, 8
  %is_refused = or i1 %is_long, %is_strict
  br i1 %is_refused, label %none, label %take
take:
  %count = trunc i64 %wanted to i32"""
TOLD = """  %lies = ptrtoint ptr %at to i64
  %got = icmp ne i64 %lies, 0
  %told = zext i1 %got to i64
  %shown = select i1 %got, i64 %lies, i64 %align
  %r.0 = insertvalue { i64, i64 } poison, i64 %told, 0
  %r = insertvalue { i64, i64 } %r.0, i64 %shown, 1
  ret { i64, i64 } %r
none:
  %n.0 = insertvalue { i64, i64 } poison, i64 0, 0
  %n = insertvalue { i64, i64 } %n.0, i64 %align, 1
  ret { i64, i64 } %n
}"""
HEAP = {
    "declare { i64, i64 } @rattle_alloc(i64 noundef, i64 noundef)": f"""declare ptr @fuota_heap_take(i32)
define internal {{ i64, i64 }} @rattle_alloc(i64 %size, i64 %align) nounwind {{
{ASKED}
  %at = call ptr @fuota_heap_take(i32 %count)
{TOLD}""",
    "declare { i64, i64 } @rattle_realloc(ptr noundef, i64 noundef, i64 noundef, i64 noundef)": f"""\
declare ptr @fuota_heap_resize(ptr, i32)
define internal {{ i64, i64 }} @rattle_realloc(ptr %old, i64 %had, i64 %size, i64 %align) nounwind {{
{ASKED}
  %at = call ptr @fuota_heap_resize(ptr %old, i32 %count)
{TOLD}""",
    "declare void @rattle_dealloc(ptr noundef)": """declare void @fuota_heap_give(ptr)
define internal void @rattle_dealloc(ptr %at) nounwind {
  call void @fuota_heap_give(ptr %at)
  ret void
}""",
}


# Ends a program that reads a pointer whose upper half is not 0; where nobody wrote that, valgrind says so at the branch.
LOOKED_AT = """
declare void @abort()
define internal void @narrow.looked_at(i64 %wide) alwaysinline nounwind {
  %upper = lshr i64 %wide, 32
  %is_well = icmp eq i64 %upper, 0
  br i1 %is_well, label %well, label %not
well:
  ret void
not:
  call void @abort()
  unreachable
}
"""


class Refused(Exception):
    """A line of a form that no rule has."""


def places(kind: str) -> list[tuple[str, int]]:
    """The parts of a pair or more, with the places that x86-64 gives them: each at a multiple of its size, 8 for a
    pointer."""
    at, told = 0, []
    for part in kind[2:-2].split(", "):
        size = 8 if part in ("ptr", "double") else (int(part[1:]) + 7) // 8
        at += -at % size
        told.append((part, at))
        at += size
    return told


class Narrow:
    """The rules for the lines of functions; `words` are the values of one function that were loaded as words."""

    def __init__(self, target: Target) -> None:
        self.made, self.is_checked = 0, target.is_checked
        self.words: dict[str, int] = {}
        rules: list[tuple[str, Callable[[re.Match[str]], list[str]]]] = [
            (rf"  ({NAME}) = alloca ptr, align (\d+)", self.alloca),
            (rf"  ({NAME}) = load ptr, {PLACE}{META}", self.load),
            (rf"  store ptr ({VALUE}), {PLACE}", self.store),
            (rf"  ({NAME}) = load ({PARTS}), {PLACE}", self.load_parts),
            (rf"  store ({PARTS}) ({VALUE}), {PLACE}", self.store_parts),
            (rf"  call void @{COUNTED}\.i64\((.*), i64 ({VALUE}), i1 false\)", self.counted),
            (rf"  ({NAME}) = ptrtoaddr ptr ({VALUE}) to i64", self.address),
            (rf"  ({NAME}) = call double @{FENCE}\(double ({VALUE})\)(?: #\d+)?", self.fence),
        ]
        by_words: list[tuple[str, Callable[[re.Match[str]], list[str]]]] = [
            (rf"  ({NAME}) = load <(\d+) x i8>, {PLACE}{META}", self.load_words),
            (rf"  ({NAME}) = (xor|and|or) <(\d+) x i8> ({VALUE}), ({VALUE})", self.sum_words),
            (rf"  store <(\d+) x i8> ({NAME}), {PLACE}", self.store_words),
        ]
        self.rules = [(re.compile(form), rule) for form, rule in [*rules, *([] if target.has_vectors else by_words)]]

    def fresh(self) -> str:
        """A name that no other value has."""
        self.made += 1
        return f"%narrow.{self.made}"

    def line(self, line: str) -> list[str]:
        """The lines in the place of one of a function."""
        for form, rule in self.rules:
            it = form.fullmatch(line)
            if it:
                return rule(it)
        if any(form.fullmatch(line) for form in PLAIN):
            return self.with_bytes(line)
        raise Refused(line)

    # ---- pointers

    def alloca(self, it: re.Match[str]) -> list[str]:
        return [f"  {it[1]} = alloca i64, align {it[2]}"]

    def load(self, it: re.Match[str]) -> list[str]:
        wide = self.fresh()
        looked_at = [f"  call void @narrow.looked_at(i64 {wide})"] if self.is_checked else []
        read = f"  {wide} = load i64, ptr {it[2]}, align {it[3]}"
        return [read, *looked_at, f"  {it[1]} = inttoptr i64 {wide} to ptr"]

    def store(self, it: re.Match[str]) -> list[str]:
        wide = self.fresh()
        return [f"  {wide} = ptrtoint ptr {it[1]} to i64", f"  store i64 {wide}, ptr {it[2]}, align {it[3]}"]

    def address(self, it: re.Match[str]) -> list[str]:
        return [f"  {it[1]} = ptrtoint ptr {it[2]} to i64"]

    def fence(self, it: re.Match[str]) -> list[str]:
        """It keeps sums from being regrouped, which nobody does here: no line has a flag that allows it."""
        return [f"  {it[1]} = bitcast double {it[2]} to double"]

    def load_parts(self, it: re.Match[str]) -> list[str]:
        """Each part by itself, at the place that it has on x86-64."""
        name, kind, place, align = it.groups()
        lines, whole, parts = [], "poison", places(kind)
        for number, (part, at) in enumerate(parts):
            where, value = self.fresh(), self.fresh()
            lines.append(f"  {where} = getelementptr i8, ptr {place}, i64 {at}")
            lines += self.line(f"  {value} = load {part}, ptr {where}, align {math.gcd(int(align), at)}")
            into = name if number == len(parts) - 1 else self.fresh()
            lines.append(f"  {into} = insertvalue {kind} {whole}, {part} {value}, {number}")
            whole = into
        return lines

    def store_parts(self, it: re.Match[str]) -> list[str]:
        kind, value, place, align = it.groups()
        lines = []
        for number, (part, at) in enumerate(places(kind)):
            where, taken = self.fresh(), self.fresh()
            lines.append(f"  {where} = getelementptr i8, ptr {place}, i64 {at}")
            lines.append(f"  {taken} = extractvalue {kind} {value}, {number}")
            lines += self.line(f"  store {part} {taken}, ptr {where}, align {math.gcd(int(align), at)}")
        return lines

    # ---- counts

    def counted(self, it: re.Match[str]) -> list[str]:
        """A block has fewer than 2^31 bytes, so its count loses nothing."""
        function, kinds, words, count = it.groups()
        short = self.fresh()
        call = f"  call void @llvm.{function}.{kinds}.i32({words}, i32 {short}, i1 false)"
        return [f"  {short} = trunc i64 {count} to i32", call]

    # ---- bytes that are summed

    def load_words(self, it: re.Match[str]) -> list[str]:
        """A processor without vectors would take vectors of bytes byte by byte, so they are words from the load on."""
        name, count, place, align = it.groups()
        if int(count) % 4:
            return [it[0]]
        self.words[name] = int(count)
        return [f"  {name} = load <{int(count) // 4} x i32>, ptr {place}, align {align}"]

    def sum_words(self, it: re.Match[str]) -> list[str]:
        name, word, count, *values = it.groups()
        if int(count) % 4:
            return [it[0]]
        lines = []
        for at, value in enumerate(values):
            if value not in self.words:
                values[at] = self.fresh()
                lines.append(f"  {values[at]} = bitcast <{count} x i8> {value} to <{int(count) // 4} x i32>")
        self.words[name] = int(count)
        return [*lines, f"  {name} = {word} <{int(count) // 4} x i32> {values[0]}, {values[1]}"]

    def store_words(self, it: re.Match[str]) -> list[str]:
        count, value, place, align = it.groups()
        if value not in self.words:
            return [it[0]]
        return [f"  store <{int(count) // 4} x i32> {value}, ptr {place}, align {align}"]

    def with_bytes(self, line: str) -> list[str]:
        """A line that takes words as bytes has them as such."""
        used = sorted({name for name in re.findall(NAME, line.partition(" = ")[2] or line) if name in self.words})
        if used and " = phi " in line:
            raise Refused(line)
        lines = []
        for name in used:
            count, back = self.words[name], self.fresh()
            lines.append(f"  {back} = bitcast <{count // 4} x i32> {name} to <{count} x i8>")
            line = re.sub(rf"{re.escape(name)}(?![\w.])", back, line)
        return [*lines, line]


# ---- Outside of functions


def split(text: str) -> list[str]:
    """The parts between commas, outside of quotes and brackets."""
    parts, depth, is_quoted, begun = [], 0, False, 0
    for at, sign in enumerate(text):
        if sign == '"':
            is_quoted = not is_quoted
        elif not is_quoted and sign in "([{<":
            depth += 1
        elif not is_quoted and sign in ")]}>":
            depth -= 1
        elif not is_quoted and sign == "," and depth == 0:
            parts.append(text[begun:at].strip())
            begun = at + 1
    return [*parts, text[begun:].strip()]


def constant(line: str) -> str:
    """A constant that has pointers among its parts: behind each of those stand 4 bytes of 0."""
    it = re.fullmatch(rf"({GLOBAL} = {CONSTANT}) <\{{ (.*) \}}> <\{{ (.*) \}}>(, align \d+)", line)
    if not it:
        raise Refused(line)
    kinds, values = split(it[2]), split(it[3])
    pairs = list(zip(kinds, values))
    if len(kinds) != len(values) or not all(value.startswith(f"{kind} ") for kind, value in pairs):
        raise Refused(line)
    for kind, value in pairs:
        if not (re.fullmatch(POINTED, value) if kind == "ptr" else re.fullmatch(r"\[\d+ x i8\]|i\d+", kind)):
            raise Refused(line)
    wide_kinds = ", ".join("ptr, i32" if kind == "ptr" else kind for kind in kinds)
    wide_values = ", ".join(f"{value}, i32 0" if kind == "ptr" else value for kind, value in pairs)
    return f"{it[1]} <{{ {wide_kinds} }}> <{{ {wide_values} }}>{it[4]}"


def attributes(line: str, size: str) -> str:
    """A group of attributes, without what is of x86-64; that of functions with a body has `size`."""
    kept = re.sub(DROPPED, "", line)
    if '"' in kept:
        raise Refused(line)
    is_body = "memory(" not in kept and "nobuiltin" not in kept
    return kept.replace(" nounwind", f"{size} nounwind", 1) if is_body else kept


def declared(line: str, bits: int) -> str:
    """A function without a body: one of LLVM's own, or what the code calls for memory."""
    it = re.fullmatch(rf"declare void @{COUNTED}\.i64\(({PARAMETERS}), i64, i1 immarg\)( #\d+)", line)
    if it:
        return line if bits == 64 else f"declare void @llvm.{it[1]}.{it[2]}.i32({it[3]}, i32, i1 immarg){it[4]}"
    if re.fullmatch(rf"declare (?:void @llvm\.trap|i\d+ @{NUMBERS})\({PARAMETERS}\)(?: #\d+)", line):
        return line
    if re.fullmatch(rf"declare double @{FENCE}\(double\)(?: #\d+)", line):
        return line if bits == 64 else ""
    heap = HEAP.get(re.sub(r" #\d+$", "", line))
    if not heap:
        raise Refused(line)
    return line if bits == 64 else heap


def head(line: str, target: Target, size: str) -> str:
    """A line outside of functions."""
    if line.startswith("target datalayout"):
        return f'target datalayout = "{target.layout}"'
    if line.startswith("target triple"):
        return f'target triple = "{target.triple}"'
    if line.startswith("attributes #"):
        return attributes(line, size)
    if line.startswith("declare "):
        return declared(line, target.bits)
    if re.match(r"@", line):
        if "ptr" not in re.sub(r'"[^"]*"', '""', line) or target.bits == 64:
            if re.fullmatch(rf"{GLOBAL} = {CONSTANT} .*, align \d+", line):
                return line
            raise Refused(line)
        return constant(line)
    if re.match(r";|source_filename|![\w.]+ = |$", line):
        return line
    raise Refused(line)


def opened(line: str, target: Target) -> str:
    """The first line of a function. Who calls one from C expects a small result widened to a word, which the module
    leaves out, as x86-64 allows."""
    if line.startswith("define internal "):
        return line
    if not re.match(r"define (?:noundef )?(?:zeroext )?(?:i\d+|void) @\w+\(", line):
        raise Refused(line)
    line = re.sub(r"^define (noundef )?(i1|i8|i16) ", r"define \1zeroext \2 ", line)
    return re.sub(r"^define (noundef )?i32 ", r"define \1signext i32 ", line) if target.signs else line


def rewritten(module: str, target: Target, level: str) -> str:
    """The module for a target; at the levels s and z its code is to be small."""
    size = {"s": " optsize", "z": " optsize minsize"}.get(level, "")
    lines: list[str] = []
    narrow: Narrow | None = None
    for line in module.split("\n"):
        if line.startswith("define "):
            narrow = Narrow(target)
            lines.append(opened(line, target))
        elif line == "}":
            narrow = None
            lines.append(line)
        elif narrow and target.bits == 32:
            lines += narrow.line(line)
        else:
            lines.append(line if narrow else head(line, target, size))
    return "\n".join(lines) + (LOOKED_AT if target.is_checked else "")
