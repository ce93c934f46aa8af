"""The library for C from Python, by ctypes: the calls of fuota.h, as classes that are freed at the end of a `with`.

    with fuota.Server(fuota.Plan(frag_size=48, parity=16), [key], image) as server:
        down = server.ask(1)

The library is the file that `library` names, else the one that the environment's FUOTA_LIBRARY names, else libfuota.so
beside this module, where a wheel has it, or as the system finds it. What fuota.h calls FUOTA_NOTHING is None here; each other answer but FUOTA_DONE is an `Error`. A
number that has no room in its type is `OutOfRange`, and the library is not called. What C owes is seen to here, but for
this: all calls on one object come from one thread, and an object is not copied.

To add a call, its line of fuota.h goes into CALLS, without the names of its parameters.
"""
import ctypes
import enum
import os
import pathlib
import re
from collections.abc import Iterable, Mapping
from types import TracebackType
from typing import Any, ClassVar, Self, TypeVar

from .limits import MAX_PAYLOAD

U8, U16, U32, U64, BOOL = ctypes.c_uint8, ctypes.c_uint16, ctypes.c_uint32, ctypes.c_uint64, ctypes.c_bool
LENGTH = U64
KEY = U8 * 16
NO_RECEIVER = 255
SAVED_DEVICE, SAVED_SERVER, MAX_FRAME, LONGEST_SPAN = 492, 428, 255, 631_573

CALLS = """
uint32_t fuota_version(void);
uint32_t fuota_pointer_bits(void);
uint8_t fuota_receiver_new(fuota_receiver *, uint8_t);
void fuota_receiver_free(fuota_receiver *);
uint8_t fuota_receiver_set_up(fuota_receiver *, const fuota_setup *);
uint8_t fuota_receiver_hear(fuota_receiver *, const uint8_t *, fuota_length, uint64_t);
uint8_t fuota_receiver_view(fuota_receiver *, fuota_view *);
fuota_length fuota_receiver_file(fuota_receiver *, fuota_length, uint8_t *, fuota_length);
fuota_length fuota_receiver_status(fuota_receiver *, bool, uint8_t *, fuota_length);
uint8_t fuota_device_new(fuota_device *, uint8_t, const fuota_config *);
void fuota_device_free(fuota_device *);
uint8_t fuota_device_deliver(fuota_device *, uint8_t, const uint8_t *, fuota_length, const fuota_arrival *);
uint8_t fuota_device_radio(fuota_device *, const uint8_t *, fuota_length, uint64_t, uint32_t, uint64_t);
uint8_t fuota_device_wake(fuota_device *, uint64_t);
uint8_t fuota_device_take_uplink(fuota_device *, fuota_uplink *);
uint8_t fuota_device_view(fuota_device *, uint8_t, fuota_view *);
fuota_length fuota_device_file(fuota_device *, uint8_t, fuota_length, uint8_t *, fuota_length);
uint8_t fuota_device_running(fuota_device *, uint32_t *);
uint8_t fuota_device_counts(fuota_device *, fuota_counts *);
uint8_t fuota_device_next(fuota_device *, fuota_next *);
uint8_t fuota_device_raise(fuota_device *);
fuota_length fuota_device_save(fuota_device *, uint8_t *, fuota_length);
fuota_length fuota_device_firmware(fuota_device *, bool, fuota_length, uint8_t *, fuota_length);
uint8_t fuota_device_restore(fuota_device *, uint8_t, const fuota_config *, const uint8_t *, fuota_length, const uint8_t *, fuota_length, const uint8_t *, fuota_length);
uint8_t fuota_device_new_in_flash(fuota_device *, uint8_t, const fuota_config *, uint32_t, const uint8_t *, fuota_length);
uint8_t fuota_device_restore_in_flash(fuota_device *, uint8_t, const fuota_config *, uint32_t, const uint8_t *, fuota_length, const uint8_t *, fuota_length, const uint8_t *, fuota_length, const uint8_t *, fuota_length);
uint8_t fuota_device_power(fuota_device *);
fuota_length fuota_device_flash(fuota_device *, fuota_length, uint8_t *, fuota_length);
uint8_t fuota_server_new(fuota_server *, const fuota_plan *, const fuota_plan_device *, fuota_length, const uint8_t *, fuota_length, uint8_t *);
void fuota_server_free(fuota_server *);
uint8_t fuota_server_next_fragment(fuota_server *, fuota_down *);
uint8_t fuota_server_status_all(fuota_server *, fuota_down *);
fuota_length fuota_server_frame(fuota_server *, const fuota_down *, uint8_t *, fuota_length);
uint8_t fuota_server_ask(fuota_server *, uint8_t, fuota_down *);
uint8_t fuota_server_uplink(fuota_server *, uint8_t, uint8_t, const uint8_t *, fuota_length, uint64_t, fuota_down *);
uint8_t fuota_server_ledger(fuota_server *, uint8_t, fuota_stage *);
uint8_t fuota_server_last_status(fuota_server *, uint8_t, fuota_status *);
uint8_t fuota_server_fragment_number(fuota_server *, uint16_t *);
uint8_t fuota_server_frame_count(fuota_server *, uint32_t *);
void fuota_mc_app_s_key(const uint8_t [16], uint32_t, uint8_t [16]);
void fuota_mc_net_s_key(const uint8_t [16], uint32_t, uint8_t [16]);
uint8_t fuota_frag_session_delete(uint8_t, fuota_down *);
uint8_t fuota_mc_group_delete(uint8_t, fuota_down *);
uint8_t fuota_dev_delete_image(uint32_t, fuota_down *);
uint8_t fuota_force_device_resync(uint8_t, fuota_down *);
fuota_length fuota_server_save(fuota_server *, uint8_t *, fuota_length);
uint8_t fuota_server_restore(fuota_server *, const fuota_plan *, const fuota_plan_device *, fuota_length, const uint8_t *, fuota_length, const uint8_t *, fuota_length, uint8_t *);
uint8_t fuota_decode(uint8_t, bool, const uint8_t *, fuota_length, uint8_t *, fuota_length, fuota_decoded *);
"""


# ---- Numbers


class Answer(enum.IntEnum):
    """What a call answers, where it says nothing else."""

    DONE, NOTHING, NO_OBJECT, RANGE, NO_ROOM, NO_MEMORY, REFUSED, DEAF, FULL, SPENT, CORRUPT, FOREIGN, DOWN, FLASH = range(14)


class Verdict(enum.IntEnum):
    """What is known of a file."""

    RECEIVING, COMPLETE, NO_ROWS, CONFLICT = range(4)


class Field(enum.IntEnum):
    """A field of a plan that is wrong."""

    FIELD_FRAG_SIZE, FIELD_PARITY, FIELD_GROUP, FIELD_WINDOW, FIELD_DEVICES, FIELD_INDEX = range(1, 7)


class StageKind(enum.IntEnum):
    """Where a device stands."""

    AT, UPDATED, STOPPED = range(3)


class Request(enum.IntEnum):
    """What the server asks of a device."""

    (REQUEST_VERSION, REQUEST_GROUP, REQUEST_FRAGMENTS, REQUEST_WINDOW, REQUEST_STATUS, REQUEST_IMAGE, REQUEST_REBOOT,
     REQUEST_CHECK) = range(1, 9)

    @property
    def word(self) -> str:
        """Its name as a word, as `version`."""
        return self.name.removeprefix("REQUEST_").lower()


class Why(enum.IntEnum):
    """Why a payload has no text."""

    WHY_PORT, WHY_UNKNOWN, WHY_SHORT, WHY_TOO_LONG = range(4)


class Size(enum.IntEnum):
    """What a receiver has room for: 256 pieces of 48 bytes and 16 rows, 1,024 of 48 and 64, 4,096 of 64 and 256."""

    SIZE_SMALL, SIZE_MIDDLE, SIZE_LARGE = range(3)


class Image(enum.IntEnum):
    """What was received to run next is to a device."""

    IMAGE_NONE, IMAGE_CORRUPT, IMAGE_INCOMPATIBLE, IMAGE_VALID = range(4)


ENUMS = {"answer": Answer, "verdict": Verdict, "field": Field, "stage_kind": StageKind, "request": Request, "why": Why,
         "size": Size, "image": Image}


# ---- Errors


class Error(Exception):
    """A call answered with this number; `name` is that of `Answer`."""

    answer: ClassVar[Answer]

    def __init__(self, words: str | None = None) -> None:
        self.number, self.name = int(self.answer), self.answer.name
        super().__init__(words or self.__doc__)


class NoObject(Error):
    """There is no receiver, device or server: it was freed."""

    answer = Answer.NO_OBJECT


class OutOfRange(Error):
    """An argument is out of its range."""

    answer = Answer.RANGE


class WrongField(OutOfRange):
    """A field of a plan is wrong: `field` is its number."""

    def __init__(self, field: int) -> None:
        super().__init__(f"the plan is wrong: {Field(field).name}")
        self.field = Field(field)


class NoRoom(Error):
    """The text has no room."""

    answer = Answer.NO_ROOM


class NoMemory(Error, MemoryError):
    """There was not enough memory."""

    answer = Answer.NO_MEMORY


class Refused(Error):
    """The payload spells no commands, or the image is no image file."""

    answer = Answer.REFUSED


class NoText(Refused):
    """The payload has no text: `at` is the byte at which reading it stops, from 0, and `why` the number of the cause."""

    def __init__(self, at: int, why: int) -> None:
        super().__init__(f"{Why(why).name} at byte {at}")
        self.at, self.why = at, Why(why)


class Deaf(Error):
    """The device did not hear the payload."""

    answer = Answer.DEAF


class Full(Error):
    """The device would hold more than 8 uplinks."""

    answer = Answer.FULL


class Spent(Error):
    """The frame counts of the group are spent."""

    answer = Answer.SPENT


class Corrupt(Error):
    """The saved bytes are of no object that is so set up."""

    answer = Answer.CORRUPT


class Foreign(Error):
    """The bytes are no frame of the group that the device hears."""

    answer = Answer.FOREIGN


class NoPower(Error):
    """The sessions of the device are down until it gets power."""

    answer = Answer.DOWN


class BadFlash(Error):
    """The flash has something at a session's place that is no session's."""

    answer = Answer.FLASH


ERRORS: dict[int, type[Error]] = {kind.answer: kind
          for kind in (NoObject, OutOfRange, NoRoom, NoMemory, Refused, Deaf, Full, Spent, Corrupt, Foreign,
                       NoPower, BadFlash)}


# ---- Structs


def fitting(kind: Any, number: Any) -> int:
    """A number that has room in a type of the header; a truth value is one too."""
    if kind is BOOL:
        return bool(number)
    if not isinstance(number, int) or not 0 <= number < 1 << 8 * ctypes.sizeof(kind):
        raise OutOfRange(f"{number!r} is no number of {8 * ctypes.sizeof(kind)} bits")
    return int(number)


def key_of(value: bytes) -> Any:
    """A key, which has 16 bytes."""
    if len(value) != ctypes.sizeof(KEY):
        raise OutOfRange(f"a key of {len(value)} bytes, and not of {ctypes.sizeof(KEY)}")
    return KEY(*value)


class Struct(ctypes.Structure):
    """A struct of the header, by the names of its fields; what is not named is 0."""

    def __init__(self, **fields: Any) -> None:
        super().__init__()
        kinds: dict[str, Any] = {it[0]: it[1] for it in self._fields_}
        unknown = sorted(set(fields) - set(kinds))
        if unknown:
            raise TypeError(f"{type(self).__name__} has no field {', '.join(unknown)}")
        for name, value in fields.items():
            setattr(self, name, key_of(value) if kinds[name] is KEY else fitting(kinds[name], value))


class Handle(ctypes.Structure):
    """What C keeps of an object."""

    _fields_ = [("at", U64)]


class View(Struct):
    """What a session shows."""

    _fields_ = [("mark", U64), ("file_length", LENGTH), ("received", U16), ("missing", U16), ("verdict", U8)]


class Setup(Struct):
    """The fields of FragSessionSetupReq."""

    _fields_ = [("descriptor", U32), ("nb_frag", U16), ("frag_size", U8), ("index", U8), ("mask", U8), ("algo", U8),
                ("delay", U8), ("padding", U8)]


class Config(Struct):
    """How a device is set up."""

    _fields_ = [("hw", U32), ("offset", U32), ("area", U32), ("descriptor", U32), ("rows", U16), ("formats", U8),
                ("sessions", U8), ("groups", U8), ("has_descriptor", BOOL), ("is_class_c", BOOL), ("is_v11", BOOL),
                ("key", KEY)]


class Arrival(Struct):
    """When and how a payload comes."""

    _fields_ = [("t", U64), ("mark", U64), ("word", U32), ("addr", U32), ("count", U32), ("is_group", BOOL)]


class Uplink(Struct):
    """A payload that a device sends at `due`."""

    _fields_ = [("due", U64), ("length", LENGTH), ("port", U8), ("payload", U8 * MAX_PAYLOAD)]

    @property
    def data(self) -> bytes:
        return bytes(self.payload[:self.length])


class Plan(Struct):
    """What a server is to do, but for its devices; a group and a window go together."""

    _fields_ = [("addr", U32), ("min", U32), ("max", U32), ("start", U32), ("freq", U32), ("parity", U16),
                ("frag_size", U8), ("timeout", U8), ("dr", U8), ("periodicity", U8), ("index", U8), ("id", U8),
                ("has_group", BOOL), ("has_window", BOOL), ("is_class_b", BOOL), ("key", KEY)]


class PlanDevice(Struct):
    """A device of a plan: its GenAppKey of LoRaWAN 1.0, or AppKey of LoRaWAN 1.1 where `is_v11`."""

    _fields_ = [("key", KEY), ("is_v11", BOOL)]


class Counts(Struct):
    """Payloads that did not act, and fragments that no session heard."""

    _fields_ = [("deaf", U64), ("refused", U64), ("full", U64), ("dropped", U64)]


class Next(Struct):
    """What was received to run next: an `Image`, and the version of a valid one."""

    _fields_ = [("version", U32), ("state", U8)]


class Status(Struct):
    """What a device told in its last FragSessionStatusAns."""

    _fields_ = [("received", U16), ("missing", U8), ("norows", BOOL)]


class Down(Struct):
    """A payload on its way to devices; by unicast, or to the group `addr` with the frame count `count`."""

    _fields_ = [("length", LENGTH), ("addr", U32), ("count", U32), ("port", U8), ("is_group", BOOL),
                ("payload", U8 * MAX_PAYLOAD)]

    @property
    def data(self) -> bytes:
        return bytes(self.payload[:self.length])


class Stage(Struct):
    """Where a device stands: a `StageKind`, the `Request`, and the bits of a refusal."""

    _fields_ = [("stage", U8), ("request", U8), ("bits", U8)]

    @property
    def word(self) -> str:
        """Its name as a word, one of `STAGES`."""
        if self.stage == StageKind.AT:
            return Request(self.request).word
        return "updated" if self.stage == StageKind.UPDATED else "refused"


# The words of all stages, in their order.
STAGES = (*(request.word for request in Request), "updated", "refused")


class Decoded(Struct):
    """What `fuota_decode` tells."""

    _fields_ = [("length", LENGTH), ("at", U16), ("why", U8)]


STRUCTS: dict[str, Any] = {"fuota_receiver": Handle, "fuota_device": Handle, "fuota_server": Handle, "fuota_view": View,
           "fuota_setup": Setup, "fuota_config": Config, "fuota_arrival": Arrival, "fuota_uplink": Uplink,
           "fuota_plan": Plan, "fuota_plan_device": PlanDevice, "fuota_counts": Counts, "fuota_next": Next,
           "fuota_status": Status, "fuota_down": Down, "fuota_stage": Stage, "fuota_decoded": Decoded}
TYPES: dict[str, Any] = {"uint8_t": U8, "uint16_t": U16, "uint32_t": U32, "uint64_t": U64, "fuota_length": LENGTH, "bool": BOOL, "void": None}


# ---- The library


def type_of(words: str) -> Any:
    """The type that ctypes takes for one of C."""
    name = re.sub(r"const|[*]|\[\d+\]", "", words).strip()
    kind = STRUCTS.get(name) or TYPES[name]
    return kind if name == words else ctypes.POINTER(kind)


def held(data: bytes) -> tuple[Any, int]:
    """Bytes that a call reads, and their number; the pointer is valid for zero bytes too."""
    return (U8 * max(1, len(data))).from_buffer_copy(bytes(data) or b"\0"), len(data)


T = TypeVar("T", bound=ctypes.Structure)
Path = str | os.PathLike[str]
INSTALLED = pathlib.Path(__file__).with_name("libfuota.so")


class Library:
    """The calls of a file libfuota.so, each by its name without `fuota_`."""

    def __init__(self, path: Path | None = None) -> None:
        near = INSTALLED if INSTALLED.is_file() else "libfuota.so"
        shared = ctypes.CDLL(str(path or os.environ.get("FUOTA_LIBRARY") or near))
        self.functions: dict[str, Any] = {}
        for result, name, kinds in re.findall(r"(\w+) fuota_(\w+)\((.*)\);", CALLS):
            function = getattr(shared, "fuota_" + name)
            function.argtypes = [type_of(kind) for kind in kinds.split(", ") if kind != "void"]
            function.restype = type_of(result)
            self.functions[name] = function

    def call(self, name: str, *words: Any) -> Any:
        """Makes a call; a number that has no room in its type is refused before."""
        function = self.functions[name]
        numbers = TYPES.values()
        return function(*(fitting(kind, word) if kind in numbers else word for kind, word in zip(function.argtypes, words)))

    def done(self, name: str, *words: Any) -> bool:
        """Makes a call that answers with a number of `Answer`: whether there was something."""
        answer = self.call(name, *words)
        if answer not in (Answer.DONE, Answer.NOTHING):
            raise ERRORS[answer]()
        return bool(answer == Answer.DONE)

    def version(self) -> tuple[int, int, int]:
        """Its version, as three numbers."""
        number = self.call("version")
        return number >> 16, number >> 8 & 255, number & 255

    def pointer_bits(self) -> int:
        """The bits of a pointer for which it was built."""
        return int(self.call("pointer_bits"))

    def mc_app_s_key(self, mc_key: bytes, addr: int) -> bytes:
        """McAppSKey of a group, by which its payloads are encrypted, from its McKey and McAddr (TS005-1.0.0, Multicast security)."""
        return self.session_key("mc_app_s_key", mc_key, addr)

    def mc_net_s_key(self, mc_key: bytes, addr: int) -> bytes:
        """McNetSKey of a group, by which its frames have their MIC. Network servers call it McNwkSKey."""
        return self.session_key("mc_net_s_key", mc_key, addr)

    def session_key(self, name: str, mc_key: bytes, addr: int) -> bytes:
        found = KEY()
        self.call(name, key_of(mc_key), addr, found)
        return bytes(found)

    def frag_session_delete(self, index: int) -> Down:
        """FragSessionDeleteReq (TS004-1.0.0) to a device, for a FragIndex of 0 to 3; `OutOfRange` for another one."""
        return self.request("frag_session_delete", index)

    def mc_group_delete(self, id: int) -> Down:
        """McGroupDeleteReq (TS005-1.0.0) to a device, for a McGroupID of 0 to 3; `OutOfRange` for another one."""
        return self.request("mc_group_delete", id)

    def dev_delete_image(self, version: int) -> Down:
        """DevDeleteImageReq (TS006-1.0.0) to a device, for an image of this firmware version, which has 32 bits."""
        return self.request("dev_delete_image", version)

    def force_device_resync(self, count: int) -> Down:
        """ForceDeviceResyncReq (TS003-1.0.0) to a device, which then asks for the time `count` times, 0 to 7; `OutOfRange` above."""
        return self.request("force_device_resync", count)

    def request(self, name: str, number: int) -> Down:
        down = Down()
        self.done(name, number, ctypes.byref(down))
        return down

    def decode(self, port: int, up: bool, payload: bytes) -> str:
        """The commands of a payload of port 200 to 203, each on a line; `NoText` where it spells none."""
        told, room = Decoded(), 2048
        while True:
            text = (U8 * room)()
            answer = self.call("decode", port, up, *held(payload), text, room, ctypes.byref(told))
            if answer == Answer.DONE:
                return bytes(text[:told.length]).decode()
            if answer == Answer.REFUSED:
                raise NoText(told.at, told.why)
            if answer != Answer.NO_ROOM:
                raise ERRORS[answer]()
            room = told.length


def library_of(library: Library | Path | None) -> Library:
    return library if isinstance(library, Library) else Library(library)


class Object:
    """An object of the library behind its handle."""

    kind: ClassVar[str]

    def __init__(self, library: Library | Path | None = None) -> None:
        self.library, self.handle = library_of(library), Handle()

    def __enter__(self) -> Self:
        return self

    def __exit__(self, *_: type[BaseException] | BaseException | TracebackType | None) -> None:
        self.free()

    def call(self, name: str, *words: Any) -> Any:
        return self.library.call(f"{self.kind}_{name}", ctypes.byref(self.handle), *words)

    def done(self, name: str, *words: Any) -> bool:
        return self.library.done(f"{self.kind}_{name}", ctypes.byref(self.handle), *words)

    def told(self, name: str, out: T, *words: Any) -> T | None:
        """What a call writes into a struct, which it takes last; None where there is nothing."""
        return out if self.done(name, *words, ctypes.byref(out)) else None

    def copied(self, name: str, room: int, *words: Any) -> bytes:
        """What a call copies into so many bytes."""
        into = (U8 * max(1, room))()
        return bytes(memoryview(into)[:self.call(name, *words, into, room)])

    def free(self) -> None:
        """Frees the object; each later call is `NoObject`, or has nothing to give."""
        self.call("free")


class Receiver(Object):
    """A receiver of one file at a time (TS004), of a `Size`, with session 0 alone."""

    kind = "receiver"

    def __init__(self, size: int = Size.SIZE_SMALL, library: Library | Path | None = None) -> None:
        super().__init__(library)
        self.done("new", size)

    def set_up(self, **fields: int) -> int:
        """FragSessionSetupReq: all refusal bits of its answer, 0 where the session lives."""
        bits = int(self.call("set_up", ctypes.byref(Setup(**fields))))
        if bits == NO_RECEIVER:
            raise NoObject()
        return bits

    def hear(self, payload: bytes, mark: int) -> None:
        """Hears a payload of port 201 that came by unicast; `mark` is the caller's own."""
        self.done("hear", *held(payload), mark)

    def view(self) -> View | None:
        """What the session shows; None without one."""
        return self.told("view", View())

    def file(self) -> bytes | None:
        """The whole file; None before it is whole."""
        view = self.view()
        return self.copied("file", view.file_length, 0) if view and view.verdict == Verdict.COMPLETE else None

    def status(self, is_all: bool) -> bytes | None:
        """FragSessionStatusAns as its 5 bytes; None where none is to be sent."""
        return self.copied("status", 5, is_all) or None


class Device(Object):
    """A device of all four packages, of a `Config`, whose sessions have room for files of a `Size`. With a flash, of at least
    four spans, its sessions are held there, and are down until `power`; a new flash is zeros."""

    kind = "device"

    def __init__(self, config: Config, library: Library | Path | None = None, flash: bytes | None = None,
                 span: int = LONGEST_SPAN, size: int = Size.SIZE_LARGE) -> None:
        super().__init__(library)
        self.begin("new", size, config, flash, span)

    @classmethod
    def restore(cls, config: Config, saved: bytes, running: bytes = b"", following: bytes = b"",
                library: Library | Path | None = None, flash: bytes | None = None, span: int = LONGEST_SPAN,
                size: int = Size.SIZE_LARGE) -> Self:
        """The device that saved these bytes, with the files that ran and that was received to run next."""
        device = cls.__new__(cls)
        Object.__init__(device, library)
        device.begin("restore", size, config, flash, span, *held(saved), *held(running), *held(following))
        return device

    def begin(self, name: str, size: int, config: Config, flash: bytes | None, span: int, *words: Any) -> None:
        self.area, self.flash_size = config.area, 0 if flash is None else len(flash)
        if flash is None:
            self.done(name, size, ctypes.byref(config), *words)
        else:
            self.done(f"{name}_in_flash", size, ctypes.byref(config), span, *held(flash), *words)

    def power(self) -> None:
        """Opens the sessions that are held in its flash."""
        self.done("power")

    def flash(self) -> bytes:
        """The bytes of its flash, to be kept with those of `save`."""
        return self.copied("flash", self.flash_size, 0)

    def deliver(self, port: int, payload: bytes, t: int, mark: int = 0, word: int = 0,
                group: tuple[int, int] | None = None) -> None:
        """Brings a payload at `t` ms of true time; `group` is a pair of address and frame count, or None by unicast."""
        arrival = Arrival(t=t, mark=mark, word=word)
        if group:
            arrival = Arrival(t=t, mark=mark, word=word, addr=group[0], count=group[1], is_group=True)
        self.done("deliver", port, *held(payload), ctypes.byref(arrival))

    def radio(self, frame: bytes, t: int, mark: int = 0, word: int = 0) -> None:
        """Brings what the radio heard at `t` ms of true time; `Foreign` where it is no frame of the group that is heard."""
        self.done("radio", *held(frame), t, word, mark)

    def counts(self) -> Counts:
        """Its counters."""
        return self.told("counts", Counts()) or Counts()

    def next(self) -> Next:
        """What was received to run next is to it."""
        return self.told("next", Next()) or Next()

    def raise_formats(self) -> None:
        """Both image formats are known from now on, and what was received to run next is read again."""
        self.done("raise")

    def wake(self, t: int) -> None:
        """Wakes at `t` ms of true time and asks for the time."""
        self.done("wake", t)

    def take_uplink(self) -> Uplink | None:
        """Takes the oldest uplink that is held; None where none is."""
        return self.told("take_uplink", Uplink())

    def view(self, index: int) -> View | None:
        """What the session of an index shows; None without one."""
        return self.told("view", View(), index)

    def file(self, index: int) -> bytes | None:
        """The whole file of the session of an index; None before it is whole."""
        view = self.view(index)
        return self.copied("file", view.file_length, index, 0) if view and view.verdict == Verdict.COMPLETE else None

    def running(self) -> int:
        """The version of the firmware that runs."""
        version = U32()
        self.done("running", ctypes.byref(version))
        return version.value

    def save(self) -> bytes:
        """What the device knows; it holds the keys of its groups."""
        return self.copied("save", SAVED_DEVICE)

    def firmware(self, is_next: bool) -> bytes:
        """The image file that was received to run next, or else the one that runs; empty where there is none."""
        return self.copied("firmware", self.area, is_next, 0)


class Server(Object):
    """The server of a campaign, of a `Plan`, its devices in turn, and an image file. A device is a `PlanDevice`, or the bytes
    of its GenAppKey of LoRaWAN 1.0."""

    kind = "server"

    def __init__(self, plan: Plan, devices: Iterable[PlanDevice | bytes], image: bytes,
                 library: Library | Path | None = None) -> None:
        super().__init__(library)
        self.made("new", plan, devices, image)

    @classmethod
    def restore(cls, plan: Plan, devices: Iterable[PlanDevice | bytes], image: bytes, saved: bytes,
                library: Library | Path | None = None) -> Self:
        """The server of this plan, devices and image that saved these bytes."""
        server = cls.__new__(cls)
        Object.__init__(server, library)
        server.made("restore", plan, devices, image, *held(saved))
        return server

    def made(self, name: str, plan: Plan, devices: Iterable[PlanDevice | bytes], image: bytes, *words: Any) -> None:
        told = [device if isinstance(device, PlanDevice) else PlanDevice(key=device) for device in devices]
        listed, field = (PlanDevice * max(1, len(told)))(*told), U8()
        try:
            self.done(name, ctypes.byref(plan), listed, len(told), *held(image), *words, ctypes.byref(field))
        except OutOfRange:
            raise WrongField(field.value) from None

    def next_fragment(self) -> Down | None:
        """The next fragment to all devices; None where all were sent."""
        return self.told("next_fragment", Down())

    def status_all(self) -> Down | None:
        """FragSessionStatusReq to all devices, answered by those that miss a fragment."""
        return self.told("status_all", Down())

    def ask(self, dev: int) -> Down | None:
        """What the server asks of a device now; None where it is updated or refused."""
        return self.told("ask", Down(), dev)

    def uplink(self, dev: int, port: int, payload: bytes, t: int) -> Down | None:
        """Takes an uplink that came at `t` ms of GPS time; the answer to send, or None."""
        return self.told("uplink", Down(), dev, port, *held(payload), t)

    def frame(self, down: Down) -> bytes | None:
        """A payload to the group as its multicast frame; None where it has none."""
        return self.copied("frame", MAX_FRAME, ctypes.byref(down)) or None

    def last_status(self, dev: int) -> Status | None:
        """What a device told last of the campaign's session; None where it told nothing."""
        return self.told("last_status", Status(), dev)

    def fragment_number(self) -> int:
        """The number of the fragment that is sent next, from 1; where all were sent, one more than that of the last."""
        number = U16()
        self.done("fragment_number", ctypes.byref(number))
        return number.value

    def frame_count(self) -> int:
        """The group's next frame count, from its `min` to its `max`, where none is left; 0 without a group."""
        count = U32()
        self.done("frame_count", ctypes.byref(count))
        return count.value

    def ledger(self, dev: int) -> Stage:
        """Where a device stands."""
        return self.told("ledger", Stage(), dev) or Stage()

    def save(self) -> bytes:
        """What the server knows, to be kept before the payload of a call goes out. There is no key among it."""
        return self.copied("save", SAVED_SERVER)


# ---- The program as a call


CALLS += """uint8_t fuota_run(const fuota_word *, fuota_length, const fuota_file *, fuota_length, uint8_t *, fuota_length, fuota_ran *);
"""


class Exit(enum.IntEnum):
    """How the program ends."""

    EXIT_DONE, EXIT_USAGE, EXIT_IMAGE_REFUSED, EXIT_SCRIPT_REFUSED, EXIT_READ_FAULT = 0, 2, 3, 4, 5
    EXIT_WRITE_FAULT, EXIT_MEMORY, EXIT_TOO_LONG, EXIT_NOT_COMPLETE = 6, 7, 8, 9


class Word(Struct):
    """A word of a command line, by its address."""

    _fields_ = [("bytes", U64), ("bytes_length", LENGTH)]


class File(Struct):
    """A file by its name, both by their addresses."""

    _fields_ = [("name", U64), ("name_length", LENGTH), ("bytes", U64), ("bytes_length", LENGTH)]


class Ran(Struct):
    """What `fuota_run` tells."""

    _fields_ = [("length", LENGTH), ("status", U8)]


STRUCTS.update({"fuota_word": Word, "fuota_file": File, "fuota_ran": Ran})
ENUMS["exit"] = Exit
# The room for what the program writes is this at first, and twice as much as it reads.
FIRST_ROOM = 65_536


def run(words: Iterable[str | bytes], files: Mapping[str, bytes], library: Library | Path | None = None) -> tuple[Exit, bytes]:
    """What the program `fuota` does with the words behind its name, over files by their names and no others: its `Exit`, and the
    bytes that it writes."""
    kept: list[Any] = []

    def placed(data: bytes) -> tuple[int, int]:
        block, length = held(data)
        kept.append(block)
        return ctypes.addressof(block), length

    told = [placed(os.fsencode(word)) for word in ("fuota", *words)]
    given = [(*placed(os.fsencode(name)), *placed(data)) for name, data in files.items()]
    line = (Word * len(told))(*(Word(bytes=at, bytes_length=length) for at, length in told))
    named = (File * max(1, len(given)))(*(File(**dict(zip(dict(File._fields_), one))) for one in given))
    library, out = library_of(library), Ran()
    room = FIRST_ROOM + 2 * sum(len(data) for data in files.values())
    while True:
        text = (U8 * room)()
        answer = library.call("run", line, len(told), named, len(given), text, room, ctypes.byref(out))
        if answer == Answer.DONE:
            return Exit(out.status), ctypes.string_at(text, out.length)
        if answer != Answer.NO_ROOM:
            raise ERRORS[answer]()
        room = out.length
