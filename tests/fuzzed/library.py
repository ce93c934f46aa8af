"""The library for C as a case calls it: what a call gives, or how it is answered, as plain values that can be compared."""
import collections
import importlib
from collections.abc import Callable
from typing import Any

# (its classes are made at run time, by ctypes)
fuota: Any = importlib.import_module("fuota")
MAX_MOMENT = 4_294_967_295_999
# How often each call was answered how.
ANSWERS: collections.Counter[str] = collections.Counter()


class Wrong(Exception):
    """The library did what it should not."""


def agree(what: str, wanted: object, got: object) -> None:
    if wanted != got:
        raise Wrong(f"{what}: {got!r:.200} in place of {wanted!r:.200}")


def plain(told: Any) -> object:
    """What a call gave, as a value: a payload on its way by its bytes, any other struct by its fields."""
    if isinstance(told, fuota.Uplink):
        return told.due, told.port, told.data
    if isinstance(told, fuota.Down):
        return told.port, told.data, (told.addr, told.count) if told.is_group else None
    if isinstance(told, fuota.Struct):
        return tuple(getattr(told, name) for name, _ in told._fields_)
    return told


def answered(call: Callable[..., Any], *words: Any) -> object:
    """What a call gives, or the name of the error that it ends with."""
    try:
        told, name = plain(call(*words)), "done"
    except fuota.Error as error:
        told = name = error.name
    ANSWERS[f"{getattr(call, 'func', call).__qualname__} {name}"] += 1
    return told


class Twins:
    """An object of the library, and another one that was restored of it: each call is made at both, and gives the same."""

    def __init__(self, first: Any) -> None:
        self.objects = [first]

    def call(self, name: str, *words: Any) -> object:
        """What a call gives; the calls are methods of the objects."""
        told = [answered(getattr(it, name), *words) for it in self.objects]
        if len(told) > 1:
            agree(f"{name} of what was restored", told[0], told[1])
        return told[0]

    def restored(self, other: Any) -> None:
        """Another one takes the place of the one that was restored before."""
        self.forget()
        self.objects.append(other)

    def forget(self) -> None:
        """What was restored ends."""
        for it in self.objects[1:]:
            it.free()
        self.objects[1:] = []

    def free(self) -> None:
        for it in self.objects:
            it.free()
