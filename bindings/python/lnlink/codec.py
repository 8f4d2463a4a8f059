"""Bytes of the library's interface: big-endian numbers, lengths before what they count, tags before what varies."""

from __future__ import annotations

from dataclasses import dataclass, fields
from enum import IntEnum
from functools import cache
from typing import Annotated, Any, Callable, ClassVar, Generic, TypeVar, get_type_hints

T = TypeVar("T")
Self = TypeVar("Self", bound="Packed")


class Role(IntEnum):
    """A side of a channel: who opened it and pays its fees, or the other one."""

    FUNDER = 0
    FUNDEE = 1

    @property
    def other(self) -> Role:
        """The other side."""
        return Role(1 - self)


class Reader:
    """Bytes that are read from the front."""

    def __init__(self, data: bytes):
        self._data = data
        self._at = 0

    def take(self, count: int) -> bytes:
        """The next bytes. ValueError where they end before."""
        end = self._at + count
        if end > len(self._data):
            raise ValueError("the bytes end inside a value")
        taken = self._data[self._at : end]
        self._at = end
        return taken

    def rest(self) -> bytes:
        """All bytes that are left."""
        return self.take(len(self._data) - self._at)

    def finish(self) -> None:
        """ValueError where bytes are left."""
        if self._at != len(self._data):
            raise ValueError("there are bytes after the value")


@dataclass(frozen=True)
class Codec(Generic[T]):
    """How values of a kind are written and read."""

    write: Callable[[T], bytes]
    read: Callable[[Reader], T]


def number(size: int) -> Codec[int]:
    """An unsigned number of `size` bytes."""

    def write(value: int) -> bytes:
        try:
            return value.to_bytes(size, "big")
        except OverflowError:
            raise ValueError(f"{value} is no number of {size} bytes") from None

    return Codec(write, lambda reader: int.from_bytes(reader.take(size), "big"))


def fixed(size: int) -> Codec[bytes]:
    """Exactly `size` bytes."""

    def write(value: bytes) -> bytes:
        if len(value) != size:
            raise ValueError(f"{len(value)} bytes where {size} are needed")
        return bytes(value)

    return Codec(write, lambda reader: reader.take(size))


def sized(length: Codec[int]) -> Codec[bytes]:
    """Bytes after their length."""
    return Codec(
        lambda value: length.write(len(value)) + bytes(value),
        lambda reader: reader.take(length.read(reader)),
    )


def pair(first: Any, second: Any) -> Codec[tuple[Any, Any]]:
    """One value and then another, of these types of fields."""
    one, other = codec_of(first), codec_of(second)
    return Codec(
        lambda value: one.write(value[0]) + other.write(value[1]),
        lambda reader: (one.read(reader), other.read(reader)),
    )


def many(hint: Any) -> Codec[tuple[Any, ...]]:
    """A count of eight bytes and so many values of this type of fields."""
    item = codec_of(hint)

    def write(values: tuple[Any, ...]) -> bytes:
        return _U64.write(len(values)) + b"".join(item.write(value) for value in values)

    def read(reader: Reader) -> tuple[Any, ...]:
        count = _U64.read(reader)
        return tuple(item.read(reader) for _ in range(count))

    return Codec(write, read)


def optional(hint: Any) -> Codec[Any]:
    """A byte 0 for None, or a byte 1 and a value of this type of fields."""
    item = codec_of(hint)
    return Codec(
        lambda value: b"\0" if value is None else b"\1" + item.write(value),
        lambda reader: item.read(reader) if _BOOL.read(reader) else None,
    )


def _read_bool(reader: Reader) -> bool:
    value = _U8.read(reader)
    if value > 1:
        raise ValueError(f"{value} is neither 0 nor 1")
    return value == 1


def choice(kind: type[IntEnum]) -> Codec[Any]:
    """A byte that is one of an enumeration."""
    return Codec(_U8.write, lambda reader: kind(_U8.read(reader)))


_U8 = number(1)
_U16 = number(2)
_U64 = number(8)
_BOOL: Codec[bool] = Codec(lambda value: _U8.write(int(value)), _read_bool)

# The types of fields, each with how it is written and read.
U8 = Annotated[int, _U8]
U16 = Annotated[int, _U16]
U32 = Annotated[int, number(4)]
U64 = Annotated[int, _U64]
Bool = Annotated[bool, _BOOL]
RoleByte = Annotated[Role, choice(Role)]
ShortId = Annotated[bytes, fixed(8)]
Hash = Annotated[bytes, fixed(32)]
Point = Annotated[bytes, fixed(33)]
Signature = Annotated[bytes, fixed(64)]
Onion = Annotated[bytes, fixed(1366)]
Sized2 = Annotated[bytes, sized(_U16)]
Sized8 = Annotated[bytes, sized(_U64)]
Rest = Annotated[bytes, Codec(bytes, Reader.rest)]  # all bytes that are left


def codec_of(hint: Any) -> Codec[Any]:
    """How a field of this type is written and read."""
    if isinstance(hint, Codec):
        return hint
    for extra in getattr(hint, "__metadata__", ()):
        if isinstance(extra, Codec):
            return extra
    return Codec(lambda value: value.to_bytes(), hint.read)  # a Packed class


@cache
def codecs_of(kind: type) -> tuple[tuple[str, Codec[Any]], ...]:
    """The fields of a Packed dataclass in order, each with how it is written and read."""
    hints = get_type_hints(kind, include_extras=True)
    return tuple((part.name, codec_of(hints[part.name])) for part in fields(kind))


class Packed:
    """A dataclass whose fields stand one after the other in its bytes."""

    def to_bytes(self) -> bytes:
        """The bytes. ValueError where a field has a wrong size."""
        parts = codecs_of(type(self))
        return self._tag() + b"".join(codec.write(getattr(self, name)) for name, codec in parts)

    @classmethod
    def from_bytes(cls: type[Self], data: bytes) -> Self:
        """The value that is written so. ValueError where none is."""
        reader = Reader(data)
        value = cls.read(reader)
        reader.finish()
        return value

    @classmethod
    def read(cls: type[Self], reader: Reader) -> Self:
        """The value that stands next. ValueError where none does."""
        return cls(*(codec.read(reader) for _, codec in codecs_of(cls)))

    def _tag(self) -> bytes:
        return b""


class Tagged(Packed):
    """A family of dataclasses, each with a byte before its fields that tells which it is.

    The family is a class that derives from this; its members derive from the family and give their `tag`.
    """

    TAG: ClassVar[int]
    MEMBERS: ClassVar[dict[int, type[Tagged]]]

    def __init_subclass__(cls, tag: int | None = None) -> None:
        if tag is None:
            cls.MEMBERS = {}
        else:
            cls.TAG = tag
            cls.MEMBERS[tag] = cls

    @classmethod
    def read(cls, reader: Reader) -> Any:
        tag = _U8.read(reader)
        member = cls.MEMBERS.get(tag)
        if member is None or not issubclass(member, cls):
            raise ValueError(f"{tag} is no tag of {cls.__name__}")
        return member(*(codec.read(reader) for _, codec in codecs_of(member)))

    def _tag(self) -> bytes:
        return _U8.write(self.TAG)
