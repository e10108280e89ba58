"""What a call of the library is handed: numbers, bytes, and places that it may set. A place stands between bytes that
no call may set, and is blank before the call. The types are those of the header, and so are the names of numbers."""
import ctypes

from header import HEADER, limits_of, numbers_of, structs_of
from named_bytes import BYTES, WORDS

BLANK = 0xA5  # each byte of a place before a call, and of its edges
EDGE = 64
NUMBERS = numbers_of(HEADER) | limits_of(HEADER)
TYPES = {
    "uint8_t": ctypes.c_uint8,
    "uint32_t": ctypes.c_uint32,
    "uint64_t": ctypes.c_uint64,
    "size_t": ctypes.c_size_t,
    "uintptr_t": ctypes.c_size_t,
    "void *": ctypes.c_void_p,
}


def number(word):
    """What a word says: a number, a name of the header without BG_, or a sum of these, as MAY_ROLL|MAY_RESIGN."""
    return sum(int(it) if it.isdigit() else NUMBERS[f"BG_{it}"] for it in word.split("|"))


def type_of(written):
    """The type that is written so in C, as 'uint32_t' or 'uint32_t[26]'."""
    name, _, count = written.rstrip("]").partition("[")
    return TYPES[name] * number(count.removeprefix("BG_")) if count else TYPES[name]


for struct, members in structs_of(HEADER):
    fields = [(name, type_of(written)) for written, name in members]
    TYPES[struct] = type(struct, (ctypes.Structure,), {"_fields_": fields})


def bytes_of(word):
    """The bytes of this name, or, where nothing has it, those of the word itself."""
    return BYTES.get(word, word.encode())


def spelled(words):
    """The single words of a text, with those that names of lists stand for."""
    return [one for word in words.split() for one in (spelled(WORDS[word]) if word in WORDS else [word])]


def set_fields(struct, words):
    """Sets the fields that are named, each behind its name; a struct is the last one."""
    while words:
        name = words.pop(0)
        kind = dict(struct._fields_)[name]
        if issubclass(kind, ctypes.Structure):
            set_fields(getattr(struct, name), words)
        elif issubclass(kind, ctypes.Array):
            setattr(struct, name, kind(*(number(words.pop(0)) for _ in range(kind._length_))))
        else:
            setattr(struct, name, number(words.pop(0)))


def value_of(kind, words):
    """A value of this type, as '12', 'kind TOOK_GREW number 2' or 'WANT to 0'. Fields that are not named are 0."""
    value = kind()
    if words == "nothing":
        return value
    if not issubclass(kind, ctypes.Structure):
        return kind(number(words))
    if kind is TYPES["bg_datagram"]:
        packet, _, to = words.rpartition(" to ")
        sent = bytes_of(packet)
        value.to, value.length, value.bytes[: len(sent)] = number(to), len(sent), sent
        return value
    set_fields(value, spelled(words))
    return value


def shown(value):
    """A value in words, for whoever reads what failed."""
    if isinstance(value, ctypes.Structure):
        parts = [(name, shown(getattr(value, name))) for name, _ in value._fields_]
        return " ".join(f"{name} {it}" for name, it in parts if it.strip("0 ")) or "nothing"
    return " ".join(map(str, value)) if isinstance(value, ctypes.Array) else str(getattr(value, "value", value))


class Block:
    """Memory of so many bytes between two edges."""

    def __init__(self, size, filled=BLANK):
        self.size = size
        self.memory = (ctypes.c_uint8 * (size + 2 * EDGE))(*[BLANK] * (size + 2 * EDGE))
        ctypes.memset(self.pointer(), filled, size)

    def pointer(self):
        return ctypes.c_void_p(ctypes.addressof(self.memory) + EDGE)

    def content(self):
        return bytes(self.memory)[EDGE : EDGE + self.size]

    def is_blank(self):
        return self.content() == bytes([BLANK]) * self.size

    def has_edges(self):
        edge = bytes([BLANK]) * EDGE
        return bytes(self.memory)[:EDGE] == edge and bytes(self.memory)[EDGE + self.size :] == edge


class Number:
    """A number that a call is handed."""

    is_set = False

    def __init__(self, kind, word):
        self.arguments = [kind(number(word))]

    def is_whole(self):
        return True


class Bytes:
    """Bytes that a call reads: those that a word names. The word 'null' is a null pointer, with no bytes."""

    is_set = False

    def __init__(self, word):
        self.bytes = b"" if word == "null" else bytes_of(word)
        self.block = Block(len(self.bytes))
        ctypes.memmove(self.block.pointer(), self.bytes, len(self.bytes))
        start = self.block.pointer() if word != "null" else ctypes.c_void_p()
        self.arguments = [start, ctypes.c_size_t(len(self.bytes))]

    def is_whole(self):
        return self.block.has_edges() and self.block.content() == self.bytes


class Handle:
    """The handle of a play. It is fresh, as one of zero bytes is."""

    is_set = False

    def __init__(self):
        self.block = Block(ctypes.sizeof(TYPES["bg_party"]), 0)
        self.arguments = [self.block.pointer()]

    def set_fields(self, words):
        value = value_of(TYPES["bg_party"], words)
        ctypes.memmove(self.block.pointer(), ctypes.byref(value), ctypes.sizeof(value))

    def is_whole(self):
        party = TYPES["bg_party"].from_buffer_copy(self.block.content())
        return self.block.has_edges() and not any(party.reserved)


class Place:
    """A number or a struct that a call may set."""

    is_set = True

    def __init__(self, kind):
        self.kind = kind
        self.block = Block(ctypes.sizeof(kind))
        self.arguments = [self.block.pointer()]

    def is_whole(self):
        return self.block.has_edges()

    def is_kept(self):
        return self.block.is_blank()

    def holds(self, words):
        if words == "kept":
            return self.is_kept()
        return self.block.content() == bytes(value_of(self.kind, words))

    def shown(self):
        return "kept" if self.is_kept() else shown(self.kind.from_buffer_copy(self.block.content()))


class Room:
    """Where a call writes a text: 'out', 'room' and 'needed'. A room of 'null' is a null pointer, and has no bytes."""

    is_set = True

    def __init__(self, word):
        self.room = Block(0 if word == "null" else number(word))
        self.place = Place(TYPES["size_t"])
        start = self.room.pointer() if word != "null" else ctypes.c_void_p()
        self.arguments = [start, ctypes.c_size_t(self.room.size), *self.place.arguments]

    def is_whole(self):
        return self.room.has_edges() and self.place.is_whole()

    def is_kept(self):
        return self.room.is_blank() and self.place.is_kept()

    def needed(self):
        return TYPES["size_t"].from_buffer_copy(self.place.block.content()).value

    def text(self):
        """The text that was written, where the room is blank behind it; else nothing."""
        text, rest = self.room.content()[: self.needed()], self.room.content()[self.needed() :]
        return text if len(text) == self.needed() and rest == bytes([BLANK]) * len(rest) else None

    def holds(self, words):
        """Whether this is as before ('kept'), has set how much is needed alone ('needs 27', 'needs more'), or has this
        text: of a name, with the front and the end of two ('HEAD .. FINE'), or any of so many bytes ('27 bytes')."""
        if words == "kept":
            return self.is_kept()
        if words.startswith("needs "):
            least = self.room.size + 1 if words == "needs more" else number(words.removeprefix("needs "))
            is_right = self.needed() >= least if words == "needs more" else self.needed() == least
            return is_right and not self.place.is_kept() and self.room.is_blank()
        return self.text() is not None and self.has_text(words)

    def has_text(self, words):
        text = self.text()
        if words.endswith(" bytes"):
            return len(text) == number(words.removesuffix(" bytes"))
        front, dots, end = words.partition(" .. ")
        if dots:
            return text.startswith(bytes_of(front)) and text.endswith(bytes_of(end))
        return text == bytes_of(words)

    def shown(self):
        if self.is_kept():
            return "kept"
        return f"needs {self.needed()}" if self.room.is_blank() else repr(self.room.content()[: self.needed()][:300])
