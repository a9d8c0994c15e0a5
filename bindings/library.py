"""Asks the installed C library, by ctypes, what it knows of attribute types.

The library is $NLROUTE_LIB_DIR/libnlroute.so if that variable is set, and otherwise what pkg-config finds.
"""
import ctypes
import os
import subprocess
import sys
from ctypes import POINTER, byref, c_char_p, c_size_t, c_ssize_t, c_uint8, c_uint16, c_uint32, c_uint64

ABSENT, BAD_ELEMENT = -6, -9
TEXT_ROOM = 4096


class Value(ctypes.Structure):
    """struct nlroute_value."""

    _fields_ = [
        ("kind", c_uint16),
        ("inner", c_uint16),
        ("flags", c_uint16),
        ("form", c_uint8),
        ("depth", c_uint8),
        ("second", c_uint32),
        ("length", c_uint32),
        ("number", c_uint64),
        ("offset", c_uint64),
        ("octets", c_uint8 * 16),
    ]


class Row(ctypes.Structure):
    """struct nlroute_row."""

    _fields_ = [("width", c_uint32), ("flags", c_uint16), ("form", c_uint8), ("is_list", c_uint8), ("unit", c_uint32)]


class Field(ctypes.Structure):
    """struct nlroute_read_field."""

    _fields_ = [
        ("name", ctypes.c_char * 32),
        ("number", c_uint64),
        ("offset", c_uint64),
        ("length", c_uint32),
        ("form", c_uint32),
        ("octets", c_uint8 * 16),
    ]


SIGNATURES = {
    "nlroute_version": (c_uint32,),
    "nlroute_read_row": (c_ssize_t, c_uint32, c_uint16, c_uint16, c_uint8, POINTER(Row)),
    "nlroute_kind_of": (c_ssize_t, c_uint32, c_char_p, c_size_t),
    "nlroute_kind_of_in": (c_ssize_t, c_uint32, c_uint16, c_char_p, c_size_t),
    "nlroute_number_of": (c_ssize_t, c_uint32, POINTER(Value), c_char_p, c_size_t, POINTER(c_uint64)),
    "nlroute_family_name": (c_ssize_t, c_uint32, c_char_p, c_size_t),
    "nlroute_family_of": (c_ssize_t, c_char_p, c_size_t),
    "nlroute_from_info_kind": (c_ssize_t, c_char_p, c_size_t),
    "nlroute_from_port_kind": (c_ssize_t, c_char_p, c_size_t),
    "nlroute_code_text": (c_ssize_t, c_ssize_t, c_char_p, c_size_t),
    "nlroute_kind_name": (c_ssize_t, c_uint32, POINTER(Value), c_char_p, c_size_t),
    "nlroute_number_name": (c_ssize_t, c_uint32, POINTER(Value), c_char_p, c_size_t),
    "nlroute_flag_name": (c_ssize_t, c_uint32, POINTER(Value), c_uint32, c_char_p, c_size_t),
    "nlroute_read_field": (c_ssize_t, c_uint32, POINTER(Value), c_size_t, c_char_p, c_size_t, POINTER(Field)),
    "nlroute_text": (c_ssize_t, c_uint32, POINTER(Value), c_char_p, c_size_t, c_char_p, c_size_t),
}


def path():
    """Returns the path of the library, or ends the program with a message that says how to install it."""
    folder = os.environ.get("NLROUTE_LIB_DIR")
    if not folder:
        command = [os.environ.get("PKG_CONFIG", "pkg-config"), "--variable=libdir", "nlroute"]
        try:
            folder = subprocess.run(command, stdout=subprocess.PIPE, text=True, check=False).stdout.strip()
        except OSError as error:
            sys.exit(f"generate.py: {error}. Install pkg-config, or set NLROUTE_LIB_DIR")
    found = os.path.join(folder, "libnlroute.so")
    if not folder or not os.path.exists(found):
        sys.exit("generate.py: no libnlroute.so: run tools/install.sh PREFIX, and set NLROUTE_LIB_DIR to PREFIX/lib")
    return found


class Library:
    """The questions that the generator asks. A family is a number of enum nlroute_family."""

    def __init__(self, file=None):
        self.c = ctypes.CDLL(file or path())
        for name, (result, *arguments) in SIGNATURES.items():
            function = getattr(self.c, name)
            function.restype, function.argtypes = result, arguments
        self.room = ctypes.create_string_buffer(TEXT_ROOM)

    def version(self):
        """Returns NLROUTE_VERSION of the library."""
        return self.c.nlroute_version()

    def row(self, family, kind, inner):
        """Returns the row of an attribute type, or of an element if there is an `inner`; None if the type has no elements."""
        row = Row()
        code = self.c.nlroute_read_row(family, kind, inner or 0, inner is not None, byref(row))
        return None if code == BAD_ELEMENT else row

    def kind_of(self, family, kind, inner, name):
        """Returns the attribute type with a name, or that of an element in lists of type `kind`."""
        text = name.encode()
        if inner is None:
            return self.c.nlroute_kind_of(family, text, len(text))
        return self.c.nlroute_kind_of_in(family, kind, text, len(text))

    def number_of(self, family, value, name):
        """Returns the number, or the set with the bit, that has a name, or None."""
        number, text = c_uint64(), name.encode()
        code = self.c.nlroute_number_of(family, byref(value), text, len(text), byref(number))
        return None if code == ABSENT else number.value

    def family_name(self, family):
        """Returns the name of an attribute set, and the number of the set with this name."""
        name = self._stored(self.c.nlroute_family_name(family, self.room, TEXT_ROOM))
        return name, self.c.nlroute_family_of(name.encode(), len(name))

    def code_text(self, code):
        """Returns the meaning of an error code."""
        return self._stored(self.c.nlroute_code_text(code, self.room, TEXT_ROOM))

    def text(self, family, value):
        """Returns the text of a value."""
        return self._stored(self.c.nlroute_text(family, byref(value), b"", 0, self.room, TEXT_ROOM))

    def refuses(self, family, value):
        """Returns whether a value cannot be written."""
        return self.c.nlroute_text(family, byref(value), b"", 0, self.room, TEXT_ROOM) < 0

    def kind_name(self, family, value):
        """Returns the kernel's constant of an attribute type, `type 99`, or `[3]` for an element without a type."""
        return self._stored(self.c.nlroute_kind_name(family, byref(value), self.room, TEXT_ROOM))

    def number_name(self, family, value):
        """Returns the name of the number of a value, or None."""
        return self._stored(self.c.nlroute_number_name(family, byref(value), self.room, TEXT_ROOM))

    def flag_name(self, family, value, bit):
        """Returns the name of a bit of the flags of a value, or None."""
        return self._stored(self.c.nlroute_flag_name(family, byref(value), bit, self.room, TEXT_ROOM))

    def fields(self, family, value, data):
        """Returns the fields of the struct that a value with these bytes holds; none, if it holds no struct."""
        found, field = [], Field()
        while self.c.nlroute_read_field(family, byref(value), len(found), data, len(data), byref(field)) == 0:
            found.append(Field.from_buffer_copy(field))
        return found

    def _stored(self, length):
        if length == ABSENT:
            return None
        if not 0 <= length < TEXT_ROOM:
            raise RuntimeError(f"the library returns {length} for a text")
        return self.room.value.decode("utf-8")
