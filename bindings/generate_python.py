"""Writes python/nlroute/_kinds.py from the model: numbers of the C API, enums, sets of flags, keys, and what is known of
each attribute type."""
import textwrap

# The types of values, by form. Enums, flags and lists have their own.
PLAIN = {
    "empty": "None",
    "bool": "bool",
    "unsigned": "int",
    "signed": "int",
    "mac": "Mac",
    "ipv4": "IPv4Address",
    "ipv6": "IPv6Address",
    "bridge_id": "BridgeId",
    "vlan_info": "VlanInfo",
    "qos_mapping": "QosMapping",
    "berr_counter": "BerrCounter",
    "bittiming": "CanBitTiming",
    "bittiming_const": "CanBitTimingConst",
    "bytes": "bytes",
    "text": "Text",
    "held": "bytes",
    "peer": "bytes",
}
FORMATS = {1: "B", 2: "H", 4: "I", 8: "Q"}  # of struct.pack(), for unsigned numbers of so many bytes
TOP = '''\
"""Numbers of the C API, enums, flags and names of attributes. Written by bindings/generate.py."""
from __future__ import annotations

from enum import IntEnum
from typing import TYPE_CHECKING

from ._types import Flags, Key, Named, Row, Struct, Texts

if TYPE_CHECKING:
    from ipaddress import IPv4Address, IPv6Address

    from ._list import List
    from ._types import BerrCounter, BridgeId, CanBitTiming, CanBitTimingConst, Mac, Masked, QosMapping, Text, VlanInfo

'''


def text(model):
    """Returns the text of _kinds.py."""
    keys = {}
    for of in model.sets:
        for it in of.attributes:
            for that in (it, *it.elements, *([it.item] if it.item and it.item.name else [])):
                keys.setdefault(that.name, that)
    families = "".join(f'    {of.name.upper()} = {of.number}, "{of.name}"\n' for of in model.sets)
    codes = "".join(f'    {it.name} = {it.code}, "{it.text}"\n' for it in model.refusals)
    enums = [
        ("Place", "The part of an attribute that is malformed.", model.places),
        ("Cause", "What is wrong with it.", model.causes),
        ("Unit", "What a number counts.", {name.upper(): number for name, number in model.units.items()}),
    ]
    arrays = [it for of in model.sets for it in of.attributes if it.places]
    public = ["Family", "Code", *(name for name, _, _ in enums), *(it.name for it in model.types), *(it.places.name for it in arrays), *keys]
    parts = [TOP + f"VERSION = {model.version:#08x}  # of nlroute.h\n"]
    parts.append(f'\n\nclass Family(Texts):\n    """An attribute set: `Family("bond")` is `Family.BOND`."""\n\n{families}')
    parts += [enum(*it) for it in enums]
    parts.append(form_numbers(model))
    parts.append(f'\n\nclass Code(Named):\n    """An error code of the library."""\n{codes}')
    parts += [type_text(it, users(it, model)) for it in model.types]
    parts += [places(it) for it in arrays]
    parts.append("\n\n" + "".join(key(it) for it in keys.values()))
    parts.append("\nSETS: dict[Family, tuple[Row, ...]] = {\n" + "".join(set_text(of, model) for of in model.sets) + "}\n")
    parts.append("\n__all__ = [\n" + wrapped(", ".join(f'"{name}"' for name in public) + ",") + "]  # fmt: skip\n")
    return "".join(parts)


def wrapped(words):
    """Returns words in lines that are indented and not too long."""
    return textwrap.indent(textwrap.fill(words, 115), "    ") + "\n"


def users(type_, model):
    """Returns the names of the attributes and elements that have an enum or a set of flags."""
    rows = (it for of in model.sets for attribute in of.attributes for it in (attribute, *attribute.elements))
    return ", ".join(dict.fromkeys(it.name for it in rows if it.type == type_))


def enum(name, words, numbers):
    """Returns an enum of the header."""
    members = "".join(f"    {member} = {number}\n" for member, number in numbers.items())
    return f'\n\nclass {name}(IntEnum):\n    """{words}"""\n{members}'


def places(it):
    """Returns the places of an array."""
    members = {name.constant: name.number for name in it.places.names}
    return enum(it.places.name, f"Places of the array {it.name}: indices of its list.", members)


def form_numbers(model):
    """Returns the forms as plain numbers, which compare faster than members of an enum."""
    members = "".join(f"    {name.upper()} = {number}\n" for name, number in model.forms.items())
    return f'\n\nclass Form:\n    """The numbers of enum nlroute_form."""\n{members}'


def type_text(type_, names):
    """Returns an enum or a set of flags."""
    words = f"{'Flags' if type_.is_flags else 'Numbers'} of {names}."
    lines = wrapped(f'"""{words}"""')
    for it in type_.names:
        value = f"1 << {it.number}" if type_.is_flags else f'{it.number}, "{it.text}"'
        lines += f"    {it.constant} = {value}\n"
    return f"\n\nclass {type_.name}({'Flags' if type_.is_flags else 'Named'}):\n{lines}"


def python_type(it):
    """Returns the type of the values of an attribute."""
    if it.item:
        return f"list[{python_type(it.item)}]"
    if it.form == "list":
        return "List"
    if it.form in ("named", "flags"):
        return it.type.name
    if it.optional:
        return "bool | None"
    return f"Masked[{it.type.name}]" if it.form == "masked" else PLAIN[it.form]


def key(it):
    """Returns the constant for an attribute or an element."""
    unit = f"  # 100 is printed as {it.example}" if it.example else ""
    return f'{it.name}: Key[{python_type(it)}] = Key("{it.name}"){unit}\n'


def row(it, model, indent):
    """Returns the row of an attribute or an element."""
    words = f'Row("{it.name}", {it.kind}, {model.forms[it.form]}'
    if it.type:
        words += f", {it.type.name}"
    if it.unit != "none":
        words += f", unit=Unit.{it.unit.upper()}"
    if it.optional:
        words += ", optional=True"
    if it.item:
        words += f", item={row(it.item, model, '')}"
    if it.struct:
        words += f", struct={struct(it.struct)}"
    if it.elements:
        below = "".join(f"{indent}        {row(that, model, indent)},\n" for that in it.elements)
        words = f"{words}, elements=(\n{below}{indent}    )"
    return f"{words})"


def struct(it):
    """Returns the fields of a struct, with their formats."""
    fields = ", ".join(f'("{f.name}", {f.offset}, "{">" if f.is_big_endian else "="}{FORMATS[f.length]}")' for f in it.fields)
    return f"Struct({it.size}, ({fields}{',' * (len(it.fields) == 1)}))"


def set_text(of, model):
    """Returns the rows of a set."""
    rows = "".join(f"        {row(it, model, '    ')},\n" for it in of.attributes)
    return f"    Family.{of.name.upper()}: (\n{rows}    ),\n"
