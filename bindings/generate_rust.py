"""Writes rust/src/kinds.rs from the model: attribute types as keys, enums, sets of flags, forms and error codes."""
import re

from model import camel

# The types of values, by form. Numbers, enums, flags and lists have their own.
PLAIN = {
    "empty": "()",
    "bool": "bool",
    "mac": "Mac",
    "ipv4": "Ipv4Addr",
    "ipv6": "Ipv6Addr",
    "bridge_id": "BridgeId",
    "vlan_info": "VlanInfo",
    "qos_mapping": "QosMapping",
    "berr_counter": "BerrCounter",
    "bittiming": "CanBitTiming",
    "bittiming_const": "CanBitTimingConst",
    "bytes": "Vec<u8>",
    "text": "Text",
    "held": "Held",
    "peer": "Peer",
}
# The kernel's header of a constant, by its start. All others are in if_link.h.
HEADERS = {
    "IFLA_BRIDGE_": "if_bridge.h",
    "BRIDGE_QUERIER_": "if_bridge.h",
    "IFLA_CAN_": "can/netlink.h",
    "NLMSGERR_": "netlink.h",
    "VETH_": "veth.h",
    "DEVLINK_": "devlink.h",
    "DPLL_": "dpll.h",
}
NEW_LINE = "\n    "
TOP = """\
//! Attribute types as keys, and the enums and sets of flags of their values. Written by bindings/generate.py.
use crate::macros::{{elements, families, flags, named, packed, scope}};
use crate::*;
use std::net::{{Ipv4Addr, Ipv6Addr}};

/// `NLROUTE_VERSION` of the header.
pub(crate) const VERSION: u32 = {version:#08x};

/// The numbers of `enum nlroute_form`.
pub(crate) mod form {{
{forms}}}

/// The numbers of `enum nlroute_unit`.
pub(crate) mod unit {{
{units}}}

/// The numbers of `enum nlroute_refusal`.
pub(crate) mod refusal {{
{refusals}}}

/// The types of elements that are all alike.
pub(crate) mod item {{
{items}}}

/// Returns the meaning of an error code, as `nlroute_refusal_text()`.
pub(crate) fn refusal_text(code: isize) -> &'static str {{
    match code {{
{texts}        _ => "unknown error",
    }}
}}
"""


def text(model):
    """Returns the text of kinds.rs."""
    seen = set()
    parts = [top(model), families(model), *(type_text(it, model) for it in model.types)]
    parts += [struct_text(it, model) for it in model.structs]
    for of in model.sets:
        keys = [it.name for it in of.attributes]
        body = set_text(of)
        # Two sets have an attribute of this name: the second one has a module
        if seen.intersection(keys):
            body = module(of, body)
        seen.update(keys)
        parts.append(f"scope! {{\n{comment(scope_comment(of))}    {camel(of.name)};\n}}\n")
        parts.append(body)
    parts += [places(it) for of in model.sets for it in of.attributes if it.places]
    parts.append(visits(model))
    return "\n".join(parts)


def places(it):
    """Returns the places of an array as constants in a module."""
    lines = "".join(
        f"    /// Is the place of `{name.text}`.\n    pub const {name.constant}: usize = {name.number};\n"
        for name in it.places.names
    )
    words = comment(f"Has the places of the array [`{it.name}`]: indices of its `Vec`.", "")
    module_name = re.sub(r"(?<!^)(?=[A-Z])", "_", it.places.name).lower()
    return f"{words}pub mod {module_name} {{\n{lines}}}\n"


def top(model):
    """Returns the constants of the header."""
    items = {it.item.name: it.item.kind for of in model.sets for it in of.attributes if it.item and it.item.name}
    return TOP.format(
        items="".join(f"    pub const {name}: u16 = {kind};\n" for name, kind in items.items()),
        version=model.version,
        forms="".join(f"    pub const {it.upper()}: u8 = {number};\n" for it, number in model.forms.items() if number),
        units="".join(f"    pub const {it.upper()}: u32 = {number};\n" for it, number in model.units.items() if number),
        refusals="".join(f"    pub const {it.name}: isize = {it.code};\n" for it in model.refusals),
        texts="".join(f"        refusal::{it.name} => \"{it.text}\",\n" for it in model.refusals),
    )


def comment(words, indent="    "):
    """Returns a doc comment in lines that are not too long."""
    lines, line = [], ""
    for word in words.split(" "):
        if line and len(indent) + len(line) + len(word) > 112:
            lines, line = [*lines, line], ""
        line = f"{line} {word}" if line else word
    return "".join(f"{indent}/// {it}\n" for it in [*lines, line])


def families(model):
    """Returns the enum of attribute sets."""
    rows = ""
    for of in model.sets:
        words = re.sub(r"\b[A-Z]+_[A-Z_]+\b", r"`\g<0>`", of.words)
        rows += f"{comment(f'Names {words}.')}    {camel(of.name)} = {of.number}, \"{of.name}\";\n"
    return f"families! {{\n{rows}}}\n"


def users(type_, model):
    """Yields the paths of the keys that have an enum or flags."""
    for of in model.sets:
        for attribute in of.attributes:
            for it in (attribute, *attribute.elements):
                if it.type == type_:
                    yield it.name


def type_text(type_, model):
    """Returns an enum or a set of flags."""
    of = ", ".join(f"[`{name}`]" for name in users(type_, model))
    what = "Represents flags of" if type_.is_flags else "Represents the number of"
    kept = "Bits without a name are kept." if type_.is_flags else "Numbers without a name are kept."
    lines = []
    for it in type_.names:
        # (the text of a flag is its name, if that may be one)
        name = "" if type_.is_flags and it.text == it.constant else f', "{it.text}"'
        lines.append(f"    {it.constant} = {it.number}{name};\n")
    macro = "flags" if type_.is_flags else "named"
    return f"{macro}! {{\n{comment(f'{what} {of}. {kept}')}    {type_.name}: u{type_.bits};\n{''.join(lines)}}}\n"


def struct_text(struct, model):
    """Returns a struct that is bytes in C."""
    rows = (it for of in model.sets for attribute in of.attributes for it in (attribute, *attribute.elements))
    of = ", ".join(dict.fromkeys(f"[`{it.name}`]" for it in rows if it.struct == struct))
    lines = ""
    for it in struct.fields:
        order = "be" if it.is_big_endian else "ne"
        lines += f"    {it.name}: u{8 * it.length} = {it.offset}, to_{order}_bytes, from_{order}_bytes;\n"
    words = comment(f"Represents the bytes of {of} by their fields. Convert it by `into`, to write it.")
    return f"packed! {{\n{words}    {struct.name}: {struct.size};\n{lines}}}\n"


def scope_comment(of):
    """Returns the comment for the type of a set."""
    return f"Represents the attribute set [`Family::{camel(of.name)}`] in types."


def rust_type(it):
    """Returns the type of the values of an attribute."""
    if it.item:
        return f"Vec<{rust_type(it.item)}>"
    if it.form == "list":
        return f"Nested<{camel(it.name)}>"
    if it.form in ("unsigned", "signed"):
        return f"{it.form[0].replace('s', 'i')}{it.bits}"
    if it.form in ("named", "flags"):
        return it.type.name
    if it.form == "masked":
        return f"Masked<{it.type.name}>"
    return PLAIN[it.form]


def header(name):
    """Returns the kernel's header that has a constant."""
    if name.startswith("AF_"):
        return "include/linux/socket.h"
    found = next((file for start, file in HEADERS.items() if name.startswith(start)), "if_link.h")
    return f"include/uapi/linux/{found}"


def key(it, scope, of):
    """Returns the constant for an attribute or an element."""
    words = f"Selects `{it.name}` of {of} (`{header(it.name)}`)."
    if it.example:
        words += f" 100 is printed as `{it.example}`."
    head, value = f"pub const {it.name}: Key<{scope}, {rust_type(it)}> =", f'Key::new({it.kind}, "{it.name}");'
    # (as cargo fmt has it)
    return f"{comment(words, '')}{head}{' ' if len(head) + len(value) < 120 else NEW_LINE}{value}\n"


def set_text(of):
    """Returns the keys of a set, and its lists of elements."""
    scope, parts = camel(of.name), []
    for it in of.attributes:
        if it.elements:
            words = comment(f"Represents the elements of [`{it.name}`] in types.")
            parts.append(f"elements! {{\n{words}    {camel(it.name)} of {scope} = {it.kind};\n}}\n")
        parts.append(key(it, scope, f"[`{scope}`]"))
        elements = [key(that, camel(it.name), f"[`{it.name}`]") for that in it.elements]
        parts.append(own_module(it, "".join(elements)) if has_own_module(it, of) else "".join(elements))
    return "".join(parts)


def has_own_module(it, of):
    """Returns whether elements of a nested list have names that attributes of its set have, too."""
    return bool({that.name for that in it.elements} & {that.name for that in of.attributes})


def own_module(it, body):
    """Returns the keys of a nested list as a module of its own."""
    inner = "".join(f"    {line}\n" for line in body.splitlines())
    words = comment(f"Has the keys of [`{it.name}`], of which its set has some with the same names.", "")
    return f"{words}pub mod {module_of(it)} {{\n    use crate::*;\n\n{inner}}}\n"


def module_of(it):
    return it.name.removeprefix("IFLA_").lower()


def module(of, body):
    """Returns a set as a module of its own."""
    inner = "".join(f"    {line}\n" if line else "\n" for line in body.splitlines())
    words = comment(f"Has the keys of [`{camel(of.name)}`], of which other sets have some with the same names.", "")
    return f"{words}pub mod {of.name} {{\n    use crate::*;\n\n{inner}}}\n"


def visits(model):
    """Returns a function that calls a visitor for each key, for tests."""
    seen, lines = set(), []
    for of in model.sets:
        for it in of.attributes:
            path = f"{of.name}::{it.name}" if it.name in seen else it.name
            seen.add(it.name)
            lines.append(f'    visitor.attribute("{it.name}", {path});\n')
            at = f"{module_of(it)}::" if has_own_module(it, of) else ""
            lines.extend(f'    visitor.element({path}, "{that.name}", {at}{that.name});\n' for that in it.elements)
    head = "pub(crate) fn visit_keys(visitor: &mut impl crate::tests::Visitor) {\n"
    return f"/// Calls a visitor for each key.\n#[cfg(test)]\n{head}{''.join(lines)}}}\n"
