"""Writes rust/src/attributes.rs from the model: an enum for the attributes of each set, and for the elements of each list."""
from generate_rust import comment, has_own_module, module_of, rust_type
from model import camel

TOP = """\
//! The attributes of each set, and the elements of each list, as enums. Written by bindings/generate.py.
use crate::macros::attributes;
use crate::*;
use std::net::{Ipv4Addr, Ipv6Addr};
"""


def text(model):
    """Returns the text of attributes.rs."""
    seen, parts = set(), [TOP]
    for of in model.sets:
        names = {it.name for it in of.attributes}
        # (as in kinds.rs, the second set with a name has a module)
        path = f"{of.name}::" if seen & names else ""
        seen |= names
        words = f"Holds an attribute of [`{camel(of.name)}`], as a variant for its type."
        parts.append(enum(camel(of.name), words, of.attributes, path))
        for it in of.attributes:
            if it.elements:
                inner = f"{path}{module_of(it)}::" if has_own_module(it, of) else path
                at = link(it, path)
                parts.append(enum(camel(it.name), f"Holds an element of {at}, as a variant for its type.", it.elements, inner))
    return "\n".join(parts)


def link(it, path):
    """Returns a link to the key of an attribute or an element."""
    return f"[`{it.name}`]({path}{it.name})" if path else f"[`{it.name}`]"


def enum(scope, words, rows, path):
    """Returns the enum of a scope. The keys of its rows have a path."""
    lines = "".join(row(it, path) for it in rows)
    return f"attributes! {{\n{comment(words)}    {scope}Attribute of {scope};\n{lines}}}\n"


def row(it, path):
    """Returns the variant of an attribute or an element."""
    holds = "" if it.form == "empty" else f"({rust_type(it)})"
    words = f"{'Holds' if holds else 'Represents'} {link(it, path)}."
    return f"{comment(words)}    {it.variant}{holds} = {it.kind};\n"
