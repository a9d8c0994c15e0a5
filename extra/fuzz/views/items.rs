//! Compares attributes of a view with their values.

use crate::{COUNT, FORM, FOUND, LABEL, NO_MEMORY, NUMBER, VALUE, expect};
use link_base::rows::form::{Role, Width};
use link_base::views::attribute_set::AttributeSet;
use link_base::views::content::Content;
use link_base::views::view::{Value, View};
use link_base::{Attribute, DecodeError, NlaBuffer};
use std::alloc::Global;

/// The number of attributes whose types are looked for.
const MOST: usize = 16;

/// Compares the attributes of a view with as many values, and with those that `first` and `find` return.
pub(crate) fn are_viewed<S: AttributeSet, E: Attribute>(
    alloc: Global,
    view: View<'_, S>,
    values: &[E],
) -> Result<(), isize> {
    expect(view.len() == values.len(), COUNT)?;
    let mut items = view;
    for value in values {
        let Some(item) = items.next() else {
            return Err(COUNT);
        };
        is_viewed(alloc, &item, value)?;
    }
    expect(items.next().is_none(), COUNT)?;
    are_found(alloc, view)
}

/// Compares an attribute of a view with its value.
pub(crate) fn is_viewed<S: AttributeSet, E: Attribute>(
    alloc: Global,
    item: &Value<'_, S>,
    value: &E,
) -> Result<(), isize> {
    let buffer = item.buffer();
    match E::parse(alloc, &buffer) {
        Ok(parsed) => expect(parsed == *value, VALUE)?,
        Err(DecodeError::Memory(_)) => return Err(NO_MEMORY),
        Err(DecodeError::Fault(_)) => return Err(VALUE),
    }
    expect(E::check(&buffer).is_ok(), VALUE)?;
    let content = item.content();
    let label = item.label();
    expect(label == E::label(None, item.kind()), LABEL)?;
    expect(content.form() == label.map(|it| it.form), FORM)?;
    expect(are_numbers(item, content), NUMBER)
}

/// Checks the numbers of an attribute: there is one if and only if the content is an unsigned number of this width.
fn are_numbers<S: AttributeSet>(item: &Value<'_, S>, content: Content<'_>) -> bool {
    let of_width = |size: Width| match content {
        Content::Number { number, width, role: Role::Plain | Role::Coded, .. } if width == size => Some(number),
        _ => None,
    };
    item.as_u8().map(u64::from) == of_width(Width::One)
        && item.as_u16().map(u64::from) == of_width(Width::Two)
        && item.as_u32().map(u64::from) == of_width(Width::Four)
        && item.as_u64() == of_width(Width::Eight)
}

/// Checks `first` and `find` of a view, for the types of the first attributes, and for others.
fn are_found<S: AttributeSet>(alloc: Global, view: View<'_, S>) -> Result<(), isize> {
    let mut buffers = Vec::new(alloc);
    for item in view {
        expect(buffers.push(item.buffer()).is_ok(), NO_MEMORY)?;
    }
    is_found(view, &buffers, 0x3FFF)?;
    for one in buffers.iter().take(MOST) {
        is_found(view, &buffers, one.kind())?;
        is_found(view, &buffers, one.kind() ^ 1)?;
        // no type has a flag
        is_found(view, &buffers, one.kind() | 0x8000)?;
    }
    Ok(())
}

fn is_found<S: AttributeSet>(
    view: View<'_, S>,
    buffers: &[NlaBuffer<'_>],
    kind: u16,
) -> Result<(), isize> {
    let mut first = None;
    let mut last = None;
    for one in buffers.iter().filter(|it| it.kind() == kind) {
        first = first.or(Some(*one));
        last = Some(*one);
    }
    let is_first = view.first(kind).map(|it| it.buffer()) == first;
    let is_last = view.find(kind).map(|it| it.buffer()) == last;
    expect(is_first && is_last, FOUND)
}
