//! Compares the views of a list with its values.

use crate::items::{are_viewed, is_viewed};
use crate::nested::Nested;
use crate::{CANONICAL, CHECK, COUNT, ERROR, FIRST, ITEM, NO_MEMORY, expect};
use link_base::views::viewing;
use link_base::{
    Attribute, DecodeError, DecodeFault, ListError, ListFault, NlaBuffer, NlasIterator, check_list,
    list_is_canonical, padded, read_list,
};
use netlink_packet_route::{Family, first_not_canonical, view_all, view_list};
use std::alloc::Global;

/// Compares the views of the list in `bytes` with its values. The error is the number of what differs.
pub(crate) fn compared<F: Nested>(
    alloc: Global,
    family: Family,
    bytes: &[u8],
) -> Result<(), isize> {
    let checked = check_list::<F>(bytes);
    match read_list::<F>(alloc, bytes) {
        Ok(values) => {
            expect(checked == Ok(values.len()), CHECK)?;
            let views = (viewing::view_list::<F>(bytes), view_list(family, bytes));
            let (Ok(mut ones), Ok(mut others)) = views else {
                return Err(ERROR);
            };
            are_viewed(alloc, ones, &values)?;
            are_viewed(alloc, others, &values)?;
            for value in &values {
                let (Some(one), Some(other)) = (ones.next(), others.next()) else {
                    return Err(COUNT);
                };
                value.is_nested(alloc, (&one, &other))?;
            }
        }
        Err(ListError::Memory(_)) => return Err(NO_MEMORY),
        Err(ListError::Fault { at, fault }) => {
            let first = Some(ListFault { at, fault });
            expect(checked.err() == first, CHECK)?;
            expect(viewing::view_list::<F>(bytes).err() == first, ERROR)?;
            expect(view_list(family, bytes).err() == first, ERROR)?;
        }
    }
    all_compared::<F>(alloc, family, bytes, checked)
}

/// Compares each item of `view_all` with the attribute at its offset. `checked` is the result of `check_list`.
fn all_compared<F: Attribute>(
    alloc: Global,
    family: Family,
    bytes: &[u8],
    checked: Result<usize, ListFault>,
) -> Result<(), isize> {
    let not_canonical = first_not_canonical(family, bytes);
    let mut is_there = false;
    let mut ones = viewing::view_all::<F>(bytes);
    let mut others = view_all(family, bytes);
    let (mut at, mut count, mut first) = (0, 0, None);
    for item in NlasIterator::new(bytes) {
        expect(ones.offset() == at && others.offset() == at, ITEM)?;
        is_there = is_there || not_canonical == Some(at);
        let mut size = bytes.len();
        let wanted = match item {
            Ok(buffer) => {
                expect(is_there || F::canonical(&buffer), CANONICAL)?;
                size = padded(usize::from(buffer.length()));
                parsed_alone::<F>(alloc, buffer)?
            }
            Err(DecodeError::Fault(fault)) => Err(fault),
            Err(DecodeError::Memory(_)) => return Err(NO_MEMORY),
        };
        match (wanted, ones.next(), others.next()) {
            (Ok((buffer, value)), Some(Ok(one)), Some(Ok(other))) => {
                expect(one.buffer() == buffer && other.buffer() == buffer, ITEM)?;
                is_viewed(alloc, &one, &value)?;
                is_viewed(alloc, &other, &value)?;
                count += 1;
            }
            (Err(fault), Some(Err(one)), Some(Err(other))) => {
                let fault = ListFault { at, fault };
                expect(one == fault && other == fault, ITEM)?;
                first = first.or(Some(fault));
            }
            _ => return Err(ITEM),
        }
        at = (at + size).min(bytes.len());
    }
    expect(ones.offset() == at && others.offset() == at, ITEM)?;
    expect(at == bytes.len(), ITEM)?;
    for _ in 0..2 {
        expect(ones.next().is_none() && others.next().is_none(), ITEM)?;
    }
    expect(first == checked.err() && checked.unwrap_or(count) == count, FIRST)?;
    let is_canonical = list_is_canonical::<F>(bytes);
    expect(is_canonical == not_canonical.is_none(), CANONICAL)?;
    expect(is_there == not_canonical.is_some(), CANONICAL)?;
    expect(!is_canonical || checked.is_ok(), CANONICAL)
}

/// Parses an attribute alone, and compares the result with that of `check`.
fn parsed_alone<'a, F: Attribute>(
    alloc: Global,
    buffer: NlaBuffer<'a>,
) -> Result<Result<(NlaBuffer<'a>, F), DecodeFault>, isize> {
    match (F::check(&buffer), F::parse(alloc, &buffer)) {
        (_, Err(DecodeError::Memory(_))) => Err(NO_MEMORY),
        (Ok(()), Ok(value)) => Ok(Ok((buffer, value))),
        (Err(one), Err(DecodeError::Fault(other))) if one == other => Ok(Err(one)),
        _ => Err(CHECK),
    }
}
