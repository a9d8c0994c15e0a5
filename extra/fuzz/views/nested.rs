//! Compares views of nested lists with the values in them.

use crate::items::are_viewed;
use crate::{ELEMENTS, expect};
use link_base::Attribute;
use link_base::views::attribute_set::Set;
use link_base::views::view::Value;
use link_base::views::viewing::view_list;
use netlink_packet_route::{FamilySet, families, link, view_elements};
use std::alloc::Global;

/// A value that may hold the values of a nested list.
pub(crate) trait Nested: Attribute {
    /// Compares the views of the nested list, of an attribute set and of a `Family`, with the values that this value
    /// holds. There must be none if it holds none.
    fn is_nested(&self, alloc: Global, views: Views<'_, '_, Self>) -> Result<(), isize>;
}

/// The views of an attribute, of an attribute set and of a `Family`.
pub(crate) type Views<'a, 'b, S> = (&'a Value<'b, Set<S>>, &'a Value<'b, FamilySet>);

/// Compares nested lists in a value of an attribute set: in the variants that may hold one.
macro_rules! nested {
    (AfSpecBridge $($parts:tt)*) => { in_variants!(AfSpecBridge [VlanTunnelInfo] $($parts)*) };
    (InfoBond $($parts:tt)*) => { in_variants!(InfoBond [AdInfo] $($parts)*) };
    (InfoBridge $($parts:tt)*) => { in_variants!(InfoBridge [MulticastQuerierState] $($parts)*) };
    (InfoVlan $($parts:tt)*) => { in_variants!(InfoVlan [EgressQos IngressQos] $($parts)*) };
    (InfoCan $($parts:tt)*) => { in_variants!(InfoCan [Tdc CtrlModeExt] $($parts)*) };
    ($set:ident $($parts:tt)*) => { in_variants!($set [] $($parts)*) };
}

macro_rules! in_variants {
    ($set:ident [$($variant:ident)*] $value:ident $alloc:ident $views:ident) => {
        match $value {
            $(link::$set::$variant(values) => are_elements($alloc, $views, values),)*
            _ => expect($views.0.elements().is_none() && view_elements($views.1).is_none(), ELEMENTS),
        }
    };
}

macro_rules! each_set {
    ($($variant:ident $name:tt $set:ident $number:tt $holder:ident $held:tt)*) => {
        $(impl Nested for link::$set {
            fn is_nested(&self, alloc: Global, views: Views<'_, '_, Self>) -> Result<(), isize> {
                let value = self;
                nested!($set value alloc views)
            }
        })*
    };
}

families!([each_set]);

fn are_elements<F: Attribute, E: Attribute>(
    alloc: Global,
    (one, other): Views<'_, '_, F>,
    values: &[E],
) -> Result<(), isize> {
    let views = (one.elements(), view_elements(other), view_list::<E>(one.buffer().value()));
    let (Some(elements), Some(others), Ok(alone)) = views else {
        return Err(ELEMENTS);
    };
    are_viewed(alloc, elements, values)?;
    are_viewed(alloc, others, values)?;
    are_viewed(alloc, alone, values)
}
