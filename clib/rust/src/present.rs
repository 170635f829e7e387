//! Who is present, and whether a place can be true.
#[cfg(feature = "alloc")]
use crate::Frame;
use crate::{sys, Angle, Position, Watch};
#[cfg(feature = "alloc")]
use alloc::vec::Vec;

/// An aircraft that is present, and what is kept of it. A frame or a fix that is older than the window is kept, but no
/// longer used.
#[cfg(feature = "alloc")]
#[derive(Clone, Copy, Debug, PartialEq, Eq)]
pub struct Present {
    /// The ICAO address.
    pub address: u32,
    /// The timestamp (ms) of its newest position frame.
    pub moment: u64,
    /// What is kept of it in the air.
    pub airborne: Side,
    /// What is kept of it on the ground.
    pub surface: Side,
}

/// The newest frames and the last fix of an aircraft in the air or on the ground, each with its timestamp (ms).
#[cfg(feature = "alloc")]
#[derive(Clone, Copy, Debug, PartialEq, Eq)]
pub struct Side {
    /// The newest even frame.
    pub even: Option<(u64, Frame)>,
    /// The newest odd frame.
    pub odd: Option<(u64, Frame)>,
    /// The position of the newest fix or followed position. Its fractions are not reduced.
    pub fix: Option<(u64, Position)>,
}

#[cfg(feature = "alloc")]
impl Side {
    fn of(side: &sys::Side) -> Side {
        let frame = |it: &sys::Received| (it.frame != [0; 14]).then_some((it.moment, Frame(it.frame)));
        let fix = (side.fix.position.lat.den > 0).then_some((side.fix.moment, side.fix.position));
        Side { even: frame(&side.even), odd: frame(&side.odd), fix }
    }
}

/// Returns the entries that a call writes from an index on, until there are no more. The call writes at most as many as
/// there is room for at the pointer, and returns how many it wrote.
#[cfg(feature = "alloc")]
pub(crate) fn present_in(call: impl Fn(usize, *mut sys::Entry, usize) -> usize) -> Vec<Present> {
    const AT_ONCE: usize = 64;
    let (mut found, mut entries) = (Vec::new(), Vec::with_capacity(AT_ONCE));
    loop {
        entries.clear();
        let count = call(found.len(), entries.as_mut_ptr(), AT_ONCE);
        // Safety: so many were written.
        unsafe { entries.set_len(count) };
        found.extend(entries.iter().map(|it: &sys::Entry| Present {
            address: it.address,
            moment: it.moment,
            airborne: Side::of(&it.airborne),
            surface: Side::of(&it.surface),
        }));
        if count < AT_ONCE {
            return found;
        }
    }
}

impl Watch {
    /// A doubt: the place is further from the site than the range.
    pub const BEYOND_RANGE: u32 = 1;
    /// A doubt: the aircraft would be faster than the speed.
    pub const TOO_FAST: u32 = 2;

    /// Returns why a place at a timestamp (ms) cannot be true: [`Watch::BEYOND_RANGE`], [`Watch::TOO_FAST`], their sum,
    /// or 0. `before` is the last place of the aircraft and its timestamp. A place that is out of range has no doubts.
    pub fn doubts(
        &self, site: Option<&Position>, before: Option<&(u64, Position)>, moment: u64, place: &Position,
    ) -> u32 {
        let none = Position { lat: Angle { num: 0, den: 0 }, lon: Angle { num: 0, den: 0 } };
        let (last, position) = *before.unwrap_or(&(0, none));
        let before = sys::LastFix { moment: last, position };
        // Safety: the call reads what it is given.
        unsafe { sys::squitter_doubts(self, site.unwrap_or(&none), &before, moment, place) }
    }
}
