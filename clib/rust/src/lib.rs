#![doc = include_str!("../README.md")]
#![no_std]
#![warn(missing_docs)]
#[cfg(feature = "alloc")]
extern crate alloc;
#[cfg(feature = "std")]
extern crate std;

mod feed;
mod held;
mod present;
#[allow(missing_docs)]
#[cfg_attr(not(feature = "alloc"), allow(dead_code))]
mod sys;
mod tracking;

use core::{fmt, mem::MaybeUninit, str::FromStr};
pub use feed::{Feed, FeedSettings, Format, Frames};
pub use sys::{AirHead, Altitude, Angle, Counts, Fault, Fields, GroundHead, Position, Tally, Watch};
#[cfg(feature = "alloc")]
pub use {present::{Present, Side}, tracking::State};
pub use tracking::{Answers, Heard, Line, Log, Reply, Settings, Tracker};

macro_rules! codes {
    ($($name:ident = $number:literal: $what:literal;)*) => {
        /// The codes; squitter.h says when a call returns each.
        impl Fault {
            $(#[doc = $what] pub const $name: u32 = $number;)*
        }
    };
}
codes! {
    WRAP = 1: "One of `*` and `;` without the other.";
    SHORT = 2: "A reply of 56 bits.";
    LENGTH = 3: "The body has `first` bytes.";
    DIGIT = 4: "Byte `first` of the body is no hexadecimal digit.";
    NOT_DF17 = 5: "The downlink format is `first`.";
    PARITY = 6: "The remainder of the parity is `first`, not 0.";
    NOT_POSITION = 10: "The squitter carries no position.";
    OTHER_ADDRESS = 11: "The addresses of a pair differ.";
    OTHER_KIND = 12: "One of a pair is in the air and one on the ground.";
    SAME_PARITY = 13: "Both of a pair are even, or both are odd.";
    NO_SITE = 14: "A surface pair needs a site.";
    OUT_OF_RANGE = 15: "A latitude would lie outside -90 to 90 degrees.";
    ZONE_COUNTS = 16: "The zone counts (NL), even `first`, odd `second`, differ.";
    BAD_POSITION = 20: "The reference, the site or the position is invalid.";
    BAD_FIELDS = 21: "A field is out of range.";
    BAD_ANGLE = 22: "The fraction is no valid angle.";
    BAD_LATITUDE = 23: "The fraction is no valid latitude.";
    BAD_FEET = 24: "No altitude field encodes these feet.";
    BAD_PARITY = 25: "The parity is neither 0 nor 1.";
    NOT_A_NUMBER = 30: "A text is no number.";
    TOO_MANY_DECIMALS = 31: "More than twelve decimals.";
    ANGLE_RANGE = 32: "The magnitude is above 360 degrees.";
    LONG_LINE = 40: "A line has more than 64 bytes.";
    BAD_MOMENT = 41: "A line does not begin with a timestamp.";
    MOMENT_BACK = 42: "The timestamp is before the last one, `first`.";
    TABLE_FULL = 43: "As many other addresses as the limit are present.";
    NO_MEMORY = 44: "The memory is too small, or there is none.";
    NO_LIMIT = 45: "The limit is 0.";
    NO_TRACKER = 46: "There is no tracker, log or feed.";
    LONG_LOG = 48: "A log has 2^63 lines, or a piece more than 2^61 bytes.";
    BAD_FORMAT = 49: "No format has this number.";
    BAD_ENTRY = 50: "No tracker with these settings can hold the entry at index `first`.";
}

impl Fault {
    pub(crate) const fn of(code: u32) -> Fault {
        Fault { code, second: 0, first: 0 }
    }
}

/// Writes the text at the start of a buffer, up to the first zero.
fn write_text(f: &mut fmt::Formatter<'_>, bytes: &[u8]) -> fmt::Result {
    let end = bytes.iter().position(|&byte| byte == 0).unwrap_or(bytes.len());
    f.pad(core::str::from_utf8(&bytes[..end]).map_err(|_| fmt::Error)?)
}

impl fmt::Display for Fault {
    fn fmt(&self, f: &mut fmt::Formatter<'_>) -> fmt::Result {
        let mut out = [0; 64];
        // Safety: both pointers are to whole objects.
        unsafe { sys::squitter_text_of_fault(self, &mut out) };
        write_text(f, &out)
    }
}

impl fmt::Debug for Fault {
    fn fmt(&self, f: &mut fmt::Formatter<'_>) -> fmt::Result {
        write!(f, "Fault({}: {self})", self.code)
    }
}

#[cfg(feature = "std")]
impl std::error::Error for Fault {}

/// Returns what a call wrote, or its fault.
///
/// Safety: the call writes the whole value if its fault is 0, and any bytes are a value of this type.
unsafe fn got<T>(call: impl FnOnce(*mut T) -> Fault) -> Result<T, Fault> {
    let mut out = MaybeUninit::zeroed();
    let fault = call(out.as_mut_ptr());
    if fault.code == 0 {
        Ok(out.assume_init())
    } else {
        Err(fault)
    }
}

/// A frame of 112 bits, or one of 56 bits and seven zeros, which a feed of all formats gives.
#[derive(Clone, Copy, Debug, PartialEq, Eq, Hash)]
#[repr(transparent)]
pub struct Frame(pub [u8; 14]);

impl FromStr for Frame {
    type Err = Fault;
    /// Parses 28 hexadecimal digits, bare or between `*` and `;`.
    fn from_str(text: &str) -> Result<Frame, Fault> {
        // Safety: of `got`; a slice's pointer is not null.
        unsafe { got(|out| sys::squitter_frame_of_text(text.as_ptr(), text.len(), out)) }.map(Frame)
    }
}

impl fmt::Display for Frame {
    fn fmt(&self, f: &mut fmt::Formatter<'_>) -> fmt::Result {
        let mut out = [0; 28];
        // Safety: both pointers are to whole objects.
        unsafe { sys::squitter_text_of_frame(&self.0, &mut out) };
        write_text(f, &out)
    }
}

impl Frame {
    /// Reads the fields.
    pub fn read(&self) -> Result<Fields, Fault> {
        // Safety: of `got`.
        unsafe { got(|out| sys::squitter_read_frame(&self.0, out)) }
    }
    /// Decodes the position near a reference, within half a zone of it.
    pub fn local(&self, near: &Position) -> Result<Position, Fault> {
        // Safety: of `got`.
        unsafe { got(|out| sys::squitter_local(&self.0, near, out)) }
    }
    /// Encodes a position in the air.
    pub fn of_air(head: &AirHead, at: &Position) -> Result<Frame, Fault> {
        // Safety: of `got`.
        unsafe { got(|out| sys::squitter_encode_air(head, at, out)) }.map(Frame)
    }
    /// Encodes a position on the ground.
    pub fn of_ground(head: &GroundHead, at: &Position) -> Result<Frame, Fault> {
        // Safety: of `got`.
        unsafe { got(|out| sys::squitter_encode_ground(head, at, out)) }.map(Frame)
    }
}

/// Decodes the position of the newer of an even and an odd frame. On the ground the site (receiver position) is needed.
pub fn pair(older: &Frame, newer: &Frame, site: Option<&Position>) -> Result<Position, Fault> {
    // Safety: of `got`.
    unsafe {
        got(|out| match site {
            None => sys::squitter_pair(&older.0, &newer.0, out),
            Some(site) => sys::squitter_pair_at(&older.0, &newer.0, site, out),
        })
    }
}

/// Decodes an altitude field of 12 bits in an airborne position of this type code.
pub fn altitude(type_code: u8, field: u16) -> Result<Altitude, Fault> {
    // Safety: of `got`.
    unsafe { got(|out| sys::squitter_feet_of_field(type_code, field, out)) }
}

/// Encodes an altitude as a field, in steps of 25 feet.
pub fn altitude_field(feet: i32) -> Result<u16, Fault> {
    // Safety: of `got`.
    unsafe { got(|out| sys::squitter_field_of_feet(feet, out)) }
}

/// Returns the version of the library: 65536 * major + 256 * minor + patch.
pub fn version() -> u32 {
    // Safety: the call takes nothing.
    unsafe { sys::squitter_version() }
}

impl FromStr for Angle {
    type Err = Fault;
    /// Parses degrees, such as `-33.9`.
    fn from_str(text: &str) -> Result<Angle, Fault> {
        // Safety: of `got`; a slice's pointer is not null.
        unsafe { got(|out| sys::squitter_angle_of_text(text.as_ptr(), text.len(), out)) }
    }
}

impl Angle {
    /// Returns the number of longitude zones (NL) at this latitude.
    pub fn zone_count(&self) -> Result<u8, Fault> {
        // Safety: of `got`.
        unsafe { got(|out| sys::squitter_zone_count(self, out)) }
    }
    /// Returns the degrees, rounded to a double.
    pub fn degrees(&self) -> f64 {
        self.num as f64 / self.den as f64
    }
}

impl fmt::Display for Angle {
    /// Writes the degrees with seven decimals, rounded half away from zero. An invalid angle is an error.
    fn fmt(&self, f: &mut fmt::Formatter<'_>) -> fmt::Result {
        // Safety: of `got`.
        let text = unsafe { got(|out| sys::squitter_text_of_angle(self, out)) }.map_err(|_| fmt::Error)?;
        write_text(f, &text)
    }
}

impl fmt::Display for Position {
    fn fmt(&self, f: &mut fmt::Formatter<'_>) -> fmt::Result {
        write!(f, "{} {}", self.lat, self.lon)
    }
}
