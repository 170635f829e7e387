//! Declarations of squitter.h, as far as this crate uses it. The sizes are those that squitter.h states.
use core::mem::size_of;

/// An error that a call returns, or `code` 0: one of the codes of squitter.h, with its numbers.
#[repr(C)]
#[derive(Clone, Copy, PartialEq, Eq)]
pub struct Fault {
    /// One of the constants.
    pub code: u32,
    /// 0, or the second number of the fault.
    pub second: u32,
    /// 0, or the first number of the fault.
    pub first: u64,
}

/// num/den degrees.
#[repr(C, align(8))]
#[derive(Clone, Copy, Debug, PartialEq, Eq)]
pub struct Angle {
    /// The numerator.
    pub num: i64,
    /// The denominator, from 1 to 10^12 in a valid angle.
    pub den: u64,
}

/// A latitude, north positive, and a longitude, east positive.
#[repr(C)]
#[derive(Clone, Copy, Debug, PartialEq, Eq)]
pub struct Position {
    /// The latitude, from -90 to 90 degrees.
    pub lat: Angle,
    /// The longitude, from -180 to 180 degrees.
    pub lon: Angle,
}

/// A squitter, field by field. A field that its kind lacks is 0. squitter.h gives the ranges.
#[repr(C, align(8))]
#[derive(Clone, Copy, Debug, PartialEq, Eq)]
#[allow(missing_docs)]
pub struct Fields {
    pub raw: u64,
    pub address: u32,
    pub lat: u32,
    pub lon: u32,
    pub feet: i32,
    pub altitude: u16,
    pub altitude_form: u8,
    pub kind: u8,
    pub ca: u8,
    pub type_code: u8,
    pub odd: u8,
    pub time: u8,
    pub status: u8,
    pub flag: u8,
    pub movement: u8,
    pub track_status: u8,
    pub track: u8,
}

/// The fields of an airborne position, except its position.
#[repr(C)]
#[derive(Clone, Copy, Debug, Default, PartialEq, Eq)]
#[allow(missing_docs)]
pub struct AirHead {
    pub address: u32,
    pub altitude: u16,
    pub ca: u8,
    pub type_code: u8,
    pub status: u8,
    pub flag: u8,
    pub time: u8,
    pub odd: u8,
}

/// The fields of a surface position, except its position.
#[repr(C)]
#[derive(Clone, Copy, Debug, Default, PartialEq, Eq)]
#[allow(missing_docs)]
pub struct GroundHead {
    pub address: u32,
    pub ca: u8,
    pub type_code: u8,
    pub movement: u8,
    pub track_status: u8,
    pub track: u8,
    pub time: u8,
    pub odd: u8,
}

/// An altitude: feet where `form` is 1, none where it is 0, and another form where it is 2.
#[repr(C)]
#[derive(Clone, Copy, Debug, PartialEq, Eq)]
pub struct Altitude {
    /// The feet, or 0.
    pub feet: i32,
    /// The form.
    pub form: u8,
}

/// A frame and its timestamp; 0 if there is none.
#[repr(C, align(8))]
#[derive(Clone, Copy, PartialEq, Eq)]
pub struct Received {
    pub moment: u64,
    pub frame: Bytes<14>,
}

/// A position and its timestamp; 0 if there is none.
#[repr(C, align(8))]
#[derive(Clone, Copy, PartialEq, Eq)]
pub struct LastFix {
    pub moment: u64,
    pub position: Position,
}

/// What is kept of an address in the air, or on the ground.
#[repr(C)]
#[derive(Clone, Copy, PartialEq, Eq)]
pub struct Side {
    pub even: Received,
    pub odd: Received,
    pub fix: LastFix,
}

/// The state of one address of a tracker.
#[repr(C, align(8))]
#[derive(Clone, Copy, PartialEq, Eq)]
pub struct Entry {
    pub moment: u64,
    pub address: u32,
    pub airborne: Side,
    pub surface: Side,
}

/// What is known of the places of aircraft. 0 means that it is not known.
#[repr(C)]
#[derive(Clone, Copy, Debug, Default, PartialEq, Eq)]
pub struct Watch {
    /// No aircraft is further from the site than so many nautical miles.
    pub range: u32,
    /// No aircraft is faster than so many knots.
    pub speed: u32,
}

/// The timestamp of the last frame that a tracker accepted, if it has accepted one.
#[repr(C, align(8))]
#[derive(Clone, Copy, Debug, PartialEq, Eq)]
pub struct Last {
    moment: u64,
    heard: u64,
}

/// Numbers of good lines and of refused lines.
#[repr(C, align(8))]
#[derive(Clone, Copy, Debug, PartialEq, Eq)]
pub struct Tally {
    /// Good lines.
    pub good: u64,
    /// Refused lines.
    pub refused: u64,
}

/// Counts of the items of a source; squitter.h says what each is.
#[repr(C, align(8))]
#[derive(Clone, Copy, Debug, PartialEq, Eq)]
#[allow(missing_docs)]
pub struct Counts {
    pub found: u64,
    pub written: u64,
    pub mode_ac: u64,
    pub multilaterated: u64,
    pub receiver_ids: u64,
    pub damaged: u64,
    pub aside: u64,
    pub formats: [u64; 25],
    pub breaks: u64,
    pub ahead: u64,
}

#[repr(C)]
#[derive(Clone, Copy)]
pub struct Block {
    pub size: usize,
    pub memory: *mut u8,
}

/// A tracker, a log or a feed.
#[repr(C, align(16))]
pub struct Handle {
    full: u64,
    at: u64,
}

#[repr(C)]
pub struct Done {
    pub taken: usize,
    pub written: usize,
}

#[repr(C, align(8))]
#[derive(Clone, Copy)]
pub struct Heard {
    pub position: Position,
    pub what: u8,
    pub even: u8,
    pub odd: u8,
}

#[repr(C, align(8))]
#[derive(Clone, Copy)]
pub struct Answer {
    pub number: u64,
    pub moment: u64,
    pub heard: Heard,
    pub fault: Fault,
    pub degrees: [i32; 2],
    pub address: u32,
    pub feet: i32,
    pub kind: u8,
    pub altitude_form: u8,
}

const _: () = {
    let sizes = [
        (size_of::<Fault>(), 16),
        (size_of::<Angle>(), 16),
        (size_of::<Position>(), 32),
        (size_of::<Fields>(), 40),
        (size_of::<AirHead>(), 12),
        (size_of::<GroundHead>(), 12),
        (size_of::<Altitude>(), 8),
        (size_of::<Entry>(), 192),
        (size_of::<Last>(), 16),
        (size_of::<Tally>(), 16),
        (size_of::<Counts>(), 272),
        (size_of::<Handle>(), 16),
        (size_of::<Heard>(), 40),
        (size_of::<Answer>(), 96),
    ];
    let mut at = 0;
    while at < sizes.len() {
        assert!(sizes[at].0 == sizes[at].1);
        at += 1;
    }
};

type Bytes<const N: usize> = [u8; N];
extern "C" {
    pub fn squitter_frame_of_text(text: *const u8, length: usize, out: *mut Bytes<14>) -> Fault;
    pub fn squitter_text_of_frame(frame: *const Bytes<14>, out: *mut Bytes<28>);
    pub fn squitter_read_frame(frame: *const Bytes<14>, out: *mut Fields) -> Fault;
    pub fn squitter_local(frame: *const Bytes<14>, near: *const Position, out: *mut Position) -> Fault;
    pub fn squitter_pair(older: *const Bytes<14>, newer: *const Bytes<14>, out: *mut Position) -> Fault;
    pub fn squitter_pair_at(
        older: *const Bytes<14>, newer: *const Bytes<14>, site: *const Position, out: *mut Position,
    ) -> Fault;
    pub fn squitter_tracker_size(limit: u32) -> usize;
    pub fn squitter_tracker_new(it: *mut Handle, block: Block, limit: u32, window: u64) -> Fault;
    pub fn squitter_tracker_new_at(
        it: *mut Handle, block: Block, limit: u32, window: u64, site: *const Position,
    ) -> Fault;
    pub fn squitter_tracker_free(it: *mut Handle);
    pub fn squitter_tracker_hear(it: *mut Handle, moment: u64, frame: *const Bytes<14>, out: *mut Heard) -> Fault;
    pub fn squitter_tracker_len(it: *mut Handle) -> usize;
    pub fn squitter_tracker_present(
        it: *mut Handle, since: u64, from: usize, entries: *mut Entry, count: usize,
    ) -> usize;
    pub fn squitter_tracker_save(it: *mut Handle, last: *mut Last, entries: *mut Entry, count: usize) -> usize;
    pub fn squitter_tracker_restore(it: *mut Handle, last: *const Last, entries: *const Entry, count: usize) -> Fault;
    pub fn squitter_doubts(
        watch: *const Watch, site: *const Position, before: *const LastFix, moment: u64, place: *const Position,
    ) -> u32;
    pub fn squitter_log_size(limit: u32) -> usize;
    pub fn squitter_log_new(it: *mut Handle, block: Block, limit: u32, window: u64) -> Fault;
    pub fn squitter_log_new_at(it: *mut Handle, block: Block, limit: u32, window: u64, site: *const Position) -> Fault;
    pub fn squitter_log_free(it: *mut Handle);
    pub fn squitter_log_take(
        it: *mut Handle, piece: *const u8, length: usize, out: *mut Answer, count: usize, done: *mut Done,
    ) -> Fault;
    pub fn squitter_log_finish(it: *mut Handle, out: *mut Answer, count: usize, done: *mut Done) -> Fault;
    pub fn squitter_log_present(
        it: *mut Handle, since: u64, from: usize, entries: *mut Entry, count: usize,
    ) -> usize;
    pub fn squitter_log_tally(it: *mut Handle, out: *mut Tally) -> Fault;
    pub fn squitter_feed_size() -> usize;
    pub fn squitter_feed_new(it: *mut Handle, block: Block, format: u32, leap: u64, late: u64, flags: u32) -> Fault;
    pub fn squitter_feed_free(it: *mut Handle);
    pub fn squitter_feed_take(
        it: *mut Handle, piece: *const u8, length: usize, arrival: u64, moments: *mut u64, moments_count: usize,
        frames: *mut Bytes<14>, frames_count: usize, done: *mut Done,
    ) -> Fault;
    pub fn squitter_feed_finish(
        it: *mut Handle, arrival: u64, moments: *mut u64, moments_count: usize, frames: *mut Bytes<14>,
        frames_count: usize, done: *mut Done,
    ) -> Fault;
    pub fn squitter_feed_disconnected(it: *mut Handle) -> Fault;
    pub fn squitter_feed_format(it: *mut Handle, out: *mut u32) -> Fault;
    pub fn squitter_feed_counts(it: *mut Handle, out: *mut Counts) -> Fault;
    pub fn squitter_encode_air(head: *const AirHead, at: *const Position, out: *mut Bytes<14>) -> Fault;
    pub fn squitter_encode_ground(head: *const GroundHead, at: *const Position, out: *mut Bytes<14>) -> Fault;
    pub fn squitter_zone_count(lat: *const Angle, out: *mut u8) -> Fault;
    pub fn squitter_text_of_angle(angle: *const Angle, out: *mut Bytes<16>) -> Fault;
    pub fn squitter_angle_of_text(text: *const u8, length: usize, out: *mut Angle) -> Fault;
    pub fn squitter_feet_of_field(type_code: u8, field: u16, out: *mut Altitude) -> Fault;
    pub fn squitter_field_of_feet(feet: i32, out: *mut u16) -> Fault;
    pub fn squitter_text_of_fault(fault: *const Fault, out: *mut Bytes<64>);
    pub fn squitter_version() -> u32;
}
