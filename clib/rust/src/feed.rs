//! Feeds: the squitters in a receiver's bytes.
use crate::held::{lent_size, Held};
use crate::sys::{self, Done, Handle};
use crate::{got, Counts, Fault, Frame};
use core::mem::MaybeUninit;

/// The format of a source, or what a source without frames is.
#[derive(Clone, Copy, Debug, PartialEq, Eq)]
pub enum Format {
    /// Beast binary.
    Beast,
    /// AVR text.
    Avr,
    /// CSV with the columns time (s) and rawmsg.
    Csv,
    /// A log.
    Log,
    /// The first bytes show the format, or are still to show it.
    Auto,
    /// No frames: one of the numbers of squitter.h from 5 on.
    Stranger(u32),
}

/// The settings of a feed; squitter.h says what each does.
#[derive(Clone, Copy, Debug)]
pub struct FeedSettings {
    /// The format.
    pub format: Format,
    /// A gap of more milliseconds is a jump of the source's clock.
    pub leap: u64,
    /// By how many milliseconds a timestamp may be before the latest one.
    pub late: u64,
    /// Whether arrivals say when bytes were received.
    pub live: bool,
    /// Whether the receiver's clock is ignored.
    pub by_arrival: bool,
    /// Whether frames of all downlink formats are given.
    pub all_formats: bool,
}

impl Default for FeedSettings {
    /// Returns the settings for a recording, as `squitter feed` has them.
    fn default() -> FeedSettings {
        FeedSettings {
            format: Format::Auto, leap: 600_000, late: 0, live: false, by_arrival: false, all_formats: false,
        }
    }
}

/// Finds the squitters in a receiver's bytes, in pieces of any length, with their timestamps (ms).
pub struct Feed<'a>(Held<'a>);

#[cfg(feature = "alloc")]
impl Feed<'static> {
    /// Creates a feed. Faults: BAD_FORMAT, NO_MEMORY.
    pub fn new(of: &FeedSettings) -> Result<Self, Fault> {
        // Safety: the call takes nothing.
        Feed::created(Held::new(unsafe { sys::squitter_feed_size() })?, of)
    }
}

impl<'a> Feed<'a> {
    /// Returns how many bytes [`Feed::new_in`] needs.
    pub fn size() -> usize {
        // Safety: the call takes nothing.
        lent_size(unsafe { sys::squitter_feed_size() })
    }
    /// Creates a feed in memory that is lent. Faults: BAD_FORMAT, NO_MEMORY.
    pub fn new_in(memory: &'a mut [MaybeUninit<u8>], of: &FeedSettings) -> Result<Self, Fault> {
        Feed::created(Held::lent(memory)?, of)
    }
    fn created(mut held: Held<'a>, of: &FeedSettings) -> Result<Self, Fault> {
        let format = match of.format {
            Format::Beast => 0,
            Format::Avr => 1,
            Format::Csv => 2,
            Format::Log => 3,
            Format::Auto => 4,
            Format::Stranger(number) => number.max(5),
        };
        let flags = u32::from(of.live) + 2 * u32::from(of.by_arrival) + 4 * u32::from(of.all_formats);
        // Safety: the handle is zero, and the block is the library's until it is freed.
        let fault = unsafe { sys::squitter_feed_new(held.handle(), held.block(), format, of.leap, of.late, flags) };
        if fault.code == 0 {
            return Ok(Feed(held));
        }
        held.release();
        Err(fault)
    }
    /// Takes the next bytes, which arrived at this time (ms), and returns their squitters. The feed hears all of the
    /// piece, also where these are dropped.
    pub fn take<'b>(&'b mut self, piece: &'b [u8], arrival: u64) -> Frames<'b> {
        Frames::new(&self.0, Some(piece), arrival)
    }
    /// Ends the source, and returns its last squitters. The next bytes belong to another source.
    pub fn finish(&mut self, arrival: u64) -> Frames<'_> {
        Frames::new(&self.0, None, arrival)
    }
    /// Drops an unfinished frame after a lost connection.
    pub fn disconnected(&mut self) {
        // Safety: the feed is the library's. There is one, so there is no fault.
        let _ = unsafe { sys::squitter_feed_disconnected(self.0.handle()) };
    }
    /// Returns what the source is, by its bytes so far.
    pub fn format(&self) -> Format {
        // Safety: of `got`. There is a feed, so there is no fault.
        match unsafe { got(|out| sys::squitter_feed_format(self.0.handle(), out)) }.unwrap_or(4) {
            0 => Format::Beast,
            1 => Format::Avr,
            2 => Format::Csv,
            3 => Format::Log,
            4 => Format::Auto,
            number => Format::Stranger(number),
        }
    }
    /// Returns the counts of the items so far.
    pub fn counts(&self) -> Counts {
        // Safety: of `got`. There is a feed, so there is no fault, and zeros are counts.
        unsafe {
            got(|out| sys::squitter_feed_counts(self.0.handle(), out))
                .unwrap_or_else(|_| MaybeUninit::zeroed().assume_init())
        }
    }
}

impl Drop for Feed<'_> {
    fn drop(&mut self) {
        // Safety: the library made it, and is done with the memory then.
        unsafe { sys::squitter_feed_free(self.0.handle()) };
        self.0.release();
    }
}

const AT_ONCE: usize = 64;

/// The squitters of a piece, with their timestamps (ms).
pub struct Frames<'b> {
    feed: *mut Handle,
    piece: Option<&'b [u8]>,
    arrival: u64,
    moments: [u64; AT_ONCE],
    frames: [[u8; 14]; AT_ONCE],
    next: usize,
    end: usize,
    is_last: bool,
}

impl<'b> Frames<'b> {
    fn new(feed: &'b Held<'_>, piece: Option<&'b [u8]>, arrival: u64) -> Frames<'b> {
        let (moments, frames) = ([0; AT_ONCE], [[0; 14]; AT_ONCE]);
        Frames { feed: feed.handle(), piece, arrival, moments, frames, next: 0, end: 0, is_last: false }
    }
    fn fill(&mut self) {
        let (moments, frames) = (self.moments.as_mut_ptr(), self.frames.as_mut_ptr());
        let mut done = Done { taken: 0, written: 0 };
        // Safety: there is room for as many squitters, and the feed is the library's.
        let fault = unsafe {
            match self.piece {
                Some(rest) => sys::squitter_feed_take(
                    self.feed, rest.as_ptr(), rest.len(), self.arrival, moments, AT_ONCE, frames, AT_ONCE, &mut done),
                None => sys::squitter_feed_finish(
                    self.feed, self.arrival, moments, AT_ONCE, frames, AT_ONCE, &mut done),
            }
        };
        self.is_last = fault.code != 0 || done.written < AT_ONCE;
        self.piece = self.piece.map(|rest| &rest[done.taken..]);
        (self.next, self.end) = (0, done.written);
    }
}

impl Iterator for Frames<'_> {
    type Item = (u64, Frame);
    fn next(&mut self) -> Option<(u64, Frame)> {
        if self.next == self.end && !self.is_last {
            self.fill();
        }
        if self.next == self.end {
            return None;
        }
        self.next += 1;
        Some((self.moments[self.next - 1], Frame(self.frames[self.next - 1])))
    }
}

impl Drop for Frames<'_> {
    fn drop(&mut self) {
        while !self.is_last {
            self.fill();
        }
    }
}
