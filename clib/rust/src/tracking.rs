//! Trackers and logs.
use crate::held::{lent_size, Held};
#[cfg(feature = "alloc")]
use crate::present::{present_in, Present};
use crate::sys::{self, Block, Done, Handle};
use crate::{got, Fault, Frame, Position, Tally};
use core::mem::MaybeUninit;

/// The settings of a tracker and of a log.
#[derive(Clone, Copy, Debug)]
pub struct Settings {
    /// The most aircraft at once.
    pub limit: u32,
    /// The greatest age (ms) of a frame to pair, or of a fix to follow.
    pub window: u64,
    /// The receiver position, which surface pairs need.
    pub site: Option<Position>,
}

impl Default for Settings {
    /// Returns the settings of `squitter track`: 1000 aircraft, 10 seconds, and no site.
    fn default() -> Settings {
        Settings { limit: 1000, window: 10_000, site: None }
    }
}

/// The result for a frame.
#[derive(Clone, Copy, Debug, PartialEq, Eq)]
pub enum Reply {
    /// The position of an even and an odd frame.
    Fix(Position),
    /// The position near the last fix.
    Followed(Position),
    /// No frame of the other parity within the window.
    Waiting,
    /// The zone counts (NL) of the pair's latitudes differ.
    Split {
        /// That of the even latitude.
        even: u8,
        /// That of the odd latitude.
        odd: u8,
    },
    /// A latitude of the pair would lie outside -90 to 90 degrees.
    Far,
    /// The pair is on the ground, and there is no site.
    WithoutSite,
    /// The frame carries no position.
    NoPlace,
}

impl Reply {
    fn of(heard: &sys::Heard) -> Reply {
        match heard.what {
            1 => Reply::Fix(heard.position),
            2 => Reply::Followed(heard.position),
            3 => Reply::Waiting,
            4 => Reply::Split { even: heard.even, odd: heard.odd },
            5 => Reply::Far,
            6 => Reply::WithoutSite,
            _ => Reply::NoPlace,
        }
    }
    /// Returns the position of a fix, or of one that is followed.
    pub fn position(&self) -> Option<Position> {
        match self {
            Reply::Fix(place) | Reply::Followed(place) => Some(*place),
            _ => None,
        }
    }
}

type New = unsafe extern "C" fn(*mut Handle, Block, u32, u64) -> Fault;
type NewAt = unsafe extern "C" fn(*mut Handle, Block, u32, u64, *const Position) -> Fault;

/// Creates a tracker or a log in memory, which is given back after a fault.
fn created<'a>(mut held: Held<'a>, of: &Settings, new: New, new_at: NewAt) -> Result<Held<'a>, Fault> {
    // Safety: the handle is zero, and the block is the library's until it is freed.
    let fault = unsafe {
        match &of.site {
            None => new(held.handle(), held.block(), of.limit, of.window),
            Some(site) => new_at(held.handle(), held.block(), of.limit, of.window, site),
        }
    };
    if fault.code == 0 {
        return Ok(held);
    }
    held.release();
    Err(fault)
}

/// Decodes the frames of many aircraft.
pub struct Tracker<'a>(Held<'a>);

/// The state of a tracker, for [`Tracker::restore`].
#[cfg(feature = "alloc")]
#[derive(Clone, PartialEq, Eq)]
pub struct State {
    last: sys::Last,
    entries: alloc::vec::Vec<sys::Entry>,
}

#[cfg(feature = "alloc")]
impl Tracker<'static> {
    /// Creates a tracker. Faults: BAD_POSITION, NO_LIMIT, NO_MEMORY.
    pub fn new(of: &Settings) -> Result<Self, Fault> {
        // Safety: the call takes a number.
        let held = Held::new(unsafe { sys::squitter_tracker_size(of.limit) })?;
        created(held, of, sys::squitter_tracker_new, sys::squitter_tracker_new_at).map(Tracker)
    }
}

impl<'a> Tracker<'a> {
    /// Returns how many bytes [`Tracker::new_in`] needs.
    pub fn size(limit: u32) -> usize {
        // Safety: the call takes a number.
        lent_size(unsafe { sys::squitter_tracker_size(limit) })
    }
    /// Creates a tracker in memory that is lent. Faults: BAD_POSITION, NO_LIMIT, NO_MEMORY.
    pub fn new_in(memory: &'a mut [MaybeUninit<u8>], of: &Settings) -> Result<Self, Fault> {
        created(Held::lent(memory)?, of, sys::squitter_tracker_new, sys::squitter_tracker_new_at).map(Tracker)
    }
    /// Adds a frame with its timestamp (ms). Faults: NOT_DF17, PARITY, MOMENT_BACK, TABLE_FULL.
    pub fn hear(&mut self, moment: u64, frame: &Frame) -> Result<Reply, Fault> {
        // Safety: of `got`.
        unsafe { got(|out| sys::squitter_tracker_hear(self.0.handle(), moment, &frame.0, out)) }
            .map(|heard| Reply::of(&heard))
    }
    /// Returns the aircraft that were heard at or after a timestamp (ms), the last heard first; all that are present
    /// since 0.
    #[cfg(feature = "alloc")]
    pub fn present(&self, since: u64) -> alloc::vec::Vec<Present> {
        present_in(|from, entries, count| {
            // Safety: of `present_in`.
            unsafe { sys::squitter_tracker_present(self.0.handle(), since, from, entries, count) }
        })
    }
    /// Returns the number of aircraft that are present.
    pub fn len(&self) -> usize {
        // Safety: the handle is the library's.
        unsafe { sys::squitter_tracker_len(self.0.handle()) }
    }
    /// Returns whether no aircraft is present.
    pub fn is_empty(&self) -> bool {
        self.len() == 0
    }
    /// Returns the state.
    #[cfg(feature = "alloc")]
    pub fn save(&self) -> State {
        let mut entries = alloc::vec::Vec::with_capacity(self.len());
        // Safety: the call writes `last` and as many entries as there are, for which there is room.
        unsafe {
            let mut last = MaybeUninit::uninit();
            let count = sys::squitter_tracker_save(
                self.0.handle(), last.as_mut_ptr(), entries.as_mut_ptr(), entries.capacity());
            entries.set_len(count.min(entries.capacity()));
            State { last: last.assume_init(), entries }
        }
    }
    /// Replaces the state by a saved one. Fault: BAD_ENTRY, if no tracker with these settings can have it; then the
    /// tracker is as if it had heard nothing.
    #[cfg(feature = "alloc")]
    pub fn restore(&mut self, state: &State) -> Result<(), Fault> {
        // Safety: the handle is the library's, and a vector's pointer is not null.
        let fault = unsafe {
            sys::squitter_tracker_restore(
                self.0.handle(), &state.last, state.entries.as_ptr(), state.entries.len())
        };
        if fault.code == 0 { Ok(()) } else { Err(fault) }
    }
}

impl Drop for Tracker<'_> {
    fn drop(&mut self) {
        // Safety: the library made it, and is done with the memory then.
        unsafe { sys::squitter_tracker_free(self.0.handle()) };
        self.0.release();
    }
}

/// What a good line of a log says.
#[derive(Clone, Copy, Debug, PartialEq, Eq)]
pub struct Heard {
    /// The timestamp (ms).
    pub moment: u64,
    /// The ICAO address.
    pub address: u32,
    /// 0 for other messages, 1 in the air, 2 on the ground.
    pub kind: u8,
    /// The altitude, if the frame has one in feet.
    pub feet: Option<i32>,
    /// The result. Its position is not in lowest terms.
    pub reply: Reply,
    /// The position of a fix, or of one that is followed, in units of 10^-7 degree; else 0.
    pub degrees_e7: (i32, i32),
}

/// The result for a line of a log.
#[derive(Clone, Copy, Debug, PartialEq, Eq)]
pub struct Line {
    /// The number of the line, from 1.
    pub number: u64,
    /// What it says, or why it is refused.
    pub heard: Result<Heard, Fault>,
}

/// Decodes a log as `squitter track` does, in pieces of any length.
pub struct Log<'a>(Held<'a>);

#[cfg(feature = "alloc")]
impl Log<'static> {
    /// Creates a log. Faults: BAD_POSITION, NO_LIMIT, NO_MEMORY.
    pub fn new(of: &Settings) -> Result<Self, Fault> {
        // Safety: the call takes a number.
        let held = Held::new(unsafe { sys::squitter_log_size(of.limit) })?;
        created(held, of, sys::squitter_log_new, sys::squitter_log_new_at).map(Log)
    }
}

impl<'a> Log<'a> {
    /// Returns how many bytes [`Log::new_in`] needs.
    pub fn size(limit: u32) -> usize {
        // Safety: the call takes a number.
        lent_size(unsafe { sys::squitter_log_size(limit) })
    }
    /// Creates a log in memory that is lent. Faults: BAD_POSITION, NO_LIMIT, NO_MEMORY.
    pub fn new_in(memory: &'a mut [MaybeUninit<u8>], of: &Settings) -> Result<Self, Fault> {
        created(Held::lent(memory)?, of, sys::squitter_log_new, sys::squitter_log_new_at).map(Log)
    }
    /// Takes the next piece, and returns the results of the lines that end in it. The log hears all of the piece, also
    /// where the results are dropped. A fault (LONG_LOG) ends the results, and [`Answers::fault`] has it.
    pub fn take<'b>(&'b mut self, piece: &'b [u8]) -> Answers<'b> {
        Answers::new(&self.0, Some(piece))
    }
    /// Returns the result of a last line without a line feed. The next piece begins a new line.
    pub fn finish(&mut self) -> Answers<'_> {
        Answers::new(&self.0, None)
    }
    /// Returns the aircraft that were heard at or after a timestamp, as [`Tracker::present`] does.
    #[cfg(feature = "alloc")]
    pub fn present(&self, since: u64) -> alloc::vec::Vec<Present> {
        present_in(|from, entries, count| {
            // Safety: of `present_in`.
            unsafe { sys::squitter_log_present(self.0.handle(), since, from, entries, count) }
        })
    }
    /// Returns the numbers of good and of refused lines so far.
    pub fn tally(&self) -> Tally {
        // Safety: of `got`; there is a log, so there is no fault.
        unsafe { got(|out| sys::squitter_log_tally(self.0.handle(), out)) }.unwrap_or(Tally { good: 0, refused: 0 })
    }
}

impl Drop for Log<'_> {
    fn drop(&mut self) {
        // Safety: the library made it, and is done with the memory then.
        unsafe { sys::squitter_log_free(self.0.handle()) };
        self.0.release();
    }
}

const AT_ONCE: usize = 32;

/// The results of a piece of a log.
pub struct Answers<'b> {
    log: *mut Handle,
    piece: Option<&'b [u8]>,
    out: [MaybeUninit<sys::Answer>; AT_ONCE],
    next: usize,
    end: usize,
    is_last: bool,
    fault: Option<Fault>,
}

impl<'b> Answers<'b> {
    fn new(log: &'b Held<'_>, piece: Option<&'b [u8]>) -> Answers<'b> {
        let out = [MaybeUninit::uninit(); AT_ONCE];
        Answers { log: log.handle(), piece, out, next: 0, end: 0, is_last: false, fault: None }
    }
    /// Returns why there are no more results, if there was a fault.
    pub fn fault(&self) -> Option<Fault> {
        self.fault
    }
    fn fill(&mut self) {
        let (to, mut done) = (self.out.as_mut_ptr().cast(), Done { taken: 0, written: 0 });
        // Safety: there is room for as many answers, and the log is the library's.
        let fault = unsafe {
            match self.piece {
                Some(rest) => sys::squitter_log_take(self.log, rest.as_ptr(), rest.len(), to, AT_ONCE, &mut done),
                None => sys::squitter_log_finish(self.log, to, AT_ONCE, &mut done),
            }
        };
        self.fault = (fault.code != 0).then(|| fault);
        self.is_last = self.fault.is_some() || done.written < AT_ONCE;
        self.piece = self.piece.map(|rest| &rest[done.taken..]);
        (self.next, self.end) = (0, done.written);
    }
}

impl Iterator for Answers<'_> {
    type Item = Line;
    fn next(&mut self) -> Option<Line> {
        if self.next == self.end {
            if self.is_last {
                return None;
            }
            self.fill();
            if self.next == self.end {
                return None;
            }
        }
        // Safety: the library wrote the answers before `end`.
        let one = unsafe { self.out[self.next].assume_init() };
        self.next += 1;
        let heard = Heard {
            moment: one.moment, address: one.address, kind: one.kind,
            feet: (one.altitude_form == 1).then(|| one.feet),
            reply: Reply::of(&one.heard), degrees_e7: (one.degrees[0], one.degrees[1]),
        };
        Some(Line { number: one.number, heard: if one.fault.code == 0 { Ok(heard) } else { Err(one.fault) } })
    }
}

impl Drop for Answers<'_> {
    fn drop(&mut self) {
        while !self.is_last {
            self.fill();
        }
    }
}
