//! The calls of the library for C, as `bearoff.h` declares them.

pub const OK: u32 = 0;
pub const BAD_TEXT: u32 = 11;
pub const SAME_POINT: u32 = 32;
pub const OTHER_OUTSIDE: u32 = 36;
pub const LINE: usize = 32;
pub const STATUS_TEXT: usize = 80;
pub const RESULTS: usize = 127;
pub const REPLY: usize = 16642;
pub const FILE: usize = 15_060_844;
pub const STACK: usize = 1_572_864;
pub const RANKS: usize = 6 * 16 * 91 + 92;

#[repr(C)]
#[derive(Clone, Copy, Default)]
pub struct Counts {
    pub points: [u8; 6],
}

#[repr(C)]
#[derive(Clone, Copy, Default)]
pub struct Race {
    pub mine: Counts,
    pub theirs: Counts,
    pub has_theirs: bool,
    pub high: u8,
    pub low: u8,
    pub on_roll: u8,
}

/// A number of three words, the greatest first.
pub type Words = [u64; 3];

#[repr(C)]
#[derive(Clone, Copy, Default)]
pub struct Fraction {
    pub numerator: Words,
    pub denominator: Words,
}

#[repr(C)]
#[derive(Clone, Copy, Default)]
pub struct Pips {
    pub exact: Fraction,
    pub thousandths: u64,
}

#[repr(C)]
#[derive(Clone, Copy, Default)]
pub struct Wasted {
    pub thousandths: u64,
    pub is_below: bool,
}

#[repr(C)]
#[derive(Clone, Copy, Default)]
pub struct Chance {
    pub numerator: Words,
    pub thousandths: u64,
}

#[repr(C)]
#[derive(Clone, Copy, Default)]
pub struct Choice {
    pub to: Counts,
    pub loss: Fraction,
}

#[repr(C)]
#[derive(Clone, Copy, Default)]
pub struct About {
    pub version: u16,
    pub bound: u8,
    pub rolls: u8,
    pub positions: u32,
}

#[repr(C)]
#[derive(Clone, Copy, Default)]
pub struct Move {
    pub from: u8,
    pub to: u8,
}

#[repr(C)]
#[derive(Clone, Copy, Default)]
pub struct Play {
    pub moves: [Move; 4],
    pub count: u8,
    pub to: Counts,
}

#[repr(C)]
#[derive(Clone, Copy, Default)]
pub struct Info {
    pub pips: u8,
    pub checkers: u8,
    pub off: u8,
}

/// A file of any version over bytes of the caller's: what opens it alone writes it.
#[repr(C)]
pub struct Opened {
    bytes: *const u8,
    length: usize,
    is_open: u8,
    bound: u8,
    version: u16,
    ranks: [u16; RANKS],
}

impl Opened {
    /// Not open.
    pub fn closed() -> Box<Opened> {
        Box::new(Opened {
            bytes: b"".as_ptr(),
            length: 0,
            is_open: 0,
            bound: 0,
            version: 0,
            ranks: [0; RANKS],
        })
    }
}

type At = *const Opened;

/// A call that says something of a position.
pub type OfPosition<T> = unsafe extern "C" fn(At, *const Counts, *mut T) -> u32;

/// A call that lists something of the ranks from a first one on.
pub type OfRanks<T> = unsafe extern "C" fn(At, u16, *mut T, usize) -> u32;

extern "C" {
    pub fn bearoff_library_version(major: *mut u16, minor: *mut u16, patch: *mut u16) -> u32;
    pub fn bearoff_status_text(status: u32, text: *mut u8, room: usize, needed: *mut usize) -> u32;
    pub fn bearoff_open(
        at: *mut Opened,
        bytes: *const u8,
        length: usize,
        line: *mut u8,
        room: usize,
        needed: *mut usize,
    ) -> u32;
    pub fn bearoff_build(
        version: u16,
        bound: u8,
        work: *mut u8,
        work_length: usize,
        room: *mut u8,
        room_length: usize,
        filled: *mut usize,
    ) -> u32;
    pub fn bearoff_upgrade(
        bytes: *const u8,
        length: usize,
        work: *mut u8,
        work_length: usize,
        room: *mut u8,
        room_length: usize,
        filled: *mut usize,
    ) -> u32;
    pub fn bearoff_about(at: At, about: *mut About) -> u32;
    pub fn bearoff_rank(at: At, of: *const Counts, rank: *mut u16) -> u32;
    pub fn bearoff_position_of(at: At, rank: u16, of: *mut Counts) -> u32;
    pub fn bearoff_listed_positions(at: At, first: u16, to: *mut Counts, count: usize) -> u32;
    pub fn bearoff_listed_means(at: At, first: u16, to: *mut Words, count: usize) -> u32;
    pub fn bearoff_listed_epcs(at: At, first: u16, to: *mut Pips, count: usize) -> u32;
    pub fn bearoff_listed_distributions(
        at: At,
        first: u16,
        to: *mut [Words; 34],
        count: usize,
    ) -> u32;
    pub fn bearoff_mean(at: At, of: *const Counts, mean: *mut Words) -> u32;
    pub fn bearoff_epc(at: At, of: *const Counts, pips: *mut Pips) -> u32;
    pub fn bearoff_wastage(at: At, of: *const Counts, wastage: *mut Wasted) -> u32;
    pub fn bearoff_distribution(at: At, of: *const Counts, shares: *mut [Words; 34]) -> u32;
    pub fn bearoff_within(at: At, of: *const Counts, rolls: u8, chance: *mut Chance) -> u32;
    pub fn bearoff_play(at: At, of: *const Counts, one: u8, other: u8, play: *mut Play) -> u32;
    pub fn bearoff_loss(
        at: At,
        of: *const Counts,
        one: u8,
        other: u8,
        to: *const Counts,
        loss: *mut Fraction,
    ) -> u32;
    pub fn bearoff_moves(
        at: At,
        of: *const Counts,
        one: u8,
        other: u8,
        results: *mut Choice,
        room: usize,
        count: *mut usize,
    ) -> u32;
    pub fn bearoff_answer_line(
        at: At,
        line: *const u8,
        length: usize,
        text: *mut u8,
        room: usize,
        needed: *mut usize,
    ) -> u32;
    pub fn bearoff_play_to(
        position: *const Counts,
        one: u8,
        other: u8,
        to: *const Counts,
        play: *mut Play,
    ) -> u32;
    pub fn bearoff_read_position(
        text: *const u8,
        length: usize,
        race: *mut Race,
        place: *mut u8,
    ) -> u32;
    pub fn bearoff_position_info(position: *const Counts, info: *mut Info) -> u32;
}

/// The struct has the bytes that the header says.
const _: [(); std::mem::size_of::<Opened>()] = [(); 17_680];
