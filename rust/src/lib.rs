//! Exact, formally verified bearoff tables for backgammon.
//!
//! A database is the bytes of a file that `bearoff build` writes, or what [`Database::build`]
//! makes. It is checked when it is opened, and accepted exactly where it is right: every mean in
//! it is the least over all strategies, the recorded plays reach these means, and the recorded
//! shares are those of these plays. That is proved of the library for C that this crate links, and
//! so is what each of its calls answers; this crate hands numbers over, and is tested.
//!
//! ```
//! use bearoff::{Database, Position, Roll};
//!
//! # fn main() -> Result<(), bearoff::Error> {
//! let database = Database::build(8)?;
//! let six = Position::new([0, 0, 0, 0, 0, 1]);
//! assert_eq!(database.mean(six)?.to_string(), "5/4");
//! assert_eq!(database.epc(six)?.thousandths, 10208);
//! let play = database.play("0,0,0,2,0,0".parse()?, Roll::new(2, 1))?;
//! assert_eq!(play.to_string(), "4/2 2/1");
//! # Ok(())
//! # }
//! ```
//!
//! A board file, which `bearoff build --board` writes, has the whole home board, to 90 pips;
//! [`Database::open`] knows it by its header, and each call but [`Database::upgrade`] answers.

#![warn(missing_docs)]

mod calls;
mod fraction;

pub use fraction::{Fraction, Whole};

use std::borrow::Cow;
use std::cmp::Ordering;
use std::fmt;
use std::fs::File;
use std::io::{self, Read};
use std::path::{Path, PathBuf};
use std::str::FromStr;
use std::thread;

/// How many checkers stand on the points 1 to 6 of the home board, the ace point first; the others
/// are borne off. They are a position where they add up to at most 15. As a text it is
/// `0,0,0,0,0,1`.
#[derive(Clone, Copy, Debug, Default, PartialEq, Eq, Hash)]
pub struct Position {
    /// The counts.
    pub points: [u8; 6],
}

impl Position {
    /// The position of six counts.
    pub const fn new(points: [u8; 6]) -> Position {
        Position { points }
    }

    fn counts(self) -> calls::Counts {
        calls::Counts { points: self.points }
    }

    fn pips(self) -> u32 {
        (1..).zip(self.points).map(|(point, count)| point * u32::from(count)).sum()
    }

    /// The position that moves lead to, as a player writes them: `4/2 2/1`, `6/off(2)` or `6/4/3`,
    /// in any order. Whether a roll plays so isn't asked: that [`Database::loss`] and [`play_to`]
    /// tell. Refused as [`Error::BadPlay`] where they are no moves, or a checker is missing.
    pub fn after(self, moves: &str) -> Result<Position, Error> {
        moved(self, moves).ok_or(Error::BadPlay)
    }
}

fn moved(position: Position, moves: &str) -> Option<Position> {
    let mut board = [0i32; 7];
    for (place, count) in board[1..].iter_mut().zip(position.points) {
        *place = i32::from(count);
    }
    let words: Vec<&str> = moves.split_ascii_whitespace().collect();
    if words.is_empty() || moves.matches('/').count() > MOST_MOVES {
        return None;
    }
    for word in words {
        let (path, times) = match word.strip_suffix(')').and_then(|it| it.rsplit_once('(')) {
            Some((path, times @ ("1" | "2" | "3" | "4"))) => (path, times.parse().ok()?),
            Some(_) => return None,
            None => (word, 1),
        };
        let points: Option<Vec<usize>> = path.split('/').map(point).collect();
        let points = points.filter(|it| it.len() > 1)?;
        for step in points.windows(2) {
            if step[1] >= step[0] {
                return None;
            }
            board[step[0]] -= times;
            board[step[1]] += times;
        }
    }
    let mut points = [0; 6];
    for (point, count) in points.iter_mut().zip(&board[1..]) {
        *point = u8::try_from(*count).ok()?;
    }
    Some(Position::new(points))
}

/// How many moves a roll has at most.
const MOST_MOVES: usize = 4;

/// A point of the home board, or where checkers are borne off.
fn point(text: &str) -> Option<usize> {
    match text {
        "0" => Some(0),
        _ if text.eq_ignore_ascii_case("off") => Some(0),
        "1" | "2" | "3" | "4" | "5" | "6" => text.parse().ok(),
        _ => None,
    }
}

/// By rising rank: fewer pips first, and of as many pips the smaller counts, that of the ace point
/// first.
impl Ord for Position {
    fn cmp(&self, other: &Position) -> Ordering {
        (self.pips(), self.points).cmp(&(other.pips(), other.points))
    }
}

impl PartialOrd for Position {
    fn partial_cmp(&self, other: &Position) -> Option<Ordering> {
        Some(self.cmp(other))
    }
}

impl From<[u8; 6]> for Position {
    fn from(points: [u8; 6]) -> Position {
        Position::new(points)
    }
}

impl fmt::Display for Position {
    fn fmt(&self, formatter: &mut fmt::Formatter<'_>) -> fmt::Result {
        let [one, two, three, four, five, six] = self.points;
        formatter.pad(&format!("{},{},{},{},{},{}", one, two, three, four, five, six))
    }
}

/// The position of the player on roll, of any text that is a [`Race`].
impl FromStr for Position {
    type Err = Error;

    fn from_str(text: &str) -> Result<Position, Error> {
        text.parse().map(|race: Race| race.mine)
    }
}

/// A player, by where that one sits.
#[derive(Clone, Copy, Debug, PartialEq, Eq, Hash)]
pub enum Player {
    /// The one at the bottom of the board, whose checkers an XGID has as capitals.
    Bottom,
    /// The one at the top.
    Top,
}

/// A race in the home boards, as far as a text tells it.
#[derive(Clone, Copy, Debug, PartialEq, Eq, Hash)]
pub struct Race {
    /// The checkers of the player on roll.
    pub mine: Position,
    /// Those of the other player.
    pub theirs: Option<Position>,
    /// The dice, the greater one first.
    pub roll: Option<Roll>,
    /// Who is on roll.
    pub on_roll: Option<Player>,
}

/// An XGID, a Position ID of GNU Backgammon, alone or with a Match ID, or six counts with commas
/// between them, with blanks around. Of the cube, the score and the match it is only asked that
/// they are numbers. Refused as [`Error::BadText`], as status 3 of more than 15 checkers, and as
/// [`Error::NotARace`].
impl FromStr for Race {
    type Err = Error;

    fn from_str(text: &str) -> Result<Race, Error> {
        let (mut race, mut place) = (calls::Race::default(), 0);
        // the text has as many bytes, and the library writes the two others
        let status = unsafe {
            calls::bearoff_read_position(text.as_ptr(), text.len(), &mut race, &mut place)
        };
        match status {
            calls::OK => Ok(Race {
                mine: Position::new(race.mine.points),
                theirs: Some(Position::new(race.theirs.points)).filter(|_| race.has_theirs),
                roll: Some(Roll::new(race.high, race.low)).filter(|roll| roll.one > 0),
                on_roll: match race.on_roll {
                    1 => Some(Player::Bottom),
                    2 => Some(Player::Top),
                    _ => None,
                },
            }),
            calls::BAD_TEXT => Err(Error::BadText),
            calls::SAME_POINT..=calls::OTHER_OUTSIDE => Err(Error::NotARace { status, place }),
            _ => Err(Error::Refused { status }),
        }
    }
}

/// The two dice of a roll, in either order. They are a roll where each is 1 to 6.
#[derive(Clone, Copy, Debug, PartialEq, Eq, Hash)]
pub struct Roll {
    /// One die.
    pub one: u8,
    /// The other die.
    pub other: u8,
}

impl Roll {
    /// The roll of two dice.
    pub const fn new(one: u8, other: u8) -> Roll {
        Roll { one, other }
    }
}

/// Two dice, as in `21` or `2-1`, with blanks around. Whether a die is 1 to 6 is told where the
/// roll is played.
impl FromStr for Roll {
    type Err = Error;

    fn from_str(text: &str) -> Result<Roll, Error> {
        match text.trim().as_bytes() {
            &[one @ b'0'..=b'9', other @ b'0'..=b'9']
            | &[one @ b'0'..=b'9', b'-', other @ b'0'..=b'9'] => {
                Ok(Roll::new(one - b'0', other - b'0'))
            }
            _ => Err(Error::BadRoll),
        }
    }
}

/// As `21`.
impl fmt::Display for Roll {
    fn fmt(&self, formatter: &mut fmt::Formatter<'_>) -> fmt::Result {
        formatter.pad(&format!("{}{}", self.one, self.other))
    }
}

/// One checker's move: from a point, 1 to 6, to a lower one, or to 0 where it is borne off.
#[derive(Clone, Copy, Debug, PartialEq, Eq, Hash)]
pub struct Move {
    /// The point where it stood.
    pub from: u8,
    /// The point where it goes, or 0.
    pub to: u8,
}

/// A play: its moves in the order in which they are made, and the position that it leads to. As a
/// text it is `4/2 2/1`, and `6/off` where a checker is borne off.
#[derive(Clone, Debug, PartialEq, Eq, Hash)]
pub struct Play {
    /// Its moves, 1 to 4.
    pub moves: Vec<Move>,
    /// The position that it leads to.
    pub to: Position,
}

impl fmt::Display for Play {
    fn fmt(&self, formatter: &mut fmt::Formatter<'_>) -> fmt::Result {
        let moves: Vec<String> = self
            .moves
            .iter()
            .map(|it| match it.to {
                0 => format!("{}/off", it.from),
                to => format!("{}/{}", it.from, to),
            })
            .collect();
        formatter.pad(&moves.join(" "))
    }
}

/// A position that a roll can lead to, and what it costs, in rolls, beside the best one.
#[derive(Clone, Copy, Debug, PartialEq, Eq, Hash)]
pub struct Choice {
    /// The position.
    pub to: Position,
    /// The least mean after it less the least such mean among all positions of the roll.
    pub loss: Fraction,
}

/// An effective pip count, in pips: 49/6 for each roll of the mean. As a text, and as a double, it
/// is what its exact number is.
#[derive(Clone, Copy, Debug, PartialEq, Eq, PartialOrd, Ord, Hash)]
pub struct EffectivePips {
    /// The exact number.
    pub exact: Fraction,
    /// The number in thousandths, rounded to the nearest and a half up.
    pub thousandths: u64,
}

impl From<EffectivePips> for f64 {
    fn from(pips: EffectivePips) -> f64 {
        pips.exact.into()
    }
}

impl fmt::Display for EffectivePips {
    fn fmt(&self, formatter: &mut fmt::Formatter<'_>) -> fmt::Result {
        self.exact.fmt(formatter)
    }
}

/// What a position stands at.
#[derive(Clone, Copy, Debug, PartialEq, Eq, Hash)]
pub struct PositionInfo {
    /// Its pip count, 0 to 90.
    pub pips: u8,
    /// Its checkers, 0 to 15.
    pub checkers: u8,
    /// How many of 15 are borne off.
    pub off: u8,
}

/// Why there is no answer.
#[derive(Clone, Debug, PartialEq, Eq)]
#[non_exhaustive]
pub enum Error {
    /// The bytes failed verification; the line names the first fault, such as `mean rank 1`.
    Damaged {
        /// The status of the library, 16 to 27.
        status: u32,
        /// The line of the fault.
        line: String,
    },
    /// The text is no XGID, no ID of GNU Backgammon and not six counts.
    BadText,
    /// What the text tells is no race in the home boards.
    NotARace {
        /// The status of the library: 32 where both players have a checker on a point, 33 where one
        /// is on the bar, 34 where the player on roll has one outside the home board, 35 where the
        /// other player has one behind one of these, 36 where the other one has one outside.
        status: u32,
        /// The point, or of a bar whose it is, 1 for the player on roll.
        place: u8,
    },
    /// The text is not two dice, as in `21` or `2-1`.
    BadRoll,
    /// The text is no moves, as in `4/2 2/1`, or none that can be made from the position.
    BadPlay,
    /// The file can't be read.
    Unreadable {
        /// Where it is.
        path: PathBuf,
        /// Why.
        kind: io::ErrorKind,
    },
    /// The library has no answer, by its status: 2 where a die is not 1 to 6, 3 of more than 15
    /// checkers, 4 of more pips than the bound, 5 where no checker is left, 6 where the roll
    /// doesn't lead there, 9 where a file that is to be upgraded is not of version 1, 10 where
    /// there is no position of that rank.
    Refused {
        /// The status of the library.
        status: u32,
    },
    /// A thread, in which a database is opened or built, can't be had.
    NoThread,
    /// The library that is linked is of a version that this crate can't use.
    OtherLibrary {
        /// Its version, as [`library_version`] tells it.
        version: String,
    },
}

impl fmt::Display for Error {
    fn fmt(&self, formatter: &mut fmt::Formatter<'_>) -> fmt::Result {
        match self {
            Error::Damaged { line, .. } => write!(formatter, "not a valid database: {}", line),
            Error::BadText => {
                formatter.write_str("neither an XGID, an ID of GNU Backgammon nor six counts")
            }
            Error::NotARace { status: 33, .. } => formatter.write_str(&status_text(33)),
            Error::NotARace { status, place } => {
                write!(formatter, "{}, point {}", status_text(*status), place)
            }
            Error::BadRoll => formatter.write_str("not two dice, as in 21 or 2-1"),
            Error::BadPlay => formatter.write_str("no moves that can be made, as in 4/2 2/1"),
            Error::Unreadable { path, kind } => {
                write!(formatter, "{} can't be read: {}", path.display(), io::Error::from(*kind))
            }
            Error::Refused { status } => formatter.write_str(&status_text(*status)),
            Error::NoThread => formatter.write_str("there is no thread to open a database in"),
            Error::OtherLibrary { version } => {
                let own = env!("CARGO_PKG_VERSION");
                write!(formatter, "libbearoff is of version {}, and this crate of {}", version, own)
            }
        }
    }
}

impl std::error::Error for Error {}

fn status_text(status: u32) -> String {
    let (mut text, mut needed) = ([0; calls::STATUS_TEXT], 0);
    // the room is that of any text
    unsafe {
        calls::bearoff_status_text(status, text.as_mut_ptr(), text.len(), &mut needed);
    }
    String::from_utf8_lossy(&text[..needed.min(text.len())]).into_owned()
}

fn told(status: u32) -> Result<(), Error> {
    match status {
        calls::OK => Ok(()),
        status => Err(Error::Refused { status }),
    }
}

/// A database that was checked and accepted, over bytes that it owns or borrows. It may be asked
/// from any thread.
///
/// Each question about a position is refused where it has more than 15 checkers or more pips than
/// the bound.
pub struct Database<'a> {
    // nobody changes the bytes or the struct while this lives, and neither moves with it
    bytes: Cow<'a, [u8]>,
    opened: Box<calls::Opened>,
    about: calls::About,
}

// what the pointer in the struct leads to belongs to the same value, and is only read
unsafe impl Send for Database<'_> {}
unsafe impl Sync for Database<'_> {}

/// What a call writes, where it has an answer.
fn answered<T>(before: T, call: impl FnOnce(*mut T) -> u32) -> Result<T, Error> {
    let mut answer = before;
    told(call(&mut answer))?;
    Ok(answer)
}

/// Runs what wants so much stack in a thread that has it.
fn on_stack<T: Send>(stack: usize, run: impl FnOnce() -> T + Send) -> Result<T, Error> {
    thread::scope(|scope| {
        let thread = thread::Builder::new().stack_size(stack + (1 << 20));
        let running = thread.spawn_scoped(scope, run).map_err(|_| Error::NoThread)?;
        running.join().map_err(|_| Error::NoThread)
    })
}

/// Memory that goes into a thread that is waited for.
struct Lent<T>(T);
unsafe impl<T> Send for Lent<T> {}

impl<'a> Database<'a> {
    /// Checks the bytes of a file and opens it, a board file where its header says so: 0.2 s for
    /// 44 pips. They are bytes that are lent, or a `Vec` of the database's own.
    pub fn open(bytes: impl Into<Cow<'a, [u8]>>) -> Result<Database<'a>, Error> {
        let bytes = bytes.into();
        let version = library_version();
        if !is_enough(&version, env!("CARGO_PKG_VERSION")) {
            return Err(Error::OtherLibrary { version });
        }
        let mut opened = calls::Opened::closed();
        let (mut line, mut needed) = ([0; calls::LINE], 0);
        let lent = Lent((&mut *opened, &bytes[..], &mut line, &mut needed));
        let status = on_stack(calls::STACK, move || {
            let Lent((at, bytes, line, needed)) = { lent };
            let (from, length) = (bytes.as_ptr(), bytes.len());
            let (to, room) = (line.as_mut_ptr(), line.len());
            // the struct, the bytes and the room outlive the call, which changes no byte
            unsafe { calls::bearoff_open(at, from, length, to, room, needed) }
        })?;
        if status != calls::OK {
            let line = String::from_utf8_lossy(&line[..needed.min(line.len())]).into_owned();
            return Err(Error::Damaged { status, line });
        }
        let at: *const calls::Opened = &*opened;
        let none = calls::About::default();
        let about = answered(none, |it| unsafe { calls::bearoff_about(at, it) })?;
        Ok(Database { bytes, opened, about })
    }

    /// The bytes of its file.
    pub fn bytes(&self) -> &[u8] {
        &self.bytes
    }

    fn at(&self) -> *const calls::Opened {
        &*self.opened
    }

    /// The version of its file: 1, or 2 where the records leave out the shares that are known, or 3
    /// of a board file.
    pub fn version(&self) -> u16 {
        self.about.version
    }

    /// The greatest pip count of its positions.
    pub fn bound(&self) -> u8 {
        self.about.bound
    }

    /// How many positions it has: those of at most its bound. Their ranks are 0 to one less.
    pub fn position_count(&self) -> u32 {
        self.about.positions
    }

    /// What its means and shares are numerators over: 36^22, or 36^33 of a board file.
    pub fn denominator(&self) -> Whole {
        Whole::power_of_36(u32::from(self.about.rolls))
    }

    fn over_whole(&self, words: calls::Words) -> Fraction {
        Fraction::over_power_of_36(Whole(words), self.denominator())
    }

    /// The least mean number of rolls until all checkers are off, over all strategies.
    pub fn mean(&self, position: Position) -> Result<Fraction, Error> {
        Ok(self.over_whole(self.asked([0; 3], position, calls::bearoff_mean)?))
    }

    /// The effective pip count.
    pub fn epc(&self, position: Position) -> Result<EffectivePips, Error> {
        Ok(self.asked(calls::Pips::default(), position, calls::bearoff_epc)?.into())
    }

    /// The effective pip count less the pip count, in thousandths of a pip. It is 0 where no
    /// checker is left, and else above 0.
    pub fn wastage(&self, position: Position) -> Result<i64, Error> {
        let none = calls::Wasted::default();
        let told = self.asked(none, position, calls::bearoff_wastage)?;
        let thousandths = told.thousandths as i64;
        Ok(if told.is_below { -thousandths } else { thousandths })
    }

    /// The chances of being off in exactly 0 to 22 rolls, of a board file 0 to 33, by the recorded
    /// plays. They add up to 1.
    pub fn distribution(&self, position: Position) -> Result<Vec<Fraction>, Error> {
        let shares = self.asked([[0; 3]; 34], position, calls::bearoff_distribution)?;
        let count = usize::from(self.about.rolls) + 1;
        Ok(shares.iter().take(count).map(|share| self.over_whole(*share)).collect())
    }

    /// The standard deviation of the number of rolls, by the recorded plays.
    pub fn standard_deviation(&self, position: Position) -> Result<f64, Error> {
        let shares = self.distribution(position)?;
        let rolls = || (0..).map(f64::from).zip(shares.iter().copied().map(f64::from));
        let mean: f64 = rolls().map(|(rolls, share)| rolls * share).sum();
        let variance: f64 = rolls().map(|(rolls, share)| (rolls - mean).powi(2) * share).sum();
        Ok(variance.sqrt())
    }

    /// The chance of being off in at most so many rolls, by the recorded plays.
    pub fn within(&self, position: Position, rolls: usize) -> Result<Fraction, Error> {
        let (at, of) = (self.at(), position.counts());
        let rolls = rolls.min(usize::from(u8::MAX)) as u8;
        let none = calls::Chance::default();
        let told = answered(none, |it| unsafe { calls::bearoff_within(at, &of, rolls, it) })?;
        Ok(self.over_whole(told.numerator))
    }

    /// What a call says of a position.
    fn asked<T>(&self, none: T, of: Position, call: calls::OfPosition<T>) -> Result<T, Error> {
        let (at, of) = (self.at(), of.counts());
        // the struct is of an open file, and all outlives the call; so in each call
        answered(none, |it| unsafe { call(at, &of, it) })
    }

    /// The recorded play of a roll: none has a smaller mean, and others may be as good.
    pub fn play(&self, position: Position, roll: Roll) -> Result<Play, Error> {
        let (at, of) = (self.at(), position.counts());
        let none = calls::Play::default();
        let play =
            answered(none, |it| unsafe { calls::bearoff_play(at, &of, roll.one, roll.other, it) })?;
        Ok(play.into())
    }

    /// What a play to `to` costs, in rolls, beside the best one. It is 0 for a best play.
    pub fn loss(&self, position: Position, roll: Roll, to: Position) -> Result<Fraction, Error> {
        let (at, of, to) = (self.at(), position.counts(), to.counts());
        let none = calls::Fraction::default();
        let loss = answered(none, |it| unsafe {
            calls::bearoff_loss(at, &of, roll.one, roll.other, &to, it)
        })?;
        Ok(loss.into())
    }

    /// Every position that a roll can lead to, once, the best first, and of equal ones that of the
    /// lower rank first.
    pub fn moves(&self, position: Position, roll: Roll) -> Result<Vec<Choice>, Error> {
        let (at, of) = (self.at(), position.counts());
        let (mut results, mut count) = ([calls::Choice::default(); calls::RESULTS], 0);
        let (room, length) = (results.as_mut_ptr(), results.len());
        told(unsafe {
            calls::bearoff_moves(at, &of, roll.one, roll.other, room, length, &mut count)
        })?;
        Ok(results[..count].iter().copied().map(Choice::from).collect())
    }

    /// What `bearoff query` writes for a line, as `mean 0,0,0,0,0,1`, without a line ending. A line
    /// that asks nothing, or is refused, is answered too, by a text that begins with `error`.
    pub fn answer(&self, line: impl AsRef<[u8]>) -> Result<String, Error> {
        let (at, line) = (self.at(), line.as_ref());
        let (mut text, mut needed) = (vec![0; calls::REPLY], 0);
        let (room, length) = (text.as_mut_ptr(), text.len());
        told(unsafe {
            let from = line.as_ptr();
            calls::bearoff_answer_line(at, from, line.len(), room, length, &mut needed)
        })?;
        text.truncate(needed);
        Ok(String::from_utf8_lossy(&text).into_owned())
    }

    /// The rank of a position: how many are before it, which are those of fewer pips, and of as
    /// many those with the smaller counts, that of the ace point first.
    pub fn rank(&self, position: Position) -> Result<u16, Error> {
        self.asked(0, position, calls::bearoff_rank)
    }

    /// The position of a rank. Refused where the file has none of that rank.
    pub fn position(&self, rank: u16) -> Result<Position, Error> {
        let at = self.at();
        let told = answered(calls::Counts::default(), |it| unsafe {
            calls::bearoff_position_of(at, rank, it)
        })?;
        Ok(Position::new(told.points))
    }

    /// All positions, by rising rank.
    pub fn positions(&self) -> Result<Vec<Position>, Error> {
        let all = self.listed(calls::Counts::default(), calls::bearoff_listed_positions)?;
        Ok(all.into_iter().map(|it| Position::new(it.points)).collect())
    }

    /// The means of all positions, by rising rank.
    pub fn means(&self) -> Result<Vec<Fraction>, Error> {
        let all = self.listed([0; 3], calls::bearoff_listed_means)?;
        Ok(all.into_iter().map(|mean| self.over_whole(mean)).collect())
    }

    /// The effective pip counts of all positions, by rising rank.
    pub fn epcs(&self) -> Result<Vec<EffectivePips>, Error> {
        let all = self.listed(calls::Pips::default(), calls::bearoff_listed_epcs)?;
        Ok(all.into_iter().map(EffectivePips::from).collect())
    }

    /// The distributions of all positions, by rising rank: the chances of being off in exactly 0 to
    /// 33 rolls, as numerators over [`Database::denominator`]. Over 22 rolls they are 0 except in a
    /// board file.
    pub fn distributions(&self) -> Result<Vec<[Whole; 34]>, Error> {
        let all = self.listed([[0; 3]; 34], calls::bearoff_listed_distributions)?;
        Ok(all.into_iter().map(|row| row.map(Whole)).collect())
    }

    /// What a call lists of all ranks.
    fn listed<T: Clone>(&self, none: T, call: calls::OfRanks<T>) -> Result<Vec<T>, Error> {
        let mut all = vec![none; self.about.positions as usize];
        // there is room for each position of the file
        told(unsafe { call(self.at(), 0, all.as_mut_ptr(), all.len()) })?;
        Ok(all)
    }

    /// The bytes of a file of version 2 that says the same. Refused where its own is of version 2
    /// already, or a board file.
    pub fn upgrade(&self) -> Result<Vec<u8>, Error> {
        let length = self.bytes.len();
        let (mut work, mut room, mut filled) = (vec![0; length], vec![0; length], 0);
        let lent = Lent((&self.bytes[..], &mut work[..], &mut room[..], &mut filled));
        let status = on_stack(calls::STACK, move || {
            let Lent((bytes, work, room, filled)) = { lent };
            let (from, to) = (bytes.as_ptr(), room.as_mut_ptr());
            // three rooms that don't meet
            unsafe {
                calls::bearoff_upgrade(from, length, work.as_mut_ptr(), length, to, length, filled)
            }
        })?;
        told(status)?;
        room.truncate(filled);
        Ok(room)
    }
}

impl Database<'static> {
    /// Opens the file at a path, as [`Database::open`] its bytes. Of a file that is longer than any
    /// right one no more is read.
    pub fn open_path(path: impl AsRef<Path>) -> Result<Database<'static>, Error> {
        let path = path.as_ref();
        let mut bytes = Vec::new();
        let read = |file: File| file.take(calls::FILE as u64 + 1).read_to_end(&mut bytes);
        File::open(path)
            .and_then(read)
            .map_err(|error| Error::Unreadable { path: path.into(), kind: error.kind() })?;
        Database::open(bytes)
    }

    /// Builds the database of a pip bound, 0 to 58, or the board file of one of 59 to 90, and checks
    /// it: some tenths of a second. Refused where the bound is over 90.
    pub fn build(bound: u8) -> Result<Database<'static>, Error> {
        let version = match bound {
            0..=44 => 1,
            45..=58 => 2,
            _ => 3,
        };
        let (mut room, mut filled) = (vec![0; calls::FILE], 0);
        let mut work = vec![0; if version == 3 { 0 } else { calls::FILE }];
        let lent = Lent((&mut work[..], &mut room[..], &mut filled));
        let status = on_stack(calls::STACK, move || {
            let Lent((work, room, filled)) = { lent };
            let (from, length, to, size) =
                (work.as_mut_ptr(), work.len(), room.as_mut_ptr(), room.len());
            // two rooms that don't meet
            unsafe { calls::bearoff_build(version, bound, from, length, to, size, filled) }
        })?;
        told(status)?;
        room.truncate(filled);
        Database::open(room)
    }
}

impl fmt::Debug for Database<'_> {
    fn fmt(&self, formatter: &mut fmt::Formatter<'_>) -> fmt::Result {
        let mut shown = formatter.debug_struct("Database");
        shown.field("version", &self.version()).field("bound", &self.bound());
        shown.field("positions", &self.position_count()).finish()
    }
}

/// The first play of a roll that leads from one position to another, good or not. It needs no
/// database. Refused where a die is not 1 to 6, a position has more than 15 checkers, or the roll
/// doesn't lead there.
pub fn play_to(position: Position, roll: Roll, to: Position) -> Result<Play, Error> {
    let (of, to) = (position.counts(), to.counts());
    let play = answered(calls::Play::default(), |it| unsafe {
        calls::bearoff_play_to(&of, roll.one, roll.other, &to, it)
    })?;
    Ok(play.into())
}

/// What a position stands at. Refused where it has more than 15 checkers.
pub fn position_info(position: Position) -> Result<PositionInfo, Error> {
    let of = position.counts();
    let stand =
        answered(calls::Info::default(), |it| unsafe { calls::bearoff_position_info(&of, it) })?;
    Ok(PositionInfo { pips: stand.pips, checkers: stand.checkers, off: stand.off })
}

/// The version of the library that is linked, as `1.2.3`.
pub fn library_version() -> String {
    let [mut major, mut minor, mut patch] = [0; 3];
    unsafe {
        calls::bearoff_library_version(&mut major, &mut minor, &mut patch);
    }
    format!("{}.{}.{}", major, minor, patch)
}

/// Whether a library of one version has all that a crate of another one calls.
fn is_enough(library: &str, own: &str) -> bool {
    let numbers = |version: &str| -> Vec<u32> {
        version.split('.').map(|number| number.parse().unwrap_or(0)).collect()
    };
    let (library, own) = (numbers(library), numbers(own));
    library[0] == own[0] && library >= own
}

impl From<calls::Fraction> for Fraction {
    fn from(told: calls::Fraction) -> Fraction {
        Fraction::in_lowest_terms(Whole(told.numerator), Whole(told.denominator))
    }
}

impl From<calls::Pips> for EffectivePips {
    fn from(told: calls::Pips) -> EffectivePips {
        EffectivePips { exact: told.exact.into(), thousandths: told.thousandths }
    }
}

impl From<calls::Choice> for Choice {
    fn from(told: calls::Choice) -> Choice {
        Choice { to: Position::new(told.to.points), loss: told.loss.into() }
    }
}

impl From<calls::Play> for Play {
    fn from(told: calls::Play) -> Play {
        let moves = told.moves[..usize::from(told.count)].iter();
        Play {
            moves: moves.map(|it| Move { from: it.from, to: it.to }).collect(),
            to: Position::new(told.to.points),
        }
    }
}
