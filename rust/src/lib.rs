//! Sandpipercot for Rust: safe types over the calls of sandpipercot.h, and no dependency but the library.
//!
//! A [`Table`] is closed where it is dropped, a [`Session`] aborted, a [`Cursor`] closed. The borrow checker sees to what the library would
//! refuse, or its header forbids: no session outlives its table, none is used after its end, and none writes while it has a cursor. A
//! table stays on its thread; a [`Ticket`] may go to another.
//!
//! ```no_run
//! use sandpipercot::{Row, Settings, Table};
//!
//! # fn main() -> Result<(), sandpipercot::Refused> {
//! let table = Table::open(&Settings::default())?;
//! let mut session = table.begin()?;
//! session.insert(&Row { key: 1, cols: [5, 0, 0, 0], body: b"first".to_vec() })?;
//! session.commit()?;
//! # Ok(())
//! # }
//! ```
#![warn(missing_docs)]

mod ffi;
mod looks;

pub use looks::{Action, Fate, Hold, Horizon, IdStatus, Plan, Reason, ShownEntry, ShownVersion, Snapshot, Standing};
use std::cell::UnsafeCell;
use std::fmt;
use std::marker::PhantomData;
use std::ptr;
use std::time::Duration;

/// Sessions are numbered from 0 to 63.
pub const SESSIONS: u8 = 64;
/// How many rows a page may have.
pub const PAGE_ROWS: usize = 291;
/// How many bytes the longest body has.
pub const BODY: usize = 1024;
/// The version of the library that this crate is for: its major number times 100, and its minor number.
pub const VERSION: u32 = 4;

const FOUND: u32 = 1;
const COMMITTED: u32 = 3;
const ROLLED_BACK: u32 = 4;
const ROWS: u32 = 5;
const WORKED: u32 = 7;
const NOT_OPEN: u32 = 16;
const NO_PLACE: u32 = 50;
const BUSY: u32 = 256;

macro_rules! refusals {
    ($($name:ident = $number:literal, $words:literal;)*) => {
        /// Why a call was refused. All is then as it was.
        #[derive(Clone, Copy, Debug, PartialEq, Eq)]
        #[non_exhaustive]
        pub enum Refused {
            $(#[doc = $words] $name,)*
            /// another open session has written the key: that of this number
            Busy(u8),
            /// the transaction had failed, so its commit rolled it back
            RolledBack,
            /// the library answered what its header doesn't name
            Unknown(u32),
        }

        impl Refused {
            fn of(status: u32) -> Refused {
                match status {
                    $($number => Refused::$name,)*
                    ROLLED_BACK => Refused::RolledBack,
                    BUSY..=319 => Refused::Busy((status - BUSY) as u8),
                    _ => Refused::Unknown(status),
                }
            }
        }

        impl fmt::Display for Refused {
            fn fmt(&self, to: &mut fmt::Formatter<'_>) -> fmt::Result {
                match self {
                    $(Refused::$name => to.write_str($words),)*
                    Refused::Busy(session) => write!(to, "open session {session} has written the key"),
                    Refused::RolledBack => to.write_str("what the session wrote was rolled back"),
                    Refused::Unknown(status) => write!(to, "the library answered {status}"),
                }
            }
        }
    };
}

refusals! {
    NotOpen = 16, "the session is not open";
    AlreadyOpen = 17, "the session is open already";
    Failed = 18, "the transaction has failed: roll back to a savepoint, or abort";
    AlreadyThere = 19, "the session reads a row of the key already";
    NotThere = 20, "the session reads no row of the key";
    Conflict = 21, "a transaction that committed since the session's snapshot was taken wrote the key";
    CursorOpen = 22, "the session has a cursor, and while it does it writes nothing";
    NoCursor = 23, "the session has no cursor";
    TooDeep = 24, "the session has 32 savepoints";
    NoSavepoint = 25, "the session has no savepoint";
    TooLarge = 26, "the body has more than 1024 bytes";
    NoRoom = 27, "no page has room, and max_pages are in use";
    NeedsFreeze = 28, "no id can be given until an aggressive vacuum has ended";
    BadBounds = 29, "the lower bound is over the upper";
    NoMemory = 30, "memory was refused";
    NoSuchPage = 31, "the page is not in use";
    NoSuchIndex = 32, "there is no such index";
    NoSuchSession = 33, "the session's number is over 63";
    VacuumRunning = 34, "a vacuum is running already";
    NoVacuum = 35, "no vacuum is running";
    IndexTooNew = 36, "the index was made while the session was open by snapshot";
    IndexBusy = 37, "an index can't be made while an open session has written";
    Deadlock = 38, "a wait for the session that has written the key would close a ring";
    Stale = 39, "the plan does not check";
    NoEngine = 48, "the handle has no table";
    HasEngine = 49, "the handle has a table already";
    NoPlace = 50, "there is no place for a row, for a page, for all rows, or for a picture";
    NoTicket = 51, "the ticket has no page";
    HasTicket = 52, "the ticket has a page already";
    TooManyPages = 53, "a picture has at most 64 pages";
    BadMaxPages = 64, "the setting max_pages is out of its range";
    BadStopAge = 65, "the setting stop_age is out of its range";
    BadFreezeMinAge = 66, "the setting freeze_min_age is out of its range";
    BadFirstXid = 67, "the setting first_xid is out of its range";
    BadDeadLimit = 68, "the setting dead_limit is out of its range";}

impl std::error::Error for Refused {}

impl Refused {
    /// Whether the whole transaction may succeed when it is done again.
    pub fn may_pass_later(self) -> bool {
        matches!(self, Refused::Busy(_) | Refused::Conflict | Refused::Deadlock | Refused::RolledBack)
    }
}

fn told(status: u32) -> Result<u32, Refused> {
    if status < NOT_OPEN { Ok(status) } else { Err(Refused::of(status)) }
}

/// What a table is made with; the header gives the ranges. By default they are the widest, with no index but that by key.
#[repr(C)]
#[derive(Clone, Debug)]
pub struct Settings {
    /// how many pages it may have
    pub max_pages: u32,
    /// a write that needs an id is refused once the next one is this far from the oldest
    pub stop_age: u32,
    /// a vacuum freezes versions whose id is older than this
    pub freeze_min_age: u32,
    /// the first transaction's id
    pub first_xid: u32,
    /// how many dead slots a vacuum collects before it goes through the indexes
    pub dead_limit: u32,
    /// which of the columns have an index
    pub indexed: [bool; 4],
}

impl Default for Settings {
    fn default() -> Settings {
        Settings { max_pages: 65536, stop_age: 2144483648, freeze_min_age: 0, first_xid: 3, dead_limit: 4096, indexed: [false; 4] }
    }
}

/// A row: a key, four columns, and a body of at most 1024 bytes.
#[derive(Clone, Debug, Default, PartialEq, Eq)]
pub struct Row {
    /// its key
    pub key: u64,
    /// its columns
    pub cols: [i64; 4],
    /// its body
    pub body: Vec<u8>,
}

impl ffi::Place {
    fn empty() -> ffi::Place {
        ffi::Place { key: 0, cols: [0; 4], length: 0, body: [0; BODY] }
    }

    fn many(count: usize) -> Vec<ffi::Place> {
        (0..count).map(|_| ffi::Place::empty()).collect()
    }

    /// The place of a row. One whose body is too long gets a length that the library refuses.
    fn of(row: &Row) -> ffi::Place {
        let mut place = ffi::Place { key: row.key, cols: row.cols, length: BODY as u16 + 1, body: [0; BODY] };
        if row.body.len() <= BODY {
            place.length = row.body.len() as u16;
            place.body[..row.body.len()].copy_from_slice(&row.body);
        }
        place
    }

    fn row(&self) -> Row {
        Row { key: self.key, cols: self.cols, body: self.body[..usize::from(self.length)].to_vec() }
    }
}

/// A table. It stays on the thread that opened it.
pub struct Table {
    // (the library writes to it at each call, and calls nothing of this crate's; a raw pointer in it keeps it on its thread)
    handle: UnsafeCell<ffi::Handle>,
}

/// What a table is like.
#[derive(Clone, Debug, PartialEq, Eq)]
pub struct State {
    /// the id that is given next
    pub next_id: u32,
    /// the oldest id that is remembered
    pub oldest_id: u32,
    /// how many more ids can be given before [`Refused::NeedsFreeze`]
    pub ids_left: u32,
    /// how many pages are in use
    pub pages: u32,
    /// a bit for each session, the lowest for session 0: 1 where it is open
    pub open_sessions: u64,
    /// how many entries each index has: index 0 is by key, index c + 1 by column c
    pub entries: [Option<u64>; 5],
}

// SAFETY of each call of the library: the handle is one that it opened, on one thread, and no two places overlap.
impl Table {
    /// Opens a table.
    pub fn open(settings: &Settings) -> Result<Table, Refused> {
        assert_eq!(unsafe { ffi::sandpiper_version() }, VERSION, "libsandpipercot is of another version than this crate");
        let table = Table { handle: UnsafeCell::new(ffi::Handle { held: ptr::null_mut(), is_open: false }) };
        told(unsafe { ffi::sandpiper_open(settings, table.handle.get()) })?;
        Ok(table)
    }

    /// Begins a session, of the lowest number that is free: it reads what is committed now, and its own writes.
    pub fn begin(&self) -> Result<Session<'_>, Refused> {
        self.begin_by(ffi::sandpiper_begin)
    }

    /// The same by statement: each call reads what is committed by then, and no write meets a [`Refused::Conflict`].
    pub fn begin_read_committed(&self) -> Result<Session<'_>, Refused> {
        self.begin_by(ffi::sandpiper_begin_read_committed)
    }

    fn begin_by(&self, call: unsafe extern "C" fn(*mut ffi::Handle, u8) -> u32) -> Result<Session<'_>, Refused> {
        let number = (!self.state()?.open_sessions).trailing_zeros() as u8;
        told(unsafe { call(self.handle.get(), number) })?;
        Ok(Session { table: self, number })
    }

    /// Runs a transaction: begins a session, hands it to the function, and commits. After a refusal that [`Refused::may_pass_later`] it is
    /// aborted and done again, up to so many times in all, with a wait that doubles; then the last refusal is answered.
    pub fn run<T>(
        &self,
        tries: u32,
        mut wait: Duration,
        mut function: impl FnMut(&mut Session<'_>) -> Result<T, Refused>,
    ) -> Result<T, Refused> {
        for left in (0..tries).rev() {
            let mut session = self.begin()?;
            let done = match function(&mut session) {
                Ok(answer) => session.commit().map(|()| answer),
                Err(refused) => session.abort().and(Err(refused)),
            };
            match done {
                Err(refused) if refused.may_pass_later() && left > 0 => std::thread::sleep(wait),
                done => return done,
            }
            wait *= 2;
        }
        panic!("a transaction is tried once at least")
    }

    /// What the table is like now.
    pub fn state(&self) -> Result<State, Refused> {
        let mut it = ffi::State::default();
        told(unsafe { ffi::sandpiper_state_of(self.handle.get(), &mut it) })?;
        let mut entries = [None; 5];
        for (number, count) in it.entries.into_iter().enumerate() {
            entries[number] = it.has_index[number].then_some(count);
        }
        let ffi::State { next_id, oldest_id, ids_left, pages, open_sessions, .. } = it;
        Ok(State { next_id, oldest_id, ids_left, pages, open_sessions, entries })
    }

    /// Makes the index of a column, from 0 to 3.
    pub fn create_index(&self, column: u8) -> Result<(), Refused> {
        told(unsafe { ffi::sandpiper_create_index(self.handle.get(), column) }).map(drop)
    }

    /// Takes from a page, counted from 0, the versions that no session can see any more.
    pub fn prune(&self, page: u32) -> Result<(), Refused> {
        told(unsafe { ffi::sandpiper_prune(self.handle.get(), page) }).map(drop)
    }

    /// A whole vacuum, and the oldest id that is remembered after it.
    pub fn vacuum(&self, aggressive: bool) -> Result<u32, Refused> {
        let mut piece = ffi::Piece::default();
        told(unsafe { ffi::sandpiper_vacuum_begin(self.handle.get(), aggressive) })?;
        while told(unsafe { ffi::sandpiper_vacuum_step(self.handle.get(), &mut piece) })? == WORKED {}
        Ok(piece.oldest)
    }
}

impl Drop for Table {
    fn drop(&mut self) {
        unsafe { ffi::sandpiper_close(self.handle.get()) };
    }
}

/// A transaction. Where it is dropped without an end it is aborted.
pub struct Session<'t> {
    table: &'t Table,
    number: u8,
}

impl<'t> Session<'t> {
    fn handle(&self) -> *mut ffi::Handle {
        self.table.handle.get()
    }

    /// Its number, by which [`Refused::Busy`] names it.
    pub fn number(&self) -> u8 {
        self.number
    }

    /// Makes what was written part of the table; [`Refused::RolledBack`] where the transaction had failed.
    pub fn commit(self) -> Result<(), Refused> {
        let status = told(unsafe { ffi::sandpiper_commit(self.handle(), self.number) })?;
        std::mem::forget(self);
        if status == COMMITTED { Ok(()) } else { Err(Refused::of(status)) }
    }

    /// Drops what was written.
    pub fn abort(self) -> Result<(), Refused> {
        let status = told(unsafe { ffi::sandpiper_abort(self.handle(), self.number) })?;
        std::mem::forget(self);
        if status == ROLLED_BACK { Ok(()) } else { Err(Refused::of(status)) }
    }

    /// The row of the key, if it has one.
    pub fn get(&self, key: u64) -> Result<Option<Row>, Refused> {
        let mut place = ffi::Place::empty();
        let status = told(unsafe { ffi::sandpiper_get(self.handle(), self.number, key, &mut place) })?;
        Ok((status == FOUND).then(|| place.row()))
    }

    /// Writes a row of a key that has none.
    pub fn insert(&mut self, row: &Row) -> Result<(), Refused> {
        told(unsafe { ffi::sandpiper_insert(self.handle(), self.number, &ffi::Place::of(row)) }).map(drop)
    }

    /// Writes another row of a key that has one.
    pub fn update(&mut self, row: &Row) -> Result<(), Refused> {
        told(unsafe { ffi::sandpiper_update(self.handle(), self.number, &ffi::Place::of(row)) }).map(drop)
    }

    /// Updates the row of the key, or else inserts it.
    pub fn put(&mut self, row: &Row) -> Result<(), Refused> {
        match self.update(row) {
            Err(Refused::NotThere) => self.insert(row),
            done => done,
        }
    }

    /// Takes the row of the key away.
    pub fn delete(&mut self, key: u64) -> Result<(), Refused> {
        told(unsafe { ffi::sandpiper_delete(self.handle(), self.number, key) }).map(drop)
    }

    /// Sets a savepoint above those that there are.
    pub fn savepoint(&mut self) -> Result<(), Refused> {
        told(unsafe { ffi::sandpiper_savepoint(self.handle(), self.number) }).map(drop)
    }

    /// Takes back what was written since the newest savepoint, which stays.
    pub fn rollback_to(&mut self) -> Result<(), Refused> {
        told(unsafe { ffi::sandpiper_rollback_to(self.handle(), self.number) }).map(drop)
    }

    /// Forgets the newest savepoint, and keeps what was written since.
    pub fn release(&mut self) -> Result<(), Refused> {
        told(unsafe { ffi::sandpiper_release(self.handle(), self.number) }).map(drop)
    }

    fn cursor(&self, opened: u32) -> Result<Cursor<'_>, Refused> {
        told(opened)?;
        Ok(Cursor { handle: self.handle(), number: self.number, places: ffi::Place::many(64), at: 0, count: 0, has_ended: false, of: PhantomData })
    }

    /// All rows that the session reads, page by page.
    pub fn rows(&self) -> Result<Cursor<'_>, Refused> {
        self.cursor(unsafe { ffi::sandpiper_open_heap(self.handle(), self.number) })
    }

    /// The rows with keys from low to high, both included, in ascending order.
    pub fn by_key(&self, low: u64, high: u64) -> Result<Cursor<'_>, Refused> {
        self.cursor(unsafe { ffi::sandpiper_open_by_key(self.handle(), self.number, low, high) })
    }

    /// The same by the values of a column, 0 to 3, that has an index.
    pub fn by_column(&self, column: u8, low: i64, high: i64) -> Result<Cursor<'_>, Refused> {
        if column > 3 {
            return Err(Refused::NoSuchIndex);
        }
        self.cursor(unsafe { ffi::sandpiper_open_index(self.handle(), self.number, column + 1, low, high) })
    }

    /// A page, counted from 0, as it is now, with what the session sees of it now.
    pub fn take_page(&self, page: u32) -> Result<Ticket, Refused> {
        let mut ticket = Ticket { held: ffi::Ticket { held: ptr::null_mut(), is_taken: false } };
        told(unsafe { ffi::sandpiper_take_page(self.handle(), self.number, page, &mut ticket.held) })?;
        Ok(ticket)
    }
}

impl Drop for Session<'_> {
    fn drop(&mut self) {
        unsafe { ffi::sandpiper_abort(self.handle(), self.number) };
    }
}

/// An iterator over rows of a session, as they were when it was opened. A session has one at a time.
pub struct Cursor<'s> {
    handle: *mut ffi::Handle,
    number: u8,
    places: Vec<ffi::Place>,
    at: usize,
    count: usize,
    has_ended: bool,
    of: PhantomData<&'s Session<'s>>,
}

impl Iterator for Cursor<'_> {
    type Item = Result<Row, Refused>;

    fn next(&mut self) -> Option<Result<Row, Refused>> {
        if self.at == self.count && !self.has_ended {
            self.at = 0;
            let places = (self.places.as_mut_ptr(), self.places.len());
            let status = unsafe { ffi::sandpiper_next(self.handle, self.number, places.0, places.1, &mut self.count) };
            self.has_ended = status != ROWS;
            if let Err(refused) = told(status) {
                return Some(Err(refused));
            }
        }
        let row = self.places[self.at..self.count].first()?.row();
        self.at += 1;
        Some(Ok(row))
    }
}

impl Drop for Cursor<'_> {
    fn drop(&mut self) {
        unsafe { ffi::sandpiper_close_cursor(self.handle, self.number) };
    }
}

/// A page as it was when it was taken, with what its session saw of it. It needs no table, and may go to another thread.
pub struct Ticket {
    held: ffi::Ticket,
}

// SAFETY: a ticket is independent of all else, and takes one call at a time, from whatever thread: its calls here need `&mut`.
unsafe impl Send for Ticket {}

impl Ticket {
    /// The rows, in the order of their slots.
    pub fn rows(&mut self) -> Result<Vec<Row>, Refused> {
        let (mut places, mut count) = (ffi::Place::many(PAGE_ROWS), 0);
        told(unsafe { ffi::sandpiper_ticket_rows(&mut self.held, places.as_mut_ptr(), places.len(), &mut count) })?;
        Ok(places[..count].iter().map(ffi::Place::row).collect())
    }
}

impl Drop for Ticket {
    fn drop(&mut self) {
        unsafe { ffi::sandpiper_close_ticket(&mut self.held) };
    }
}
