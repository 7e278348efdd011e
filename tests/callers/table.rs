//! The library from Rust: a table with a `Drop`, and a refusal as an error.
use std::ffi::c_void;
use std::mem::size_of;

#[repr(C)]
struct Handle {
    held: *mut c_void,
    is_open: bool,
}

#[repr(C)]
struct Settings {
    max_pages: u32,
    stop_age: u32,
    freeze_min_age: u32,
    first_xid: u32,
    dead_limit: u32,
    indexed: [bool; 4],
}

#[repr(C)]
#[derive(Clone)]
struct Row {
    key: u64,
    cols: [i64; 4],
    length: u16,
    body: [u8; 1024],
}

#[repr(C)]
#[derive(Debug, Default, PartialEq)]
struct Piece {
    kind: u32,
    number: u32,
    oldest: u32,
}

unsafe extern "C" {
    fn sandpiper_open(settings: &Settings, table: &mut Handle) -> u32;
    fn sandpiper_close(table: &mut Handle) -> u32;
    fn sandpiper_begin(table: &mut Handle, session: u8) -> u32;
    fn sandpiper_commit(table: &mut Handle, session: u8) -> u32;
    fn sandpiper_get(table: &mut Handle, session: u8, key: u64, row: &mut Row) -> u32;
    fn sandpiper_insert(table: &mut Handle, session: u8, row: &Row) -> u32;
    fn sandpiper_update(table: &mut Handle, session: u8, row: &Row) -> u32;
    fn sandpiper_delete(table: &mut Handle, session: u8, key: u64) -> u32;
    fn sandpiper_open_by_key(table: &mut Handle, session: u8, low: u64, high: u64) -> u32;
    fn sandpiper_next(table: &mut Handle, session: u8, rows: *mut Row, capacity: usize, count: &mut usize) -> u32;
    fn sandpiper_close_cursor(table: &mut Handle, session: u8) -> u32;
    fn sandpiper_vacuum_begin(table: &mut Handle, aggressive: bool) -> u32;
    fn sandpiper_vacuum_step(table: &mut Handle, piece: &mut Piece) -> u32;
    fn sandpiper_vacuum_cancel(table: &mut Handle) -> u32;
}

const FOUND: u32 = 1;
const COMMITTED: u32 = 3;
const ROWS: u32 = 5;
const WORKED: u32 = 7;
const FIRST_REFUSAL: u32 = 16;
const CONFLICT: Refused = Refused(21);
const VACUUM_RUNNING: Refused = Refused(34);
const NO_VACUUM: Refused = Refused(35);
const BAD_MAX_PAGES: Refused = Refused(64);

/// A table that ends with its scope. The pointer in it makes it neither `Send` nor `Sync`, which is right: a handle stays on its
/// thread.
struct Table(Handle);

#[derive(Debug, PartialEq)]
struct Refused(u32);

fn told(status: u32) -> Result<u32, Refused> {
    if status < FIRST_REFUSAL { Ok(status) } else { Err(Refused(status)) }
}

// SAFETY of each call below: the handle is zeros or the library's, on one thread, and a reference is never null.
impl Table {
    fn open(settings: &Settings) -> Result<Table, Refused> {
        let mut table = Table(Handle { held: std::ptr::null_mut(), is_open: false });
        told(unsafe { sandpiper_open(settings, &mut table.0) })?;
        Ok(table)
    }

    fn begin(&mut self, session: u8) -> Result<u32, Refused> {
        told(unsafe { sandpiper_begin(&mut self.0, session) })
    }

    fn commit(&mut self, session: u8) -> Result<bool, Refused> {
        Ok(told(unsafe { sandpiper_commit(&mut self.0, session) })? == COMMITTED)
    }

    fn insert(&mut self, session: u8, row: &Row) -> Result<u32, Refused> {
        told(unsafe { sandpiper_insert(&mut self.0, session, row) })
    }

    fn update(&mut self, session: u8, row: &Row) -> Result<u32, Refused> {
        told(unsafe { sandpiper_update(&mut self.0, session, row) })
    }

    fn delete(&mut self, session: u8, key: u64) -> Result<u32, Refused> {
        told(unsafe { sandpiper_delete(&mut self.0, session, key) })
    }

    fn get(&mut self, session: u8, key: u64) -> Result<Option<Row>, Refused> {
        let mut row = row_of(0, 0);
        let status = told(unsafe { sandpiper_get(&mut self.0, session, key, &mut row) })?;
        Ok((status == FOUND).then_some(row))
    }

    fn vacuum_begin(&mut self, aggressive: bool) -> Result<u32, Refused> {
        told(unsafe { sandpiper_vacuum_begin(&mut self.0, aggressive) })
    }

    fn vacuum_cancel(&mut self) -> Result<u32, Refused> {
        told(unsafe { sandpiper_vacuum_cancel(&mut self.0) })
    }

    /// The steps of the vacuum that runs, until it has ended.
    fn vacuum_steps(&mut self) -> Result<Vec<Piece>, Refused> {
        let mut pieces = Vec::new();
        loop {
            let mut piece = Piece::default();
            let status = told(unsafe { sandpiper_vacuum_step(&mut self.0, &mut piece) })?;
            pieces.push(piece);
            if status != WORKED {
                return Ok(pieces);
            }
        }
    }

    fn keys(&mut self, session: u8, low: u64, high: u64) -> Result<Vec<u64>, Refused> {
        let (mut rows, mut count, mut keys) = (vec![row_of(0, 0); 2], 0, Vec::new());
        told(unsafe { sandpiper_open_by_key(&mut self.0, session, low, high) })?;
        while told(unsafe { sandpiper_next(&mut self.0, session, rows.as_mut_ptr(), rows.len(), &mut count) })? == ROWS {
            keys.extend(rows[..count].iter().map(|row| row.key));
        }
        told(unsafe { sandpiper_close_cursor(&mut self.0, session) })?;
        Ok(keys)
    }
}

impl Drop for Table {
    fn drop(&mut self) {
        unsafe { sandpiper_close(&mut self.0) };
    }
}

fn row_of(key: u64, column: i64) -> Row {
    Row { key, cols: [column, 0, 0, 0], length: 0, body: [0; 1024] }
}

fn main() -> Result<(), Refused> {
    assert_eq!((size_of::<Handle>(), size_of::<Settings>(), size_of::<Row>()), (16, 24, 1072));
    let mut settings =
        Settings { max_pages: 0, stop_age: 2144483648, freeze_min_age: 0, first_xid: 3, dead_limit: 4096, indexed: [false; 4] };
    assert_eq!(Table::open(&settings).err(), Some(BAD_MAX_PAGES));
    settings.max_pages = 64;
    let mut table = Table::open(&settings)?;

    table.begin(0)?;
    for key in 1..=5 {
        table.insert(0, &row_of(key, 10))?;
    }
    assert!(table.commit(0)?);
    table.begin(0)?;
    table.begin(1)?;
    table.update(1, &row_of(1, 20))?;
    table.delete(1, 3)?;
    assert!(table.commit(1)?);
    assert_eq!(table.get(0, 1)?.map(|row| row.cols[0]), Some(10));
    assert_eq!(table.keys(0, 2, 5)?, [2, 3, 4, 5]);
    assert_eq!(table.update(0, &row_of(1, 20)), Err(CONFLICT));
    assert!(!table.commit(0)?);

    table.begin(0)?;
    assert_eq!(table.get(0, 1)?.map(|row| row.cols[0]), Some(20));
    assert!(table.get(0, 3)?.is_none());
    assert_eq!(table.keys(0, 0, u64::MAX)?, [1, 2, 4, 5]);
    assert!(table.commit(0)?);

    assert_eq!(table.vacuum_cancel(), Err(NO_VACUUM));
    table.vacuum_begin(true)?;
    assert_eq!(table.vacuum_begin(true), Err(VACUUM_RUNNING));
    let pieces = [(1, 0, 0), (2, 0, 0), (3, 0, 0), (0, 0, 5)];
    assert_eq!(table.vacuum_steps()?, pieces.map(|(kind, number, oldest)| Piece { kind, number, oldest }));
    println!("all right");
    Ok(())
}
