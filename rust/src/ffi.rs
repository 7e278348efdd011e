//! The structs and calls of sandpipercot.h that this crate uses.
use std::ffi::c_void;

#[repr(C)]
pub struct Handle {
    pub held: *mut c_void,
    pub is_open: bool,
}

#[repr(C)]
pub struct Ticket {
    pub held: *mut c_void,
    pub is_taken: bool,
}

#[repr(C)]
pub struct Place {
    pub key: u64,
    pub cols: [i64; 4],
    pub length: u16,
    pub body: [u8; 1024],
}

#[repr(C)]
#[derive(Default)]
pub struct Piece {
    pub kind: u32,
    pub number: u32,
    pub oldest: u32,
}

#[repr(C)]
#[derive(Default)]
pub struct State {
    pub next_id: u32,
    pub oldest_id: u32,
    pub ids_left: u32,
    pub pages: u32,
    pub open_sessions: u64,
    pub entries: [u64; 5],
    pub has_index: [bool; 5],
    pub vacuum: u32,
}

#[repr(C)]
#[derive(Clone, Copy, Default)]
pub struct SlotPlace {
    pub page: u32,
    pub slot: u16,
}

#[repr(C)]
#[derive(Clone, Copy, Default)]
pub struct Reason {
    pub id: u32,
    pub reason: u32,
    pub limit: u32,
    pub parent: u32,
}

#[repr(C)]
#[derive(Clone, Copy, Default)]
pub struct Shown {
    pub slot: u16,
    pub is_seen: bool,
    pub maker: Reason,
    pub deleter: Reason,
}

#[repr(C)]
#[derive(Clone, Copy, Default)]
pub struct Snapshot {
    pub is_kept: bool,
    pub is_overflowed: bool,
    pub xmin: u32,
    pub xmax: u32,
    pub listed: usize,
}

#[repr(C)]
#[derive(Clone, Copy, Default)]
pub struct Session {
    pub is_by_statement: bool,
    pub has_failed: bool,
    pub is_waiting: bool,
    pub waits_for: u8,
    pub cursor: u32,
    pub savepoints: usize,
    pub ids: usize,
    pub snapshot: Snapshot,
}

#[repr(C)]
#[derive(Clone, Copy, Default)]
pub struct Horizon {
    pub id: u32,
    pub holder: u32,
    pub session: u32,
}

#[repr(C)]
#[derive(Clone, Copy, Default)]
pub struct Id {
    pub status: u32,
    pub is_owned: bool,
    pub session: u8,
}

#[repr(C)]
#[derive(Clone, Copy, Default)]
pub struct Fate {
    pub kind: u32,
    pub id: u32,
    pub status: u32,
    pub slot: u32,
}

#[repr(C)]
#[derive(Clone, Copy, Default)]
pub struct Action {
    pub slot: u16,
    pub kind: u16,
    pub target: u16,
}

extern "C" {
    pub fn sandpiper_version() -> u32;
    pub fn sandpiper_open(settings: *const crate::Settings, table: *mut Handle) -> u32;
    pub fn sandpiper_close(table: *mut Handle) -> u32;
    pub fn sandpiper_begin(table: *mut Handle, session: u8) -> u32;
    pub fn sandpiper_begin_read_committed(table: *mut Handle, session: u8) -> u32;
    pub fn sandpiper_commit(table: *mut Handle, session: u8) -> u32;
    pub fn sandpiper_abort(table: *mut Handle, session: u8) -> u32;
    pub fn sandpiper_savepoint(table: *mut Handle, session: u8) -> u32;
    pub fn sandpiper_rollback_to(table: *mut Handle, session: u8) -> u32;
    pub fn sandpiper_release(table: *mut Handle, session: u8) -> u32;
    pub fn sandpiper_get(table: *mut Handle, session: u8, key: u64, row: *mut Place) -> u32;
    pub fn sandpiper_insert(table: *mut Handle, session: u8, row: *const Place) -> u32;
    pub fn sandpiper_update(table: *mut Handle, session: u8, row: *const Place) -> u32;
    pub fn sandpiper_delete(table: *mut Handle, session: u8, key: u64) -> u32;
    pub fn sandpiper_open_heap(table: *mut Handle, session: u8) -> u32;
    pub fn sandpiper_open_by_key(table: *mut Handle, session: u8, low: u64, high: u64) -> u32;
    pub fn sandpiper_open_index(table: *mut Handle, session: u8, index: u8, low: i64, high: i64) -> u32;
    pub fn sandpiper_next(table: *mut Handle, session: u8, rows: *mut Place, capacity: usize, count: *mut usize) -> u32;
    pub fn sandpiper_close_cursor(table: *mut Handle, session: u8) -> u32;
    pub fn sandpiper_take_page(table: *mut Handle, session: u8, page: u32, ticket: *mut Ticket) -> u32;
    pub fn sandpiper_ticket_rows(ticket: *mut Ticket, rows: *mut Place, capacity: usize, count: *mut usize) -> u32;
    pub fn sandpiper_close_ticket(ticket: *mut Ticket) -> u32;
    pub fn sandpiper_create_index(table: *mut Handle, column: u8) -> u32;
    pub fn sandpiper_prune(table: *mut Handle, page: u32) -> u32;
    pub fn sandpiper_vacuum_begin(table: *mut Handle, aggressive: bool) -> u32;
    pub fn sandpiper_vacuum_step(table: *mut Handle, piece: *mut Piece) -> u32;
    pub fn sandpiper_state_of(table: *mut Handle, state: *mut State) -> u32;
    pub fn sandpiper_next_entry(table: *mut Handle, key: u64, place: *mut SlotPlace) -> u32;
    pub fn sandpiper_explain(table: *mut Handle, session: u8, entry: *const SlotPlace, n: usize, shown: *mut Shown) -> u32;
    pub fn sandpiper_session_of(table: *mut Handle, session: u8, shown: *mut Session) -> u32;
    pub fn sandpiper_own_id(table: *mut Handle, session: u8, n: usize, id: *mut u32) -> u32;
    pub fn sandpiper_ids_at_savepoint(table: *mut Handle, session: u8, savepoint: usize, count: *mut usize) -> u32;
    pub fn sandpiper_listed_id(table: *mut Handle, session: u8, n: usize, id: *mut u32) -> u32;
    pub fn sandpiper_horizon_of(table: *mut Handle, horizon: *mut Horizon) -> u32;
    pub fn sandpiper_id_of(table: *mut Handle, id: u32, shown: *mut Id) -> u32;
    pub fn sandpiper_fate_of(table: *mut Handle, page: u32, slot: u16, fate: *mut Fate) -> u32;
    pub fn sandpiper_plan_of(
        table: *mut Handle,
        page: u32,
        actions: *mut Action,
        capacity: usize,
        count: *mut usize,
        change: *mut u64,
    ) -> u32;
    pub fn sandpiper_draw(
        table: *mut Handle,
        pages: *const u32,
        count: usize,
        text: *mut u8,
        capacity: usize,
        length: *mut usize,
    ) -> u32;
    pub fn sandpiper_apply_plan(table: *mut Handle, page: u32, change: u64, actions: *const Action, count: usize) -> u32;
}
