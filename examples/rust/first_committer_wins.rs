//! Two sessions want to write one key, and only the one that commits first gets its way. Then a scan of what is left.
//!     rustc first_committer_wins.rs -L PREFIX/lib -l sandpipercot
#[repr(C)]
struct Table(*mut u8, bool); // the handle: all zeros at first, and nobody's but the library's
#[repr(C)]
struct Settings([u32; 5], [bool; 4]);
#[repr(C)]
struct Row {
    key: u64,
    cols: [i64; 4],
    length: u16,
    body: [u8; 1024],
}

const ROWS: u32 = 5;
unsafe extern "C" {
    safe fn sandpiper_open(settings: &Settings, table: &mut Table) -> u32;
    safe fn sandpiper_close(table: &mut Table) -> u32;
    safe fn sandpiper_begin(table: &mut Table, session: u8) -> u32;
    safe fn sandpiper_commit(table: &mut Table, session: u8) -> u32;
    safe fn sandpiper_insert(table: &mut Table, session: u8, row: &Row) -> u32;
    safe fn sandpiper_get(table: &mut Table, session: u8, key: u64, row: &mut Row) -> u32;
    safe fn sandpiper_open_heap(table: &mut Table, session: u8) -> u32;
    fn sandpiper_next(table: &mut Table, session: u8, rows: *mut Row, capacity: usize, count: &mut usize) -> u32;
}

fn row(key: u64, column: i64) -> Row {
    Row { key, cols: [column, 0, 0, 0], length: 0, body: [0; 1024] }
}

fn say(what: &str, status: u32) {
    let all = [(0, "done"), (3, "committed"), (4, "rolled back"), (18, "failed"), (21, "conflict"), (256, "busy")];
    let words = all.iter().find(|it| it.0 == status.min(256)).map_or("refused", |it| it.1);
    println!("{what}: {words}");
}

fn main() {
    let (mut table, mut found) = (Table(std::ptr::null_mut(), false), row(0, 0));
    assert_eq!(sandpiper_open(&Settings([65536, 2144483648, 0, 3, 4096], [false; 4]), &mut table), 0);
    (0..2).for_each(|session| assert_eq!(sandpiper_begin(&mut table, session), 0));
    say("session 0 inserts key 1", sandpiper_insert(&mut table, 0, &row(1, 10)));
    say("session 1 inserts key 1", sandpiper_insert(&mut table, 1, &row(1, 20))); // an open session has written the key
    say("session 1 inserts key 2", sandpiper_insert(&mut table, 1, &row(2, 20)));
    say("session 0 commits", sandpiper_commit(&mut table, 0));
    say("session 1 inserts key 1", sandpiper_insert(&mut table, 1, &row(1, 20))); // it was committed: session 1 has failed
    say("session 1 reads key 2", sandpiper_get(&mut table, 1, 2, &mut found));
    say("session 1 commits", sandpiper_commit(&mut table, 1)); // which takes back what it wrote
    assert_eq!(sandpiper_begin(&mut table, 1) + sandpiper_open_heap(&mut table, 1), 0);
    let (mut rows, mut count) = ([row(0, 0), row(0, 0)], 0);
    // SAFETY: the pointer leads to as many rows as are said
    while unsafe { sandpiper_next(&mut table, 1, rows.as_mut_ptr(), rows.len(), &mut count) } == ROWS {
        rows[..count].iter().for_each(|row| println!("row {}: {}", row.key, row.cols[0]));
    }
    sandpiper_close(&mut table);
}
