//! The crate of rust/: a bank, scans and a retry.
use sandpipercot::{Action, Fate, Hold, Horizon, IdStatus, Reason, Refused, Row, Session, Settings, ShownEntry, ShownVersion, Snapshot, Standing, Table, Ticket, SESSIONS};
use std::time::Duration;

const SOON: Duration = Duration::from_micros(1);

fn row(key: u64, column: i64, body: &[u8]) -> Row {
    Row { key, cols: [column, 0, 0, 0], body: body.to_vec() }
}

fn keys(rows: impl Iterator<Item = Result<Row, Refused>>) -> Vec<u64> {
    rows.map(|row| row.expect("a row").key).collect()
}

fn check_rows() -> Result<(), Refused> {
    let table = Table::open(&Settings { indexed: [true, false, false, false], ..Settings::default() })?;
    let mut session = table.begin()?;
    let widest = Row { key: u64::MAX, cols: [i64::MAX, i64::MIN, 0, -1], body: vec![255; 1024] };
    session.insert(&widest)?;
    assert_eq!(session.get(u64::MAX)?, Some(widest));
    for key in 0..100 {
        session.insert(&row(key, -(key as i64), b"row"))?;
    }
    for length in [1025, 65536 + 5] {
        assert_eq!(session.insert(&row(200, 0, &vec![0; length])), Err(Refused::TooLarge));
    }
    assert_eq!(session.insert(&row(5, 0, b"")), Err(Refused::AlreadyThere));
    session.put(&row(5, -5, b"put"))?;
    session.put(&row(100, -100, b"put"))?;
    assert_eq!((session.get(5)?, session.get(100)?), (Some(row(5, -5, b"put")), Some(row(100, -100, b"put"))));
    session.delete(100)?;
    assert_eq!(session.get(100)?, None);
    assert_eq!(keys(session.by_key(7, 9)?), [7, 8, 9]);
    assert_eq!(keys(session.by_column(0, -9, -7)?), [9, 8, 7]);
    assert_eq!(keys(session.rows()?).len(), 101);
    assert_eq!(session.by_column(4, 0, 1).err(), Some(Refused::NoSuchIndex));
    assert_eq!(session.by_column(255, 0, 1).err(), Some(Refused::NoSuchIndex));
    assert_eq!(session.by_key(1, 0).err(), Some(Refused::BadBounds));
    {
        let mut cursor = session.by_key(0, u64::MAX)?;
        assert_eq!(cursor.next(), Some(Ok(row(0, 0, b"row"))));
        assert_eq!(session.get(7)?.map(|row| row.key), Some(7));
        assert_eq!(session.rows().err(), Some(Refused::CursorOpen));
    }
    session.savepoint()?;
    session.delete(7)?;
    session.rollback_to()?;
    session.release()?;
    assert!(session.get(7)?.is_some());
    session.commit()?;
    assert_eq!((table.vacuum(false)?, table.state()?.entries), (3, [Some(101), Some(101), None, None, None]));
    table.create_index(1)?;
    assert!(table.vacuum(true)? > 3 && table.state()?.entries[2] == Some(101));
    assert_eq!(table.prune(99), Err(Refused::NoSuchPage));
    let refused = Table::open(&Settings { stop_age: 0, ..Settings::default() });
    assert_eq!(refused.err(), Some(Refused::BadStopAge));
    Ok(())
}

fn transfer(session: &mut Session<'_>, from: u64, to: u64, amount: i64) -> Result<(), Refused> {
    let (mut a, mut b) = (session.get(from)?.expect("from"), session.get(to)?.expect("to"));
    a.cols[0] -= amount;
    b.cols[0] += amount;
    session.update(&a)?;
    session.update(&b)
}

fn check_bank() -> Result<(), Refused> {
    let bank = Table::open(&Settings::default())?;
    bank.run(1, SOON, |session| (0..10).try_for_each(|account| session.insert(&row(account, 100, b""))))?;
    let mut tries = 0;
    let left = bank.run(10, SOON, |session| {
        let before = session.get(1)?.expect("account 1");
        if tries == 0 {
            let mut other = bank.begin()?;
            transfer(&mut other, 1, 2, 30)?;
            other.commit()?;
        }
        tries += 1;
        transfer(session, 1, 3, 20)?;
        Ok(before.cols[0] - 20)
    })?;
    assert_eq!((tries, left), (2, 50));
    // a session that holds the row all along: after so many tries the refusal comes through
    let mut holder = bank.begin()?;
    transfer(&mut holder, 4, 5, 1)?;
    tries = 0;
    let refused = bank.run(3, SOON, |session| {
        tries += 1;
        transfer(session, 4, 6, 1)
    });
    assert_eq!((refused, tries), (Err(Refused::Busy(holder.number())), 3));
    assert_eq!(Refused::Busy(7).to_string(), "open session 7 has written the key");
    holder.abort()?;
    // what is no such refusal comes through at once
    tries = 0;
    let refused = bank.run(3, SOON, |session| {
        tries += 1;
        session.delete(99)
    });
    assert_eq!((refused, tries, bank.state()?.open_sessions), (Err(Refused::NotThere), 1, 0));
    let reader = bank.begin_read_committed()?;
    bank.run(1, SOON, |session| transfer(session, 1, 2, 5))?;
    assert_eq!(reader.get(1)?.expect("account 1").cols[0], 45);
    assert_eq!(reader.by_key(0, 9)?.map(|row| row.expect("a row").cols[0]).sum::<i64>(), 1000);
    Ok(())
}

fn check_ends() -> Result<(), Refused> {
    let table = Table::open(&Settings::default())?;
    let mut lost = table.begin()?;
    lost.insert(&row(1, 0, b"lost"))?;
    drop(lost);
    assert_eq!((table.state()?.open_sessions, table.begin()?.get(1)?), (0, None));
    let mut old = table.begin()?;
    table.run(1, SOON, |session| session.insert(&row(1, 0, b"first")))?;
    assert_eq!(old.insert(&row(1, 0, b"second")), Err(Refused::Conflict));
    assert_eq!(old.get(1), Err(Refused::Failed));
    assert_eq!(old.commit(), Err(Refused::RolledBack));
    assert_eq!(table.state()?.open_sessions, 0);
    let sessions: Vec<_> = (0..SESSIONS).map(|_| table.begin().expect("a session")).collect();
    assert_eq!(table.begin().err(), Some(Refused::NoSuchSession));
    drop(sessions);
    // a ticket outlives its session and its table, and goes to another thread
    let mut session = table.begin()?;
    session.insert(&row(2, 0, b"taken"))?;
    let mut ticket: Ticket = session.take_page(0)?;
    session.abort()?;
    drop(table);
    let rows = std::thread::spawn(move || ticket.rows()).join().expect("it ends")?;
    assert_eq!(rows, [row(1, 0, b"first"), row(2, 0, b"taken")]);
    Ok(())
}

/// The case of tests/looks/cases/older_reader: key 1 was written by 3, 4 and 5, of which the reader sees the first alone.
fn check_looks() -> Result<(), Refused> {
    let table = Table::open(&Settings::default())?;
    let write = |value| table.run(1, SOON, |session| session.put(&row(1, value, b"")));
    write(5)?;
    let reader = table.begin()?;
    write(6)?;
    write(7)?;
    let (before, after) = (Reason::Committed(Standing::Before(4)), Reason::Committed(Standing::NotBefore(4)));
    let version = |slot, is_seen, maker, deleter| ShownVersion { slot, is_seen, maker, deleter };
    let versions = vec![
        version(1, true, Some((3, before)), Some((4, after))),
        version(2, false, Some((4, after)), Some((5, after))),
        version(3, false, Some((5, after)), None),
    ];
    let leads_to = Fate::KeptDeleted(4, IdStatus::Committed);
    assert_eq!(reader.explain(1)?, [ShownEntry { page: 0, slot: 1, leads_to, versions }]);
    assert!(before.counts() && !after.counts() && reader.explain(2)?.is_empty());
    let snapshot = Snapshot { xmin: 4, xmax: 4, is_overflowed: false, listed: vec![] };
    assert_eq!((reader.snapshot()?, reader.ids()?, reader.waits_for()?), (Some(snapshot), vec![], None));
    assert_eq!(table.horizon()?, Horizon { id: 4, holder: Some((0, Hold::BySnapshot)) });
    assert_eq!((table.fate(0, 3)?, table.fate(0, 9)?, table.fate(1, 1)), (Fate::Undeleted, Fate::NoSlot, Err(Refused::NoSuchPage)));
    let mut writer = table.begin()?;
    writer.insert(&row(2, 0, b""))?;
    let mut waiting = table.begin()?;
    assert_eq!(waiting.insert(&row(2, 0, b"")), Err(Refused::Busy(1)));
    assert_eq!((waiting.waits_for()?, waiting.snapshot()?.expect("one").listed), (Some(1), vec![6]));
    assert_eq!((writer.ids()?, table.status_of(6)?, table.status_of(3)?), (vec![6], (IdStatus::Running, Some(1)), (IdStatus::Committed, None)));
    writer.savepoint()?;
    writer.savepoint()?;
    writer.insert(&row(3, 0, b""))?;
    writer.release()?;
    assert_eq!(writer.ids_by_level()?, [vec![6], vec![7, 8]]);
    assert_eq!(waiting.insert(&row(1, 0, b"")), Err(Refused::AlreadyThere));
    assert!(!waiting.has_failed()?);
    drop((reader, writer, waiting));
    let plan = table.plan(0)?;
    assert_eq!(plan.actions, [Action::Lead(1, 3), Action::Unuse(2), Action::Kill(4), Action::Kill(5)]);
    table.apply(0, &plan)?;
    assert_eq!((table.fate(0, 1)?, table.fate(0, 4)?, table.apply(0, &plan)), (Fate::Redirect(3), Fate::Dead, Err(Refused::Stale)));
    assert_eq!(table.horizon()?.holder, None);
    Ok(())
}

/// The steps of examples/horizon.script up to its first pruning, whose picture is kept in docs/horizon.svg.
fn check_pictures(kept: &str) -> Result<(), Refused> {
    let table = Table::open(&Settings::default())?;
    let write = |mut session: Session, value| session.put(&row(1, value, b"")).and_then(|()| session.commit());
    write(table.begin()?, 5)?;
    let (writer, reader) = (table.begin()?, table.begin()?);
    write(writer, 6)?;
    write(table.begin()?, 7)?;
    table.prune(0)?;
    assert_eq!((reader.number(), table.draw(&[])?.as_str(), table.draw(&[0])?.as_str()), (1, kept, kept));
    assert_eq!((table.draw(&[0, 1]), table.draw(&[0; 65])), (Err(Refused::NoSuchPage), Err(Refused::TooManyPages)));
    // (longer than the room that it has at first)
    let often = table.draw(&[0; 64])?;
    assert!(often.len() > 65536 && often.ends_with("</svg>"));
    Ok(())
}

fn main() -> Result<(), Refused> {
    let kept = std::env::args().nth(1).expect("the path of docs/horizon.svg");
    check_pictures(&std::fs::read_to_string(kept).expect("a picture"))?;
    check_looks()?;
    check_rows()?;
    check_bank()?;
    check_ends()?;
    println!("all right");
    Ok(())
}
