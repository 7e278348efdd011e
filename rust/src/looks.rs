//! Looks: why a session sees a version, who holds the horizon back, what pruning would do. They change nothing.
use crate::{ffi, told, Refused, Session, Table, FOUND, NO_PLACE, PAGE_ROWS};

/// Where an id stands to a snapshot.
#[derive(Clone, Copy, Debug, PartialEq, Eq)]
pub enum Standing {
    /// it is before this id, the snapshot's xmin: it is seen
    Before(u32),
    /// it is not before this id, the snapshot's xmax: it is not seen
    NotBefore(u32),
    /// the snapshot lists it: it is not seen
    Listed,
    /// it does not: it is seen
    Unlisted,
}

/// Why a session counts what an id did, or does not: the first of these that holds.
#[derive(Clone, Copy, Debug, PartialEq, Eq)]
#[non_exhaustive]
pub enum Reason {
    /// it is the session's own, and was not rolled back
    Own,
    /// it is not remembered
    Forgotten,
    /// it is in progress
    Running,
    /// it was rolled back
    Aborted,
    /// it has committed, and stands so to the snapshot
    Committed(Standing),
    /// it has committed, and its topmost parent, of this number, stands so
    ByParent(u32, Standing),
}

impl Reason {
    /// Whether what the id did counts.
    pub fn counts(self) -> bool {
        match self {
            Reason::Own => true,
            Reason::Committed(standing) | Reason::ByParent(_, standing) => {
                matches!(standing, Standing::Before(_) | Standing::Unlisted)
            }
            _ => false,
        }
    }

    fn of(told: &ffi::Reason) -> Option<(u32, Reason)> {
        let standing = [Standing::Before(told.limit), Standing::NotBefore(told.limit), Standing::Listed, Standing::Unlisted];
        let reason = match told.reason {
            0 => return None,
            1 => Reason::Own,
            2 => Reason::Forgotten,
            3 => Reason::Running,
            4 => Reason::Aborted,
            number @ 5..=8 => Reason::Committed(standing[number as usize - 5]),
            number => Reason::ByParent(told.parent, standing[(number as usize - 9) % 4]),
        };
        Some((told.id, reason))
    }
}

/// A version, and why a session sees it, or does not.
#[derive(Clone, Copy, Debug, PartialEq, Eq)]
pub struct ShownVersion {
    /// its slot
    pub slot: u16,
    /// whether the session sees it
    pub is_seen: bool,
    /// who made it; none where it is frozen, so that its making counts for everybody
    pub maker: Option<(u32, Reason)>,
    /// who took it away, if anybody did
    pub deleter: Option<(u32, Reason)>,
}

/// An entry of a key: where it leads, what is in that slot, and the versions of the chain there.
#[derive(Clone, Debug, PartialEq, Eq)]
pub struct ShownEntry {
    /// the page, counted from 0
    pub page: u32,
    /// the slot, counted from 1
    pub slot: u16,
    /// what is there
    pub leads_to: Fate,
    /// the versions, in the order of the chain
    pub versions: Vec<ShownVersion>,
}

/// The snapshot that a session keeps.
#[derive(Clone, Debug, PartialEq, Eq)]
pub struct Snapshot {
    /// an id before this one is seen
    pub xmin: u32,
    /// this id is not seen, nor one after it
    pub xmax: u32,
    /// whether the children of some transaction are not listed
    pub is_overflowed: bool,
    /// those between that are not seen
    pub listed: Vec<u32>,
}

/// By what a session holds the horizon back.
#[derive(Clone, Copy, Debug, PartialEq, Eq)]
pub enum Hold {
    /// by its snapshot
    BySnapshot,
    /// by its first id
    ById,
}

/// The horizon, and the lowest session that holds it back. Without one it is the next id.
#[derive(Clone, Copy, Debug, PartialEq, Eq)]
pub struct Horizon {
    /// what an id before this one deleted may go
    pub id: u32,
    /// who holds it back, and by what
    pub holder: Option<(u8, Hold)>,
}

/// What became of an id.
#[derive(Clone, Copy, Debug, PartialEq, Eq)]
pub enum IdStatus {
    /// it was not given, or is forgotten
    Unknown,
    /// it is in progress
    Running,
    /// it has committed
    Committed,
    /// it was rolled back
    Aborted,
}

impl IdStatus {
    fn of(number: u32) -> IdStatus {
        match number {
            0 => IdStatus::Unknown,
            1 => IdStatus::Running,
            2 => IdStatus::Committed,
            _ => IdStatus::Aborted,
        }
    }
}

/// What pruning would do to a slot now, and why not more.
#[derive(Clone, Copy, Debug, PartialEq, Eq)]
#[non_exhaustive]
pub enum Fate {
    /// the page has no such slot
    NoSlot,
    /// it is unused
    Unused,
    /// it is dead, until a vacuum frees it
    Dead,
    /// it leads to this slot
    Redirect(u16),
    /// the version goes: this id made it, and was rolled back
    RolledBack(u32),
    /// it goes: this id deleted it, and is before the horizon
    Deleted(u32),
    /// it goes with the dead version in this slot, which comes later in its chain
    GoesWith(u16),
    /// it stays: nobody deleted it
    Undeleted,
    /// it stays: this id deleted it, of which this became
    KeptDeleted(u32, IdStatus),
}

impl Fate {
    fn of(told: &ffi::Fate) -> Fate {
        match told.kind {
            0 => Fate::NoSlot,
            1 => Fate::Unused,
            2 => Fate::Dead,
            3 => Fate::Redirect(told.slot as u16),
            4 => Fate::RolledBack(told.id),
            5 => Fate::Deleted(told.id),
            6 => Fate::GoesWith(told.slot as u16),
            7 => Fate::Undeleted,
            _ => Fate::KeptDeleted(told.id, IdStatus::of(told.status)),
        }
    }
}

/// What is done to a slot.
#[derive(Clone, Copy, Debug, PartialEq, Eq)]
pub enum Action {
    /// it becomes unused
    Unuse(u16),
    /// it becomes dead
    Kill(u16),
    /// the first leads to the second
    Lead(u16, u16),
}

/// What a pruning of a page would do now.
#[derive(Clone, Debug, PartialEq, Eq)]
pub struct Plan {
    /// the page's change number
    pub change: u64,
    /// what is done, by slots in order
    pub actions: Vec<Action>,
}

impl Table {
    /// The horizon, and who holds it back.
    pub fn horizon(&self) -> Result<Horizon, Refused> {
        let mut it = ffi::Horizon::default();
        told(unsafe { ffi::sandpiper_horizon_of(self.handle.get(), &mut it) })?;
        let by = [None, Some(Hold::BySnapshot), Some(Hold::ById)][it.holder as usize];
        Ok(Horizon { id: it.id, holder: by.map(|by| (it.session as u8, by)) })
    }

    /// What pruning would do now to a slot, counted from 1, of a page, counted from 0.
    pub fn fate(&self, page: u32, slot: u16) -> Result<Fate, Refused> {
        let mut it = ffi::Fate::default();
        told(unsafe { ffi::sandpiper_fate_of(self.handle.get(), page, slot, &mut it) })?;
        Ok(Fate::of(&it))
    }

    /// What a pruning of a page would do now.
    pub fn plan(&self, page: u32) -> Result<Plan, Refused> {
        let (mut places, mut count, mut change) = (vec![ffi::Action::default(); PAGE_ROWS], 0, 0);
        let handle = self.handle.get();
        told(unsafe { ffi::sandpiper_plan_of(handle, page, places.as_mut_ptr(), places.len(), &mut count, &mut change) })?;
        let action = |it: &ffi::Action| match it.kind {
            0 => Action::Unuse(it.slot),
            1 => Action::Kill(it.slot),
            _ => Action::Lead(it.slot, it.target),
        };
        Ok(Plan { change, actions: places[..count].iter().map(action).collect() })
    }

    /// Does what a plan names, unless the page has changed since ([`Refused::Stale`]).
    pub fn apply(&self, page: u32, plan: &Plan) -> Result<(), Refused> {
        let place = |it: &Action| match *it {
            Action::Unuse(slot) => ffi::Action { slot, kind: 0, target: 0 },
            Action::Kill(slot) => ffi::Action { slot, kind: 1, target: 0 },
            Action::Lead(slot, target) => ffi::Action { slot, kind: 2, target },
        };
        let places: Vec<ffi::Action> = plan.actions.iter().map(place).collect();
        let handle = self.handle.get();
        told(unsafe { ffi::sandpiper_apply_plan(handle, page, plan.change, places.as_ptr(), places.len()) }).map(drop)
    }

    /// A picture of the table as it is now, as SVG: of the pages of these numbers, or of all where none is named.
    pub fn draw(&self, pages: &[u32]) -> Result<String, Refused> {
        let (mut text, mut length, handle) = (vec![0; 65536], 0, self.handle.get());
        loop {
            let status =
                unsafe { ffi::sandpiper_draw(handle, pages.as_ptr(), pages.len(), text.as_mut_ptr(), text.len(), &mut length) };
            text.resize(length, 0);
            if status != NO_PLACE {
                told(status)?;
                return Ok(String::from_utf8(text).expect("a picture is of ASCII"));
            }
        }
    }

    /// What became of an id, and the open session that has it, if one has.
    pub fn status_of(&self, id: u32) -> Result<(IdStatus, Option<u8>), Refused> {
        let mut it = ffi::Id::default();
        told(unsafe { ffi::sandpiper_id_of(self.handle.get(), id, &mut it) })?;
        Ok((IdStatus::of(it.status), it.is_owned.then_some(it.session)))
    }
}

impl Session<'_> {
    /// Why a statement of the session, begun now, reads the row of the key, or none: of all that is shown one version is seen, or none is.
    pub fn explain(&self, key: u64) -> Result<Vec<ShownEntry>, Refused> {
        let (mut entries, mut place) = (Vec::new(), ffi::SlotPlace::default());
        while told(unsafe { ffi::sandpiper_next_entry(self.handle(), key, &mut place) })? == FOUND {
            let leads_to = self.table.fate(place.page, place.slot)?;
            entries.push(ShownEntry { page: place.page, slot: place.slot, leads_to, versions: self.versions(&place)? });
        }
        Ok(entries)
    }

    fn versions(&self, place: &ffi::SlotPlace) -> Result<Vec<ShownVersion>, Refused> {
        let (mut versions, mut it) = (Vec::new(), ffi::Shown::default());
        while told(unsafe { ffi::sandpiper_explain(self.handle(), self.number, place, versions.len(), &mut it) })? == FOUND {
            let (maker, deleter) = (Reason::of(&it.maker), Reason::of(&it.deleter));
            versions.push(ShownVersion { slot: it.slot, is_seen: it.is_seen, maker, deleter });
        }
        Ok(versions)
    }

    fn info(&self) -> Result<ffi::Session, Refused> {
        let mut it = ffi::Session::default();
        told(unsafe { ffi::sandpiper_session_of(self.handle(), self.number, &mut it) })?;
        Ok(it)
    }

    /// Whether it can only be rolled back.
    pub fn has_failed(&self) -> Result<bool, Refused> {
        Ok(self.info()?.has_failed)
    }

    /// For which session it waits, if for one.
    pub fn waits_for(&self) -> Result<Option<u8>, Refused> {
        let it = self.info()?;
        Ok(it.is_waiting.then_some(it.waits_for))
    }

    /// Its own ids, in the order of giving.
    pub fn ids(&self) -> Result<Vec<u32>, Refused> {
        self.all(ffi::sandpiper_own_id)
    }

    /// Its own ids level by level, the oldest first: those of level n came since savepoint n.
    pub fn ids_by_level(&self) -> Result<Vec<Vec<u32>>, Refused> {
        let (mut rest, mut levels, mut from) = (self.ids()?, Vec::new(), 0);
        while told(unsafe { ffi::sandpiper_ids_at_savepoint(self.handle(), self.number, levels.len(), &mut from) })? == FOUND {
            levels.push(rest.split_off(from));
        }
        levels.push(rest);
        levels.reverse();
        Ok(levels)
    }

    /// The snapshot that it keeps, if it keeps one.
    pub fn snapshot(&self) -> Result<Option<Snapshot>, Refused> {
        let it = self.info()?.snapshot;
        let listed = self.all(ffi::sandpiper_listed_id)?;
        Ok(it.is_kept.then_some(Snapshot { xmin: it.xmin, xmax: it.xmax, is_overflowed: it.is_overflowed, listed }))
    }

    fn all(&self, call: unsafe extern "C" fn(*mut ffi::Handle, u8, usize, *mut u32) -> u32) -> Result<Vec<u32>, Refused> {
        let (mut ids, mut id) = (Vec::new(), 0);
        while told(unsafe { call(self.handle(), self.number, ids.len(), &mut id) })? == FOUND {
            ids.push(id);
        }
        Ok(ids)
    }
}
