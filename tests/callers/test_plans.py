"""Plans at random, forged and stale ones too, against a second reading of when a plan checks: test_plans.py [ROUNDS [SEED]].

The reading is of a page's bytes (docs/format.md), and of what became of each id, which is followed here call by call."""
from __future__ import annotations

import random
import struct
import sys
from collections import Counter
from typing import Dict, Iterator, List, NamedTuple, Optional, Set

import sandpipercot as sp
from sandpipercot import Action, ActionKind, Kind, Row, Session, Table

KEYS = 6
SESSIONS = 5
OPEN, COMMITTED, ABORTED = "open", "committed", "aborted"
Plan = List[Action]
Fates = Dict[int, str]


class Version(NamedTuple):
    """A slot of a page. Fields that do not apply are 0."""

    kind: Kind
    target: int = 0
    xmin: int = 0
    xmax: int = 0
    page: int = 0
    slot: int = 0
    hot_updated: bool = False
    heap_only: bool = False
    frozen: bool = False
    row: bytes = b""


def version_at(page: bytes, offset: int, length: int) -> Version:
    xmin, xmax, _, high, low, slot, mask2, mask = struct.unpack_from("<IIIHHHHH", page, offset)
    frozen = mask & 0x0300 == 0x0300
    start = offset + page[offset + 22]
    row = page[start : offset + length]
    return Version(Kind.NORMAL, 0, xmin, xmax, high << 16 | low, slot, bool(mask2 & 0x4000), bool(mask2 & 0x8000), frozen, row)


class PageRead:
    """A page's change number, and its slots by their numbers, from 1."""

    def __init__(self, page: bytes) -> None:
        self.change = struct.unpack_from("<Q", page, 0)[0]
        count = (struct.unpack_from("<H", page, 12)[0] - 24) // 4
        self.slots: Dict[int, Version] = {}
        for number in range(1, count + 1):
            word = struct.unpack_from("<I", page, 20 + 4 * number)[0]
            offset, flags = word & 0x7FFF, word >> 15 & 3
            kind = (Kind.UNUSED, Kind.NORMAL, Kind.REDIRECT, Kind.DEAD)[flags]
            self.slots[number] = version_at(page, offset, word >> 17) if kind == Kind.NORMAL else Version(kind, offset)


def is_aborted(it: Version, fates: Fates) -> bool:
    return not it.frozen and fates[it.xmin] == ABORTED


def is_dead(it: Version, fates: Fates, horizon: int) -> bool:
    return is_aborted(it, fates) or (it.xmax != 0 and fates[it.xmax] == COMMITTED and it.xmax < horizon)


def chain_of(page: PageRead, root: int, fates: Fates) -> List[int]:
    """The places of the versions to which a root or a redirect leads, in their order."""
    place = page.slots[root].target if page.slots[root].kind == Kind.REDIRECT else root
    chain: List[int] = []
    while place not in chain:
        chain.append(place)
        it = page.slots[place]
        after = page.slots.get(it.slot)
        if not it.hot_updated or it.xmax == 0 or fates[it.xmax] == ABORTED or after is None:
            break
        if after.kind != Kind.NORMAL or not after.heap_only or after.xmin != it.xmax:
            break
        place = it.slot
    return chain


def chains_of(page: PageRead, fates: Fates) -> Iterator[List[int]]:
    for number, it in page.slots.items():
        if it.kind == Kind.REDIRECT or (it.kind == Kind.NORMAL and not it.heap_only):
            yield [number, *chain_of(page, number, fates)]


def front_plan(page: PageRead, root: int, chain: List[int], count: int) -> Plan:
    """What is done where the first so many versions of a chain go."""
    if count == 0:
        return []
    left = chain[count:]
    at_root = Action(root, ActionKind.LEAD, left[0]) if left else Action(root, ActionKind.KILL)
    return [at_root] + [Action(it, ActionKind.UNUSE) for it in chain[:count] if page.slots[it].heap_only]


def cut_of(page: PageRead, chain: List[int], fates: Fates, horizon: int) -> int:
    """How many versions pruning takes from the front: up to and with the last that is dead."""
    return max([at + 1 for at, it in enumerate(chain) if is_dead(page.slots[it], fates, horizon)], default=0)


def unreached(page: PageRead, fates: Fates) -> Set[int]:
    """The aborted heap-only versions that no chain reaches."""
    reached = {it for chain in chains_of(page, fates) for it in chain[1:]}
    return {at for at, it in page.slots.items() if it.heap_only and is_aborted(it, fates) and at not in reached}


def checks(page: PageRead, change: int, plan: Plan, fates: Fates, horizon: int) -> bool:
    """The rule, as it is written: by what each chain loses, and then by what is named besides."""
    named = {it.slot: it for it in plan}
    places = [it.slot for it in plan]
    if change != page.change or any(a >= b for a, b in zip(places, places[1:])) or not set(places) <= set(page.slots):
        return False
    explained: Set[int] = set()
    for root, *chain in chains_of(page, fates):
        gone = [it for it in chain if it in named]
        if gone != chain[: len(gone)] or len(gone) > cut_of(page, chain, fates, horizon):
            return False
        asked = front_plan(page, root, chain, len(gone))
        if any(named.get(it.slot) != it for it in asked):
            return False
        explained |= {it.slot for it in asked}
    others = [it for it in plan if it.slot not in explained]
    return all(it.kind == ActionKind.UNUSE and it.slot in unreached(page, fates) for it in others)


def plain(plan: Plan) -> Plan:
    """The same plan, where what is not looked at is 0."""
    return [it if it.kind == ActionKind.LEAD else Action(it.slot, it.kind) for it in plan]


class Followed:
    """A session, and the ids that each of its levels was given."""

    def __init__(self, session: Session, xmin: Optional[int]) -> None:
        self.session = session
        self.xmin = xmin
        self.levels: List[List[int]] = [[]]

    def first(self) -> List[int]:
        return self.levels[0][:1]


class World:
    """A table of one page, its sessions, and what became of each id."""

    def __init__(self, draw: random.Random) -> None:
        self.draw = draw
        self.table = Table(max_pages=1, indexed=(False, True, False, False))
        self.open: Dict[int, Followed] = {}
        self.fates: Fates = {}
        self.kept: List[tuple[int, Plan]] = []

    def next_id(self) -> int:
        return self.table.state().next_id

    def horizon(self) -> int:
        holding = [it.xmin for it in self.open.values() if it.xmin is not None]
        return min([self.next_id(), *holding, *(x for it in self.open.values() for x in it.first())])

    def begin(self, number: int) -> None:
        by_statement = self.draw.randrange(2) == 0
        xmin = min([self.next_id(), *(x for it in self.open.values() for x in it.first())])
        session = self.table.begin(number, read_committed=by_statement)
        self.open[number] = Followed(session, None if by_statement else xmin)

    def set_fate(self, ids: List[int], fate: str) -> None:
        for x in ids:
            self.fates[x] = fate

    def end(self, number: int) -> None:
        it = self.open.pop(number)
        fate = COMMITTED
        if self.draw.randrange(3) == 0:
            it.session.abort()
            fate = ABORTED
        else:
            try:
                it.session.commit()
            except sp.RolledBack:
                fate = ABORTED
        for level in it.levels:
            self.set_fate(level, fate)

    def write(self, it: Followed) -> None:
        key, value = self.draw.randrange(KEYS), self.draw.choice((0, 0, 0, 1))
        row = Row(key, (self.draw.randrange(9), value, 0, 0), b"")
        before = self.next_id()
        call = self.draw.choice(("insert", "update", "update", "update", "delete"))
        try:
            it.session.delete(key) if call == "delete" else getattr(it.session, call)(row)
        except sp.Refused:
            assert self.next_id() == before
            return
        for x, level in zip(range(before, self.next_id()), [level for level in it.levels if not level]):
            level.append(x)
            self.fates[x] = OPEN

    def change_levels(self, it: Followed) -> None:
        kind = self.draw.randrange(3)
        try:
            if kind == 0 and len(it.levels) < 6:
                it.session.savepoint()
                it.levels.append([])
            elif kind == 1 and len(it.levels) > 1:
                it.session.release()
                released = it.levels.pop()
                it.levels[-1].extend(released)
            elif kind == 2 and len(it.levels) > 1:
                it.session.rollback_to()
                self.set_fate(it.levels[-1], ABORTED)
                it.levels[-1] = []
        except sp.Failed:
            pass

    def step(self) -> None:
        number = self.draw.randrange(SESSIONS)
        it = self.open.get(number)
        kind = self.draw.randrange(10)
        if it is None:
            self.begin(number)
        elif kind < 6:
            self.write(it)
        elif kind < 8:
            self.change_levels(it)
        else:
            self.end(number)

    def read_page(self) -> Optional[PageRead]:
        page = self.table.page_bytes(0)
        return None if page is None else PageRead(page)

    def whole_plan(self, page: PageRead, horizon: int) -> Plan:
        """What pruning does now; of a chain now and then less."""
        plan: Plan = [Action(it, ActionKind.UNUSE) for it in unreached(page, self.fates)]
        for root, *chain in chains_of(page, self.fates):
            count = cut_of(page, chain, self.fates, horizon)
            if self.draw.randrange(3) == 0:
                count = self.draw.randrange(count + 1)
            plan += front_plan(page, root, chain, count)
        return sorted(plan)

    def forge(self, page: PageRead, plan: Plan) -> Plan:
        """The plan with one thing wrong, or perhaps right."""
        kind, slots = self.draw.randrange(6), list(page.slots)
        any_slot = self.draw.choice([*slots, 0, len(slots) + 1])
        if not plan or kind == 0:
            return sorted([*plan, Action(any_slot, self.draw.choice(list(ActionKind)), self.draw.choice(slots))])
        at = self.draw.randrange(len(plan))
        if kind == 1:
            return plan[:at] + plan[at + 1 :]
        if kind == 2:
            return sorted([*plan[:at], plan[at]._replace(slot=any_slot), *plan[at + 1 :]])
        if kind == 3:
            return [*plan[:at], plan[at]._replace(kind=self.draw.choice(list(ActionKind))), *plan[at + 1 :]]
        if kind == 4:
            return [*plan[:at], plan[at]._replace(target=any_slot), *plan[at + 1 :]]
        return self.draw.sample(plan, len(plan))

    def draw_plan(self, page: PageRead, horizon: int) -> tuple[int, Plan]:
        kind = self.draw.randrange(10)
        if kind == 0 and self.kept:
            return self.draw.choice(self.kept)
        if kind == 1 and self.kept:
            return page.change, self.draw.choice(self.kept)[1]
        plan = self.whole_plan(page, page.change if kind == 2 else horizon)
        self.kept = [*self.kept[-20:], (page.change, plan)]
        change = page.change + self.draw.choice((-1, 1)) if kind == 3 else page.change
        for _ in range(max(0, kind - 7)):
            plan = self.forge(page, plan)
        return max(change, 0), plan

    def apply(self, counts: Counter[str]) -> None:
        """One plan, which has to be applied just where the second reading lets it, and has to do what it names and nothing else."""
        page = self.read_page()
        if page is None:
            return
        horizon = self.horizon()
        change, plan = self.draw_plan(page, horizon)
        right = checks(page, change, plain(plan), self.fates, horizon)
        try:
            self.table.apply_plan(0, change, plan)
            done = True
        except sp.Stale:
            done = False
        assert done == right, (change, plan, page.change, page.slots, self.fates, horizon)
        counts[("done" if done else "stale") + (", of some slots" if plan else ", of none")] += 1
        after = self.read_page()
        assert after is not None and after.change == page.change + (len(plan) if done else 0)
        named = {it.slot: it for it in plan} if done else {}
        for number, it in page.slots.items():
            asked = named.get(number)
            kinds = {ActionKind.UNUSE: Kind.UNUSED, ActionKind.KILL: Kind.DEAD, ActionKind.LEAD: Kind.REDIRECT}
            # (a slot that is not named keeps its version, with whom it is from and where it leads; its key and columns too)
            target = asked.target if asked and asked.kind == ActionKind.LEAD else 0
            assert after.slots[number] == (Version(kinds[asked.kind], target) if asked else it), (number, it, after.slots[number])


def main(rounds: int = 20000, seed: Optional[int] = None) -> None:
    seed = random.randrange(1 << 32) if seed is None else seed
    print(f"seed {seed}")
    counts: Counter[str] = Counter()
    draw = random.Random(seed)
    world = World(draw)
    for number in range(rounds):
        world.step()
        if draw.randrange(4) == 0:
            world.apply(counts)
        if draw.randrange(500) == 0:
            world.table.vacuum(draw.randrange(2) == 0)
    assert all(counts[it] >= rounds // 500 for it in ("done, of some slots", "done, of none", "stale, of some slots", "stale, of none")), counts
    print(f"{sum(counts.values())} plans, each as the second reading has it: {dict(counts)}")


if __name__ == "__main__":
    main(*map(int, sys.argv[1:]))
