"""Scripts that are too long to be written by hand: loops make them, line by line, with what each line is answered."""
from typing import Iterator, List, NamedTuple

from worked import Case


class Script:
    """A script that grows."""

    def __init__(self, heading: str) -> None:
        self.lines, self.answers = [heading], []

    def ask(self, line: str, *answer: str) -> None:
        """A line, and the lines of its answer."""
        self.lines.append(line)
        self.answers.append("".join(f"{said}\n" for said in answer))

    def case(self, name: str) -> Case:
        return Case(name, "".join(f"{line}\n" for line in self.lines).encode(), self.answers)


# A vacuum that goes through an index of several leaves, piece by piece. The keys 1 to 300 lie on three pages of 107, 107 and 86 rows, and
# in leaves of 64, 64, 64 and 108 entries.


def insert_keys(script: Script, first: int, last: int) -> None:
    script.ask("begin 0", "ok")
    for key in range(first, last + 1):
        script.ask(f"insert 0 {key} 0 0 0 0 -", "ok")
    script.ask("commit 0", "committed")


def look_at_page(script: Script, page: int, before: int, count: int) -> None:
    """A page whose slots have so many keys behind those before, in their order, as one transaction inserted them."""
    slots = [f"{slot} normal 3 0 {before + slot}" for slot in range(1, count + 1)]
    script.ask(f"page {page}", f"page {page} change {count} visible 0 slots {count}", *slots)


def visit_three_pages() -> Script:
    """Three pages of keys, of which the first is deleted; a vacuum begins, and visits them."""
    script = Script("heap 4 1000 0 3 64 0000")
    insert_keys(script, 1, 300)
    look_at_page(script, 0, 0, 107)
    look_at_page(script, 1, 107, 107)
    look_at_page(script, 2, 214, 86)
    script.ask("begin 0", "ok")
    script.ask("delete 0 1", "ok")
    script.ask("commit 0", "committed")
    script.ask("vacuum begin normal", "ok")
    for page in range(3):
        script.ask("vacuum step", f"heap {page}")
    return script


def sweep_leaves(script: Script, leaves: int) -> None:
    """A step of the vacuum for each leaf."""
    for _ in range(leaves):
        script.ask("vacuum step", "index 0")


def end_vacuum(script: Script) -> None:
    script.ask("vacuum step", "free 0")
    script.ask("vacuum step", "ended 3")


def leaves() -> Iterator[Case]:
    script = visit_three_pages()
    sweep_leaves(script, 4)
    end_vacuum(script)
    yield script.case("index_in_four_pieces")
    # the last leaf splits while the vacuum has gone through the first alone: its halves are two pieces
    script = visit_three_pages()
    sweep_leaves(script, 1)
    insert_keys(script, 301, 321)
    sweep_leaves(script, 4)
    end_vacuum(script)
    yield script.case("split_between_two_pieces")


# Engines whose first id is one of the last or of the first on the circle: they give ids up to their stop age, and go on after a vacuum
# that freezes.

GREATEST = 2**32 - 1


class Place(NamedTuple):
    """Where an engine is on the circle: its next id, its oldest one, and the key that is inserted next."""

    next: int
    oldest: int
    key: int


def id_after(number: int) -> int:
    """After the last id comes 3."""
    return number + 1 if number < GREATEST else 3


def insert_while_there_are_ids(script: Script, place: Place, stop_age: int) -> Place:
    """A transaction takes one id, if that is less than the stop age from the oldest, round the circle."""
    while (place.next - place.oldest) % 2**32 < stop_age:
        script.ask("begin 0", "ok")
        script.ask(f"insert 0 {place.key} 5 0 0 0 -", "ok")
        script.ask("commit 0", "committed")
        place = Place(id_after(place.next), place.oldest, place.key + 1)
    return place


def freeze(script: Script, place: Place) -> Place:
    """The next insert is refused. A vacuum freezes all that is there, so that the next id is the oldest."""
    script.ask("begin 0", "ok")
    script.ask("insert 0 0 5 0 0 0 -", "error 15 NeedsFreeze")
    script.ask("abort 0", "rolled back")
    script.ask("vacuum begin aggressive", "ok")
    script.ask("ids", f"next {place.next} frozen_below {place.oldest}")
    script.ask("vacuum finish", f"ended {place.next}")
    script.ask("ids", f"next {place.next} frozen_below {place.next}")
    return Place(place.next, place.next, place.key)


def round_the_circle(first: int, stop_age: int) -> Case:
    """Two rounds of an engine with this first id, after which each key that was inserted is read."""
    script, place = Script(f"heap 4 {stop_age} 0 {first} 64 0000"), Place(first, first, 1)
    for _ in range(2):
        place = insert_while_there_are_ids(script, place, stop_age)
        place = freeze(script, place)
    script.ask("begin 1", "ok")
    for key in range(1, place.key):
        script.ask(f"get 1 {key}", f"row {key} 5 0 0 0 -")
    return script.case(f"first_id_{first}_stop_age_{stop_age}")


def circle() -> Iterator[Case]:
    """The last 300 ids and the first 300, with stop ages from 1 to 3."""
    for number in range(300):
        yield round_the_circle(GREATEST - number, number % 3 + 1)
        yield round_the_circle(3 + number, number % 3 + 1)


# A vacuum that is broken off after each of its steps, and begun anew. The keys 1 to 110 lie in slots 1 to 107 of page 0 and 1 to 3 of
# page 1, and their entries in one leaf of each index. Keys 106 to 109 are deleted. One dead slot is collected at a time, so there are four
# rounds, each with a step for the page, for each of the two indexes, and for what is freed.

ROUNDS = [step for page in (0, 0, 1, 1) for step in (f"heap {page}", "index 0", "index 1", f"free {page}")]
# the vacuum's last answer: in a normal one the oldest id stays, in the other it is the next
MODES = [("normal", "ended 3"), ("aggressive", "ended 5")]


def delete_four_of_110(script: Script) -> None:
    script.ask("begin 0", "ok")
    for key in range(1, 111):
        script.ask(f"insert 0 {key} {key} 0 0 0 -", "ok")
    script.ask("commit 0", "committed")
    script.ask("begin 0", "ok")
    for key in range(106, 110):
        script.ask(f"delete 0 {key}", "ok")
    script.ask("commit 0", "committed")


def begin_vacuum(script: Script, mode: str, answers: List[str]) -> None:
    """A vacuum begins, and does the steps with these answers."""
    script.ask(f"vacuum begin {mode}", "ok")
    for answer in answers:
        script.ask("vacuum step", answer)


def look_at_entries(script: Script, index: int, gone: int) -> None:
    """An index, from which the entries to so many of the deleted keys are gone."""
    keys = [key for key in range(1, 111) if key < 106 or key >= 106 + gone]
    places = [(0, key) if key <= 107 else (1, key - 107) for key in keys]
    entries = [f"entry {key} {key} {page} {slot}" for key, (page, slot) in zip(keys, places)]
    script.ask(f"entries {index}", f"entries {index} {110 - gone}", *entries)


def look_at_both_pages(script: Script) -> None:
    """On page 0 were 107 inserts, two deletes, two slots dead and two unused, and 105 versions frozen. On page 1 were three inserts, and
    one version was frozen."""
    script.ask("page 1", "page 1 change 10 visible 2 slots 3", "1 unused", "2 unused", "3 normal 3 0 110")
    rows = [f"{key} normal 3 0 {key}" for key in range(1, 106)]
    script.ask("page 0", "page 0 change 218 visible 2 slots 107", *rows, "106 unused", "107 unused")


def broken_off() -> Iterator[Case]:
    """What whole rounds freed stays, and the next vacuum begins with the round that was broken off."""
    for mode, ended in MODES:
        for steps in range(len(ROUNDS) + 1):
            script, begun = Script("heap 4 1000 0 3 1 1000"), ROUNDS[:steps]
            delete_four_of_110(script)
            begin_vacuum(script, mode, begun)
            script.ask("vacuum cancel", "ok")
            script.ask("vacuum step", "error 18 NoVacuum")
            look_at_entries(script, 0, begun.count("index 0"))
            look_at_entries(script, 1, begun.count("index 1"))
            begin_vacuum(script, mode, ROUNDS[steps // 4 * 4 :])
            script.ask("vacuum step", ended)
            look_at_entries(script, 0, 4)
            look_at_both_pages(script)
            yield script.case(f"{mode}_vacuum_broken_off_after_{steps}_steps")
