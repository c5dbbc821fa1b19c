"""The random steps of a night."""
from nightly.draws import draw_call, draw_manifest
from nightly.expectations import expect
from nightly.hands import (
    damages, edits, halts_or_resumes, loads, looks, restarts, restores, starts,
)
from nightly.servers import Watched
from nightly.trouble import (
    acts_after_a_lock, acts_beside_another, acts_in_a_read_only_folder, acts_killed_in_time,
    acts_on_a_full_disk, acts_under_strace,
)


def begin(night):
    """The first files, and one or two servers of them."""
    for name, text in draw_manifest(night.chance).items():
        night.write(name, text)
    for number in range(night.chance.choice((1, 1, 2))):
        night.servers.append(Watched(night, number, night.chance.random() < 0.5))
        night.servers[-1].begin()
    night.note(f"servers: {[(it.operator, bool(it.counters)) for it in night.servers]}")


def acts(night):
    """A call with nothing in its way."""
    call = draw_call(night)
    printed = night.call(call)
    for text in expect(night, call, printed):
        night.wrong(text)


KINDS = {
    acts: 50, acts_under_strace: 16, acts_killed_in_time: 4, acts_on_a_full_disk: 4,
    acts_in_a_read_only_folder: 3, acts_after_a_lock: 3, acts_beside_another: 4, edits: 5,
    restores: 5, looks: 6, halts_or_resumes: 5, loads: 4, restarts: 6, starts: 3, damages: 5,
}


def step(night):
    """One random step, and the comparison after it."""
    kind = night.chance.choices([*KINDS], [*KINDS.values()])[0]
    night.note(f"-- {kind.__name__}")
    kind(night)
    night.compare()
