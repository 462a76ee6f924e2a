"""Whether strata can be replayed on their image: `check_parallel(image, size, data)` plays them, and raises Broken by the rules 8
and 9 of rules.STRATA. The play is that of hunt/lib."""

from explain.refusal import Broken
from explain.strata import CHUNKS, DMA, read_strata
from hunt.lib import isa
from hunt.lib.image import read_image
from hunt.lib.logs import DMA as DMA_ACTOR
from hunt.lib.logs import ORDER_ONLY, Fields, Log, read_records
from hunt.lib.play import CHUNK, SERIAL, TRANSFER, Player

KINDS = (CHUNK, SERIAL, TRANSFER)  # by the kinds of a stratum
NAMES = {CHUNK: "a chunk", SERIAL: "a serial step", TRANSFER: "a DMA"}
CONFLICT, UNFIT = 8, 9


def check_parallel(image, size, data):
    """image, data: the bytes of both files. size: of the memory."""
    strata = read_strata(data)
    player, conflict = Player(read_image(image, size), canonical(strata, data)), None
    for stratum in strata.strata:
        seen = Seen(player)
        for actor in order_of(stratum):
            play_commit(player, KINDS[stratum.kind])
            if stratum.kind == CHUNKS:
                conflict = conflict or seen.conflict(actor)
    if player.end[0] == "diverged":
        raise unfit(player, "the play diverges there, for reason %d" % player.end[2])
    if conflict:
        raise conflict


def order_of(stratum):
    """The actors of its commits, one after the other."""
    if stratum.kind == CHUNKS:
        return [thread for thread, many in enumerate(stratum.counts) for _ in range(many)]
    return [DMA_ACTOR] if stratum.kind == DMA else list(stratum.counts)


def canonical(strata, data):
    """The log that they stand for."""
    f = Fields(data)
    f.at = strata.sections

    def moment():
        return f.number(1), f.number(4)

    sizes = dict(f.rising(lambda: (moment(), f.number(4))))
    order = [actor for stratum in strata.strata for actor in order_of(stratum)]
    return Log(2, strata.threads, ORDER_ONLY, strata.size, len(order), order, sizes, *read_records(f, moment))


def play_commit(player, kind):
    number = len(player.commits)
    if player.end is None:
        player.step()
    if len(player.commits) == number:
        raise unfit(player, "the play diverges there, for reason %d" % player.end[2])
    if player.commits[-1].kind != kind:
        raise Broken((UNFIT, number), "it is %s, but its stratum is for %s" % (NAMES[player.commits[-1].kind], NAMES[kind]),
                     "commit %d" % number)


def unfit(player, found):
    return Broken((UNFIT, player.end[1]), found, "commit %d" % player.end[1])


class Seen:
    """The words that the commits of one stratum have fetched, loaded or stored so far."""

    def __init__(self, player):
        self.player, self.touched, self.stored = player, {}, {}

    def conflict(self, actor):
        """What the last commit conflicts with, as Broken, or None. It is among those seen from now on."""
        number = len(self.player.commits) - 1
        touched, stored = footprint(self.player)
        found = self.other(actor, touched, self.stored) or self.other(actor, stored, self.touched)
        for words, seen in ((touched, self.touched), (stored, self.stored)):
            for word in words:
                seen.setdefault(word, {}).setdefault(actor, number)
        if not found:
            return None
        word, thread, earlier = found
        return Broken((CONFLICT, number), "a chunk of thread %d conflicts with commit %d, of thread %d, on the word at %08X"
                      % (actor, earlier, thread, word), "commit %d" % number)

    @staticmethod
    def other(actor, words, seen):
        """The least of these words that a commit of another thread is seen with, its thread, and its number; or None."""
        for word in sorted(words):
            for thread, number in seen.get(word, {}).items():
                if thread != actor:
                    return word, thread, number
        return None


def footprint(player):
    """The words that the last commit, a chunk, fetched, loaded or stored, and those that it stored."""
    commit, machine = player.commits[-1], player.machine
    accesses = machine.accesses[commit.first_access : commit.last_access]
    stored = {a.addr & ~3 for a in accesses if a.kind in isa.STORES}
    touched = stored | {a.addr & ~3 for a in accesses if a.kind in isa.LOADS} | set(machine.pcs[commit.first : commit.last])
    thread = machine.threads[commit.actor]
    if commit.size < player.log.sizes.get((commit.actor, thread.commits - 1), player.log.s):
        touched.add(thread.pc if commit.raised is None else thread.saved[0])
    return touched, stored
