#!/usr/bin/env python3
"""Whether the replies of several clients are those of one array of sectors: a search for an order of their requests.

An order explains the replies if it keeps each client's own order, puts a request whose reply had come before another one
that was sent later, and if the array that carries out one request after the other gives these replies: a read has
what is in the array then, a write is done unless an earlier one was denied, and from the first write on that touches
protected sectors none is done. If the array at the end is known, it has to be the order's too.

No two writes may write the same to a sector, so that what is read tells whose it is. So much is known without a
search: a read comes after the write that it has its sectors from, and every other write of such a sector comes before
that write or after the read. What follows from that is drawn first. Only then is an order built, one request at a
time; the steps that lead nowhere are remembered.

  served_history.py

runs the histories by hand at the end of this file, which shows that wrong ones are refused.
"""
import sys

# A search that goes on for longer is given up, which is told as a fault.
MOST_STEPS = 50_000

BEFORE_ALL = -1


class Event:
    """A read or write that fits the volume, and what came of it: its client, its first sector, what it has read or
    written of each sector, and when it was sent and its reply had come. Without a reply, `end` is None."""

    def __init__(self, client, first, values, *, is_write, is_denied=False, touches=False, begin=0.0, end=0.0):
        self.client, self.first, self.values = client, first, values
        self.is_write, self.is_denied, self.touches = is_write, is_denied, touches
        self.begin, self.end = begin, end

    def changes(self):
        return self.is_write and not self.is_denied

    def sectors(self):
        return enumerate(self.values, self.first)


class Contradiction(Exception):
    """The replies have no order, and why."""


class Order:
    """What is known of the order: for each event those before it and those after it, as bits."""

    def __init__(self, events):
        self.before, self.after = [0] * len(events), [0] * len(events)
        self.events, self.has_grown = events, False

    def add(self, first, second):
        if self.before[second] >> first & 1:
            return
        if first == second or self.before[first] >> second & 1:
            one, other = self.events[first], self.events[second]
            raise Contradiction(f"requests of clients {one.client} and {other.client} at sectors {one.first} and "
                                f"{other.first} come before each other")
        self.has_grown = True
        earlier, later = self.before[first] | 1 << first, self.after[second] | 1 << second
        for place in bits(later):
            self.before[place] |= earlier
        for place in bits(earlier):
            self.after[place] |= later


def bits(number):
    """The places of its ones."""
    while number:
        yield (number & -number).bit_length() - 1
        number &= number - 1


class Sector:
    """Who writes a sector, and for each write, or what was there before all, who reads that."""

    def __init__(self):
        self.writers, self.readers = 0, {}


class History:
    """The requests of a run with all that the search needs. Writes without a reply may have been done or not: the ones
    that somebody has read were done."""

    def __init__(self, events, before, after=None):
        self.events = events
        self.is_known = after is not None
        if self.is_known:
            # the array at the end is read by one more request, after all others
            last = max((event.end for event in events if event.end is not None), default=0.0)
            self.events = events + [Event(None, 0, after, is_write=False, begin=last, end=last)]
        self.order = Order(self.events)
        self.writer_of = {(sector, value): BEFORE_ALL for sector, value in enumerate(before)}
        for place, event in enumerate(self.events):
            if event.changes():
                for sector, value in event.sectors():
                    if self.writer_of.setdefault((sector, value), place) != place:
                        raise ValueError(f"sector {sector} is written twice with the same")
        self.sources = [self.sources_of(event) for event in self.events]
        read = {source for sources in self.sources for source in sources}
        self.all = sum(1 << place for place, event in enumerate(self.events)
                       if event.end is not None or place in read)
        self.table = {}
        for place in bits(self.all):
            event = self.events[place]
            for number, (sector, _) in enumerate(event.sectors()):
                entry = self.table.setdefault(sector, Sector())
                if event.changes():
                    entry.writers |= 1 << place
                elif not event.is_write:
                    source = self.sources[place][number]
                    entry.readers[source] = entry.readers.get(source, 0) | 1 << place

    def sources_of(self, event):
        """The write that each sector of a read comes from."""
        if event.is_write:
            return []
        for sector, value in event.sectors():
            if (sector, value) not in self.writer_of:
                whose = "the array at the end" if event.client is None else f"a read of client {event.client}"
                raise Contradiction(f"{whose} has in sector {sector} what nobody has written there")
        return [self.writer_of[sector, value] for sector, value in event.sectors()]

    def draw_known(self):
        """The order of each client, of times, of reads after their writes, and of what is denied."""
        last = {}
        for place in bits(self.all):
            event = self.events[place]
            if event.client in last:
                self.order.add(last[event.client], place)
            last[event.client] = place
            if event.client is None:
                for earlier in bits(self.all & ((1 << place) - 1)):
                    self.order.add(earlier, place)
        for place in bits(self.all):
            event = self.events[place]
            for other in bits(self.all):
                earlier = self.events[other]
                if earlier.end is not None and earlier.end < event.begin:
                    self.order.add(other, place)
                if event.is_denied and earlier.changes():
                    self.order.add(other, place)
            for source in self.sources[place]:
                if source != BEFORE_ALL:
                    self.order.add(source, place)

    def draw_conclusions(self):
        """Every other write of a sector that is read comes before the write that was read, or after the read."""
        order = self.order
        order.has_grown = True
        while order.has_grown:
            order.has_grown = False
            for sector in self.table.values():
                for source, readers in sector.readers.items():
                    for reader in bits(readers):
                        if source == BEFORE_ALL:
                            before, after = 0, sector.writers
                        else:
                            others = sector.writers & ~(1 << source)
                            before, after = others & order.before[reader], others & order.after[source]
                        for write in bits(before & ~order.before[source] if source != BEFORE_ALL else 0):
                            order.add(write, source)
                        for write in bits(after & ~order.after[reader]):
                            order.add(reader, write)

    def is_next(self, place, done, array, is_frozen):
        """Whether this event may come now, all that it comes after being done."""
        event = self.events[place]
        if not event.is_write:
            return all(array.get(sector, BEFORE_ALL) == source
                       for (sector, _), source in zip(event.sectors(), self.sources[place]))
        if event.is_denied:
            return is_frozen or event.touches
        if is_frozen or event.touches:
            return False
        # what somebody has still to read isn't written over
        for sector, _ in event.sectors():
            if self.table[sector].readers.get(array.get(sector, BEFORE_ALL), 0) & ~done:
                return False
        return True

    def search(self):
        """An order of all events; None if there is none."""
        tried, steps, stack = set(), 0, [(0, {}, False)]
        while stack:
            done, array, is_frozen = stack.pop()
            # What changes nothing may always come as soon as it can.
            goes_on = True
            while goes_on:
                goes_on = False
                ready = [place for place in bits(self.all & ~done) if not self.order.before[place] & ~done]
                for place in ready:
                    event = self.events[place]
                    if not event.changes() and self.is_next(place, done, array, is_frozen):
                        done |= 1 << place
                        is_frozen |= event.is_denied
                        goes_on = True
            if done == self.all:
                return True
            state = (done, is_frozen, frozenset(array.items()))
            if state in tried:
                continue
            tried.add(state)
            steps += 1
            if steps > MOST_STEPS:
                raise Contradiction(f"no order was found in {MOST_STEPS} steps")
            for place in ready:
                event = self.events[place]
                if not done >> place & 1 and event.changes() and self.is_next(place, done, array, is_frozen):
                    written = {sector: place for sector, _ in event.sectors()}
                    stack.append((done | 1 << place, {**array, **written}, is_frozen))
        return False


def why_no_history(events, before, after=None):
    """None if an order explains these events, over an array of sectors that is `before` at first and `after` at last;
    otherwise why there is none."""
    try:
        history = History(events, before, after)
        history.draw_known()
        history.draw_conclusions()
        return None if history.search() else "no order of the requests gives these replies"
    except Contradiction as why:
        return str(why)


def by_hand():
    """Histories over three sectors that hold 0: what happens, the array after it, and whether that has an order."""
    def put(client, first, values, begin=0, end=9, **how):
        return Event(client, first, values, is_write=True, begin=begin, end=end, **how)

    def get(client, first, values, begin=0, end=9):
        return Event(client, first, values, is_write=False, begin=begin, end=end)

    def denied(client, first, touches=False, begin=0, end=9):
        return put(client, first, [], begin, end, is_denied=True, touches=touches)

    return [
        ("nothing happens", [], [0, 0, 0], True),
        ("an array that nobody wrote", [], [0, 1, 0], False),
        ("a write that is there", [put(0, 0, [1, 2])], [1, 2, 0], True),
        ("a write that is lost", [put(0, 0, [1, 2])], [0, 0, 0], False),
        ("half a write", [put(0, 0, [1, 2])], [1, 0, 0], False),
        ("a client's read before its own write", [put(0, 0, [1]), get(0, 0, [0])], [1, 0, 0], False),
        ("another client's read at the same time, old", [put(0, 0, [1, 1]), get(1, 0, [0, 0])], [1, 1, 0], True),
        ("another client's read at the same time, new", [put(0, 0, [1, 1]), get(1, 0, [1, 1])], [1, 1, 0], True),
        ("a torn read", [put(0, 0, [1, 1]), get(1, 0, [1, 0])], [1, 1, 0], False),
        ("a later read of the old", [put(0, 0, [1], 0, 1), get(1, 0, [0], 2, 3)], [1, 0, 0], False),
        ("an earlier read of the new", [get(1, 0, [1], 0, 1), put(0, 0, [1], 2, 3)], [1, 0, 0], False),
        ("the new, and then the old", [put(0, 0, [1]), get(1, 0, [1]), get(1, 0, [0])], [1, 0, 0], False),
        ("two writes in two orders", [put(0, 0, [1, 1]), put(1, 0, [2, 2])], [1, 2, 0], False),
        ("two readers who see two orders",
         [put(0, 0, [1]), put(1, 1, [2]), get(2, 0, [1, 0]), get(3, 0, [0, 2])], [1, 2, 0], False),
        ("two readers who see one order",
         [put(0, 0, [1]), put(1, 1, [2]), get(2, 0, [1, 0]), get(3, 0, [1, 2])], [1, 2, 0], True),
        ("a chain of three clients",
         [put(0, 0, [1]), get(1, 0, [1]), put(1, 1, [2]), get(2, 1, [2]), get(2, 0, [0])], [1, 2, 0], False),
        ("a write over what is still to be read",
         [put(0, 0, [1]), put(0, 0, [2]), put(1, 1, [3]), get(2, 0, [1, 3])], [2, 3, 0], True),
        ("a denied write, and one before it", [put(0, 0, [1]), denied(1, 2, True)], [1, 0, 0], True),
        ("a denied write, and one after it",
         [denied(1, 2, True, 0, 1), put(0, 0, [1], 2, 3)], [1, 0, 0], False),
        ("a refused write without a denied one", [denied(0, 0)], [0, 0, 0], False),
        ("a refused write before the denied one",
         [denied(0, 0, False, 0, 1), denied(1, 2, True, 2, 3)], [0, 0, 0], False),
        ("a refused write, and the denied one at the same time", [denied(0, 0), denied(1, 2, True)], [0, 0, 0], True),
        ("a denied write that is there", [put(1, 2, [1], touches=True)], [0, 0, 1], False),
        ("a write without a reply that was read", [put(0, 0, [1], 0, None), get(1, 0, [1])], None, True),
        ("a write without a reply that came later", [put(0, 0, [1], 5, None), get(1, 0, [1], 0, 1)], None, False),
    ]


def main():
    wrong = 0
    for name, events, after, has_order in by_hand():
        why = why_no_history(events, [0, 0, 0], after)
        if (why is None) != has_order:
            wrong += 1
            print(f"wrong: {name}: {why}")
    print(f"histories: {len(by_hand()) - wrong} passed, {wrong} failed")
    return 1 if wrong else 0


if __name__ == "__main__":
    sys.exit(main())
