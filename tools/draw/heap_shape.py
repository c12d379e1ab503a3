"""Which pools and arenas a heap has while the events of a report happen, by the rules of CPython 3.12's Objects/obmalloc.c.

A report says which classes have pools and how full the partly used ones are, and not in which place of its arena a pool lies, nor
which arenas are full. So the allocations of the report are followed here, and the heap that they give is held against every
`heap` of the report: at a difference the drawing stops. One thing is added to the rules: a new pool lies in the place of its arena
that was freed last, or else in the first one that was never used, as in CPython."""
from collections import OrderedDict
from typing import NamedTuple

from report import read_events

POOL_BYTES = 16_384
POOL_HEAD = 48
ARENA_BYTES = 1_048_576
POOLS_OF_ARENA = 64
CLASS_BYTES = 16
CLASSES = 32
GREATEST_SMALL = CLASSES * CLASS_BYTES
HOOK_BYTES = 24
MOST_ARENAS = 256
ALLOCATIONS = ("malloc", "calloc", "realloc")


class Differs(Exception):
    """The heap that a report shows is not the one that its allocations give."""


def size_of(size_class):
    """The bytes of a block of a class, counted from 0."""
    return CLASS_BYTES * (size_class + 1)


def capacity_of(size_class):
    return (POOL_BYTES - POOL_HEAD) // size_of(size_class)


class Pool:
    """A pool of one class: how many of its blocks are live, and where in which arena it lies."""

    __slots__ = ("size_class", "live", "arena", "place")

    def __init__(self, size_class, arena, place):
        self.size_class = size_class
        self.live = 0
        self.arena = arena
        self.place = place

    def is_full(self):
        return self.live == capacity_of(self.size_class)


class Arena:
    """An arena: its pools by place, and the places that were freed, the last one last."""

    def __init__(self, number, places):
        self.number = number
        self.pools = [None] * places
        self.freed = []
        self.never_used = 0
        self.free = places

    def begin_pool(self, size_class):
        if self.freed:
            place = self.freed.pop()
        else:
            place = self.never_used
            self.never_used += 1
        pool = self.pools[place] = Pool(size_class, self, place)
        self.free -= 1
        return pool

    def end_pool(self, pool):
        self.pools[pool.place] = None
        self.freed.append(pool.place)
        self.free += 1


class Heap:
    """Pools and arenas. `usable` are the arenas with a free pool, in the order in which they are asked; `partly` are the pools with
    live and free blocks of each class, in that order too; `full` counts the full ones, and `taken` all pools that are not free."""

    def __init__(self, places):
        self.places = places
        self.granted = 0
        self.arenas = {}
        self.taken = 0
        self.usable = []
        self.partly = [OrderedDict() for _ in range(CLASSES)]
        self.full = [0] * CLASSES
        self.requests = 0
        self.refused = set()

    def refuse(self, request):
        """The request of that number from now on is refused an arena."""
        self.refused.add(self.requests + request)

    def ask_arena(self):
        """Asks for an arena; whether one was granted. Their numbers count those granted."""
        self.requests += 1
        if self.requests in self.refused or len(self.arenas) >= MOST_ARENAS:
            return False
        self.granted += 1
        arena = self.arenas[self.granted] = Arena(self.granted, self.places)
        self.usable.append(arena)
        return True

    def take(self, need):
        """The pool of a new block of 1 to 512 bytes, or None where its arena is refused."""
        size_class = (need - 1) // CLASS_BYTES
        partly = self.partly[size_class]
        if not partly:
            if not self.usable and not self.ask_arena():
                return None
            arena = self.usable[0]
            pool = arena.begin_pool(size_class)
            self.taken += 1
            if not arena.free:
                del self.usable[0]
            partly[pool] = None
        pool = next(iter(partly))
        pool.live += 1
        if pool.is_full():
            del partly[pool]
            self.full[size_class] += 1
        return pool

    def give(self, pool):
        """Takes a block of the pool back."""
        partly = self.partly[pool.size_class]
        if pool.is_full():
            self.full[pool.size_class] -= 1
            partly[pool] = None
            partly.move_to_end(pool, last=False)
        pool.live -= 1
        if not pool.live:
            del partly[pool]
            pool.arena.end_pool(pool)
            self.taken -= 1
            self.sort_in(pool.arena)

    def sort_in(self, arena):
        """Puts an arena that has one free pool more where it belongs: fuller arenas are asked first. An arena whose pools are all
        free goes back, but not the last usable one."""
        if arena.free == 1:
            self.usable.insert(0, arena)
            return
        at = self.usable.index(arena)
        is_last = at == len(self.usable) - 1
        del self.usable[at]
        if arena.free == self.places and not is_last:
            del self.arenas[arena.number]
            return
        while at < len(self.usable) and self.usable[at].free < arena.free:
            at += 1
        self.usable.insert(at, arena)

    def lines(self):
        """What a report has below a `heap`."""
        out = [f"arena {arena.number} free {arena.free} of {self.places}" for arena in self.usable]
        for size_class in range(CLASSES):
            partly, full = self.partly[size_class], self.full[size_class]
            if partly or full:
                pools = ",".join(f"{pool.arena.number}:{pool.live}" for pool in partly) or "-"
                out.append(f"class {size_of(size_class)} used {pools} full {full}")
        return out

    def picture(self):
        """Each arena's pools by place, as (class, live) or None for a free one."""
        return {
            arena.number: [pool and (pool.size_class, pool.live) for pool in arena.pools] for arena in self.arenas.values()
        }


class Moment(NamedTuple):
    """The heap at one `heap` of a report: live blocks in pools and raw, and the arenas as Heap.picture has them."""

    event: int
    in_pools: int
    raw: int
    arenas: dict


class Point(NamedTuple):
    """Bytes after one event: those asked for by live blocks, and those of pools taken, of arenas and of raw memory."""

    event: int
    asked: int
    pools: int
    arenas: int
    raw: int


def stays(need, size):
    """Whether a block in a pool stays where it is when it is asked to have another size."""
    return need <= size and 4 * need > 3 * size


class Following:
    """Follows the events of a report."""

    def __init__(self, places):
        self.heap = Heap(places)
        self.blocks = {}  # the size of each live block, and its pool or None
        self.asked = 0
        self.raw = 0
        self.moments = []

    def follow(self, event):
        operation = event.words[0]
        if operation in ALLOCATIONS:
            self.follow_allocation(event)
        elif operation == "free" and event.reply == "ok":
            block = self.blocks.pop(event.words[2], None)
            if block:
                self.give(*block)
        elif operation == "refuse" and event.words[1] == "arena":
            self.heap.refuse(int(event.words[2]))
        elif operation == "heap":
            self.compare(event)

    def follow_allocation(self, event):
        operation, letter, name, *sizes = event.words
        size = int(sizes[0]) * (int(sizes[1]) if operation == "calloc" else 1)
        old = self.blocks.get(name)
        if event.reply == "ok":
            self.allocate(letter, name, size, old)
        elif event.reply == "null" and letter != "r" and not (old and old[1] is None):
            need = size + HOOK_BYTES
            if need <= GREATEST_SMALL and not self.heap.partly[(need - 1) // CLASS_BYTES] and not self.heap.usable:
                self.heap.requests += 1  # it was refused an arena, and raw memory after that

    def allocate(self, letter, name, size, old):
        need = size + HOOK_BYTES
        if old and old[1] is None:
            pool = None
        elif old and stays(need, size_of(old[1].size_class)):
            self.asked += size - old[0]
            self.blocks[name] = (size, old[1])
            return
        else:
            pool = self.heap.take(need) if letter != "r" and need <= GREATEST_SMALL else None
        self.blocks[name] = (size, pool)
        self.asked += size
        if pool is None:
            self.raw += need
        if old:
            self.give(*old)

    def give(self, size, pool):
        self.asked -= size
        if pool is None:
            self.raw -= size + HOOK_BYTES
        else:
            self.heap.give(pool)

    def compare(self, event):
        """Holds the heap against the one that the report shows, and keeps it."""
        if event.lines != self.heap.lines():
            raise Differs(f"event {event.number}")
        _, in_pools, _, raw = event.reply.split(" ")
        self.moments.append(Moment(event.number, int(in_pools), int(raw), self.heap.picture()))

    def point(self, number):
        heap = self.heap
        return Point(number, self.asked, heap.taken * POOL_BYTES, len(heap.arenas) * ARENA_BYTES, self.raw)


class Story(NamedTuple):
    """What a report tells: the heap at each `heap`, and bytes along the way."""

    moments: list
    points: list


def find_places(lines):
    """How many pools an arena of the report has: one less where arenas do not lie at multiples of their size."""
    for line in lines:
        if line.startswith("  arena "):
            return int(line.split()[-1])
    return POOLS_OF_ARENA


def read_story(text, tell=lambda done, count: None, most_points=1000):
    """Follows a whole report, and tells now and then how many events are done. Of each stretch of events two points are kept: the one
    at which most bytes were asked for, and the last one."""
    lines = text.split("\n")
    events = list(read_events(lines))
    following = Following(find_places(lines))
    stretch = max(1, 2 * len(events) // most_points)
    points, highest = [], None
    for event in events:
        following.follow(event)
        point = following.point(event.number)
        if event.number % 16384 == 0:
            tell(event.number, len(events))
        if highest is None or point.asked > highest.asked:
            highest = point
        if event.number % stretch == 0 or event is events[-1]:
            points += [highest, point] if highest.event != point.event else [point]
            highest = None
    return Story(following.moments, points)
