"""What `cfbook edit` answers, told again from docs/MODEL.md and docs/REFUSALS.md: a plain copy of each stream's bytes,
and beside it the numbers that room, header, entries and link table are worked out from. And random scripts of such calls.

No part of it reads the program's text, so that a mistake would have to be made twice to stay unseen.
"""
END, FREE = 0xFFFFFFFE, 0xFFFFFFFF
UNIT, UNITS, MINI, CUTOFF, LONGEST = 512, 64, 64, 4096, 16_777_216
LINKS, MINIS = UNIT // 4, UNIT // MINI
# The rows of `pat`: place i of row c is c + 7 i.
ROWS = [bytes((c + 7 * i) % 256 for i in range(256)) for c in range(256)]


def pattern(seed, count):
    rows = (ROWS[(31 * seed + 13 * q) % 256] for q in range(count // 256 + 1))
    return b"".join(rows)[:count]


def fnv(data):
    told = 0xCBF29CE484222325
    for byte in data:
        told = (told ^ byte) * 0x100000001B3 & (2**64 - 1)
    return told


def up(a, b):
    return -(-a // b)


def link(number):
    if number <= 0xFFFFFFFA:
        return str(number)
    return {END: "END", FREE: "FREE"}.get(number, "0x%08x" % number)


def shown(data, always):
    text = data.hex() or "-"
    return "ok %d %s" % (len(data), text if always or len(data) <= 64 else "fnv:%016x" % fnv(data))


class Refused(Exception):
    def __init__(self, number, place, lower="", layer=4):
        super().__init__("refused %d layer %d place %d%s" % (number, layer, place, lower))


class Drawer:
    """The host: which chain a unit is on."""

    def __init__(self):
        self.free, self.chains = set(range(UNITS)), {}

    def give(self, chain, count):
        for _ in range(count):
            unit = min(self.free)
            self.free.discard(unit)
            chain.append(unit)

    def begin(self, count):
        chain = []
        self.give(chain, count)
        self.chains[chain[0]] = chain
        return chain[0]

    def extend(self, head, count):
        self.give(self.chains[head], count)

    def cut(self, head, count):
        self.free.update(self.chains[head][count:])
        del self.chains[head][count:]

    def end(self, head):
        self.free.update(self.chains.pop(head))

    def grow(self, head, count):
        """So many units behind a chain, which begins where there is none; answers its head."""
        if count and head == END:
            return self.begin(count)
        if count:
            self.extend(head, count)
        return head

    def units(self, head):
        return len(self.chains.get(head, []))


class Minis:
    """The mini store over a drawer: the link table, the stack of its FREE places, root entry and header words."""

    def __init__(self, drawer):
        self.host, self.table, self.stack = drawer, [], []
        self.root, self.length, self.words = END, 0, (END, 0)

    def need(self, count):
        fats = up(len(self.table) + count, LINKS) - self.host.units(self.words[0])
        minis = up(self.length // MINI + count, MINIS) - self.host.units(self.root)
        return max(0, fats), max(0, minis)

    def room(self, given_back=0):
        host = len(self.host.free) + given_back
        count = 0
        while len(self.table) + count < 4096 and sum(self.need(count + 1)) <= host:
            count += 1
        return len(self.stack) + count

    def take(self, count):
        """So many places, in the order in which they are taken, each linked END."""
        new = max(0, count - len(self.stack))
        if new:
            fats, minis = self.need(new)
            self.words = (self.host.grow(self.words[0], fats), self.words[1] + fats)
            self.root = self.host.grow(self.root, minis)
            self.length += MINI * new
        taken = []
        for _ in range(count):
            place = self.stack.pop() if self.stack else len(self.table)
            if place == len(self.table):
                self.table.append(END)
            self.table[place] = END
            taken.append(place)
        return taken

    def path(self, place):
        found = []
        while place != END:
            found.append(place)
            place = self.table[place]
        return found

    def join(self, places):
        for before, behind in zip(places, places[1:]):
            self.table[before] = behind

    def begin(self, count):
        places = self.take(count)
        self.join(places)
        return places[0]

    def extend(self, head, count):
        last = self.path(head)[-1]
        self.join([last] + self.take(count))

    def cut(self, head, count):
        kept, gone = self.path(head)[:count], self.path(head)[count:]
        if kept:
            self.table[kept[-1]] = END
        for place in gone:
            self.table[place] = FREE
            self.stack.append(place)
        while self.table and self.table[-1] == FREE:
            self.table.pop()
            self.stack.remove(len(self.table))
            self.length -= MINI

    def end(self, head):
        self.cut(head, 0)

    def units(self, head):
        return len(self.path(head))


class Book:
    """A workbook over a fresh drawer, shut at first."""

    def __init__(self):
        self.host = Drawer()
        self.minis = Minis(self.host)
        self.bytes = {id: b"" for id in range(1, 16)}
        self.start = dict.fromkeys(self.bytes, END)
        self.is_open = False

    def home(self, length):
        return (self.minis, MINI) if length < CUTOFF else (self.host, UNIT)

    def stream(self, id):
        if not self.is_open:
            raise Refused(1, 0)
        if id > 15:
            raise Refused(2, id, " by 17 layer 2 place %d" % id)
        if id == 0:
            raise Refused(2, id)
        return self.bytes[id]

    def fit(self, id, length):
        """Gives a stream the units that a length needs, or refuses it."""
        if length > LONGEST:
            raise Refused(4, id)
        old, was, unit = self.home(len(self.bytes[id]))[0], len(self.bytes[id]), 0
        new, unit = self.home(length)
        have, want = old.units(self.start[id]) if was else 0, up(length, unit)
        need = max(0, want - have) if old is new else want
        given_back = have if old is self.host and new is self.minis else 0
        room = len(self.host.free) if new is self.host else self.minis.room(given_back)
        if need > room:
            raise Refused(5, id)
        if have and (old is not new or not want):
            old.end(self.start[id])
            have = 0
        if not want:
            self.start[id] = END
        elif not have:
            self.start[id] = new.begin(want)
        elif want > have:
            new.extend(self.start[id], want - have)
        elif want < have:
            new.cut(self.start[id], want)

    def write(self, id, at, data):
        old = self.stream(id)
        if at > len(old):
            raise Refused(3, id)
        self.fit(id, max(len(old), at + len(data)))
        self.bytes[id] = old[:at] + data + old[at + len(data):]
        return "ok"

    def resize(self, id, length):
        old = self.stream(id)
        self.fit(id, length)
        self.bytes[id] = old[:length] + bytes(max(0, length - len(old)))
        return "ok"

    def open(self):
        self.is_open = True
        self.minis.stack = [i for i, x in enumerate(self.minis.table) if x == FREE]
        return "ok"

    def room(self):
        if not self.is_open:
            raise Refused(1, 0)
        return "ok %d %d" % (len(self.host.free), self.minis.room())

    def entry(self, id):
        if id > 15:
            raise Refused(17, id, layer=2)
        if id == 0:
            return "ok 5 %s %d" % (link(self.minis.root), self.minis.length)
        return "ok 2 %s %d" % (link(self.start[id]), len(self.bytes[id]))

    def answer(self, words):
        """What a call answers; words that are none raise an error."""
        name, rest = words[0], words[1:]
        if name == "open" and rest[-1] in ("strict", "permissive"):
            return self.open()
        if name == "room":
            return self.room()
        if name == "header":
            return "ok %s %d" % (link(self.minis.words[0]), self.minis.words[1])
        if name == "minifat":
            links = self.minis.table if self.is_open else []
            return " ".join(["ok %d" % len(links)] + [link(x) for x in links])
        if name == "write":
            return self.write(int(rest[0], 0), int(rest[1], 0), bytes.fromhex(rest[2].replace("-", "")))
        id, *numbers = [int(word, 0) for word in rest]
        if name == "len":
            return "ok %d" % len(self.stream(id))
        if name == "entry":
            return self.entry(id)
        if name in ("read", "readhex"):
            return shown(self.stream(id)[numbers[0]:numbers[0] + numbers[1]], name == "readhex")
        if name == "fill":
            return self.write(id, numbers[0], bytes([numbers[2]]) * min(numbers[1], LONGEST + 1))
        if name == "pat":
            return self.write(id, numbers[0], pattern(numbers[2], min(numbers[1], LONGEST + 1)))
        if name == "resize":
            return self.resize(id, *numbers)
        raise ValueError(name)

    def told(self, line):
        """What a line that is a call answers, or its refusal."""
        try:
            return self.answer(line.split())
        except Refused as refusal:
            return str(refusal)


EDGES = [0, 1, 63, 64, 65, 127, 128, 129, 511, 512, 513, 4032, 4095, 4096, 4097, 4608, 4609, 8192]


class Scripts:
    """Random calls on the streams of a workbook, told line by line. `most` bounds all streams together, for those who want
    no refusal."""

    def __init__(self, rng, ids, most=None):
        self.rng, self.ids, self.most = rng, ids, most

    def size(self):
        rng = self.rng
        if rng.random() < 0.5:
            return rng.choice(EDGES)
        return rng.randrange(rng.choice([70, 600, 4200, 9001]))

    def offset(self, length):
        near = [0, 0, length, length, length // 2, max(0, length - 1), length - length % 64, self.rng.randrange(length + 1)]
        return self.rng.choice(near)

    def bounded(self, book, id, length):
        """Whether a stream of such a length is not past the bound."""
        others = sum(map(len, book.bytes.values())) - len(book.bytes[id])
        return self.most is None or others + max(length, len(book.bytes[id])) <= self.most

    def writing(self, book, id):
        rng, old = self.rng, book.bytes[id]
        at, count = self.offset(len(old)), min(self.size(), 9000)
        if self.most is None and rng.random() < 0.02:
            at = len(old) + 1 + rng.randrange(9000)
        elif at + count > 9000 or not self.bounded(book, id, at + count):
            at, count = 0, min(count, len(old))
        if count <= 64 and rng.random() < 0.5:
            return "write %d %d %s" % (id, at, rng.randbytes(count).hex() or "-")
        if rng.random() < 0.3:
            return "fill %d %d %d %d" % (id, at, count, rng.randrange(256))
        return "pat %d %d %d %d" % (id, at, count, rng.randrange(1000))

    def resizing(self, book, id):
        length = 0 if self.rng.random() < 0.25 else min(self.size(), 9000)
        return "resize %d %d" % (id, length if self.bounded(book, id, length) else 0)

    def call(self, book):
        """One call more, chosen by what the workbook has."""
        rng = self.rng
        id = rng.choice(self.ids)
        kind = rng.randrange(100)
        if kind < 35:
            return self.writing(book, id)
        if kind < 55:
            return self.resizing(book, id)
        if kind < 83:
            at = self.offset(len(book.bytes[id])) + rng.choice([0, 0, 0, 1, 5000])
            return "%s %d %d %d" % (rng.choice(["read", "readhex"]), id, at, min(self.size(), 9000))
        if kind < 93:
            return "len %d" % id
        if kind < 96:
            return "room" if self.most is None else "minifat"
        return "open - %s" % rng.choice(["strict", "permissive"])
