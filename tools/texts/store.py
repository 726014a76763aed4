"""The plain store: what a script answers, and what it leaves."""
from .layout import QUEUES, REGISTERS

GREATEST = 2147483647
READS = {"load", "get", "need", "len", "count", "first", "next"}


class Abort(Exception):
    """An instruction that aborts its script; the text is the cause."""


class Store:
    """Registers, keys, and queues. `blocks` are shared by keys and items."""

    def __init__(self, blocks, lines=()):
        """The store of these lines of a report, an empty one without any."""
        self.blocks, self.registers, self.keys = blocks, [0] * REGISTERS, {}
        self.queues = [[] for _ in range(QUEUES)]
        for line in lines:
            word, which, *numbers = line.split(" ")
            if word == "queue":
                self.queues[int(which)] = [int(it) for it in numbers]
            else:
                kept = self.registers if word == "register" else self.keys
                kept[int(which)] = int(numbers[0])

    def lines(self):
        lines = [f"register {r} {v}" for r, v in enumerate(self.registers) if v]
        lines += [f"key {k} {self.keys[k]}" for k in sorted(self.keys)]
        return lines + [" ".join(["queue", str(q), *map(str, items)])
                        for q, items in enumerate(self.queues) if items]

    def copy(self):
        other = Store(self.blocks)
        other.registers, other.keys = self.registers[:], dict(self.keys)
        other.queues = [items[:] for items in self.queues]
        return other

    def run(self, script):
        """The store after a script, and the words of its reply."""
        after, words = self.copy(), []
        for place, (name, numbers) in enumerate(script):
            try:
                value = INSTRS[name](after, *numbers)
            except Abort as cause:
                return self, ["abort", str(place), str(cause)]
            words.append("none" if value is None else str(value))
        return after, words

    def take_room(self):
        if len(self.keys) + sum(map(len, self.queues)) >= self.blocks:
            raise Abort("noroom")

    def load(self, register):
        return self.registers[register]

    def store(self, register, value):
        self.registers[register] = value

    def add(self, register, value):
        if self.registers[register] + value > GREATEST:
            raise Abort("overflow")
        self.registers[register] += value
        return self.registers[register]

    def sub(self, register, value):
        if value > self.registers[register]:
            raise Abort("short")
        self.registers[register] -= value
        return self.registers[register]

    def get(self, key):
        return self.keys.get(key)

    def put(self, key, value):
        if key not in self.keys:
            self.take_room()
        before, self.keys[key] = self.keys.get(key), value
        return before

    def delete(self, key):
        return self.keys.pop(key, None)

    def need(self, key, value):
        if self.keys.get(key) != value:
            raise Abort("differs")

    def push(self, queue, value):
        self.take_room()
        self.queues[queue].append(value)

    def pop(self, queue):
        return self.queues[queue].pop(0) if self.queues[queue] else None

    def length(self, queue):
        return len(self.queues[queue])

    def count(self):
        return len(self.keys)

    def drop_below(self, key):
        gone = [it for it in self.keys if it < key]
        for it in gone:
            del self.keys[it]
        return len(gone)

    def first(self):
        return min(self.keys, default=None)

    def next(self, key):
        return min((it for it in self.keys if it > key), default=None)


# What runs each instruction.
INSTRS = {
    "load": Store.load, "store": Store.store, "add": Store.add, "sub": Store.sub,
    "get": Store.get, "put": Store.put, "del": Store.delete, "need": Store.need,
    "push": Store.push, "pop": Store.pop, "len": Store.length, "count": Store.count,
    "drop-below": Store.drop_below, "first": Store.first, "next": Store.next,
}
