"""onefile.h for Python programs, as those here use it: ctypes over libonefile.so, which the variable
ONEFILE_LIBRARY names. A refusal is raised. Other threads run during a call."""
import ctypes
import os
import time
from ctypes import POINTER, c_char_p, c_int, c_size_t, c_uint32, c_uint64, c_void_p

DONE, BUSY, NO_CALL, STOPPED, ABSENT, NO_ROOM, NO_FILE, NOT_YET = 0, 2, 9, 10, 15, 16, 19, 27
CAUSE_SHORT = 2
GREATEST_LIMIT = 4294967294
NO_END = 2**64 - 1
MOST_TRIES, A_MILLISECOND = 1000, 0.001


class Slot(ctypes.Structure):
    _fields_ = [("state", c_uint32), ("at", c_void_p)]


class Guarded(ctypes.Structure):
    _fields_ = [("busy", c_uint32), ("shared", c_uint32), ("slot", Slot), ("apart", ctypes.c_char * 64)]


class RawMemory(ctypes.Structure):
    _fields_ = [("memory", Guarded), ("caller", Guarded * 64)]


class Reply(ctypes.Structure):
    """What a call answered, as onefile_reply in onefile.h."""

    _fields_ = [(name, c_uint32) for name in "seq announced len place cause ticket".split()] + [
        ("steps", c_uint64),
        ("given", c_uint32 * 16),
        ("values", c_uint32 * 16),
    ]

    def answers(self):
        """The number that each instruction answered, or None."""
        return [self.values[i] if self.given[i] else None for i in range(self.len)]


LIBRARY = ctypes.CDLL(os.environ.get("ONEFILE_LIBRARY", "libonefile.so"))
OF = {
    "open": [POINTER(RawMemory), c_uint32, c_uint32, c_uint32],
    "reopen": [POINTER(RawMemory), POINTER(Guarded)],
    "open_file": [POINTER(RawMemory), c_char_p, c_uint32, c_uint32, c_uint32],
    "reopen_file": [POINTER(RawMemory), c_char_p, c_uint32, POINTER(Guarded)],
    "share_file": [POINTER(RawMemory), c_char_p, c_uint32, c_uint32, c_uint32],
    "enrol": [POINTER(RawMemory), c_uint32],
    "enrol_any": [POINTER(RawMemory), POINTER(c_uint32)],
    "leave": [POINTER(RawMemory), c_uint32],
    "close": [POINTER(RawMemory), POINTER(Guarded)],
    "renumber": [POINTER(RawMemory), POINTER(Guarded)],
    "sequences_left": [POINTER(RawMemory), c_uint32, POINTER(c_uint32)],
    "free": [POINTER(RawMemory)],
    "call_text_within": [
        POINTER(RawMemory), c_uint32, c_char_p, c_size_t, c_uint64, POINTER(Reply)],
    "last_reply_of": [POINTER(RawMemory), c_uint32, POINTER(Reply)],
    "go_on": [POINTER(RawMemory), c_uint32, c_uint64, POINTER(Reply)],
    "register": [POINTER(Guarded), c_uint32, POINTER(c_uint32)],
    "key": [POINTER(Guarded), c_uint32, POINTER(c_uint32)],
    "ticket": [POINTER(Guarded), c_uint32, POINTER(c_uint32)],
    "last_reply": [POINTER(Guarded), c_uint32, POINTER(Reply)],
    "image": [POINTER(Guarded), c_char_p, c_size_t, POINTER(c_size_t)],
    "from_image": [POINTER(Guarded), c_char_p, c_size_t],
    "free_saved": [POINTER(Guarded)],
}
for word, types in OF.items():
    getattr(LIBRARY, "onefile_" + word).argtypes = types
LIBRARY.onefile_name.argtypes, LIBRARY.onefile_name.restype = [c_int], c_char_p


class Refusal(Exception):
    """An answer that is not wanted."""


def name(answer):
    return LIBRARY.onefile_name(answer).decode()


def make(word, *given, wanted=(DONE,)):
    """Calls onefile_WORD, and gives its answer."""
    answer = getattr(LIBRARY, "onefile_" + word)(*given)
    if answer not in wanted:
        raise Refusal(name(answer))
    return answer


class Memory:
    """A memory, which goes on from what was saved, or from the file if there is one. If it is
    shared, other processes may have the file too. It is let go when nothing refers to it, and
    nothing of it is saved then but in its file."""

    def __init__(
        self, callers=0, blocks=0, limit=GREATEST_LIMIT, saved=None, path=None, shared=False
    ):
        self.held = RawMemory()
        if saved:
            make("reopen", self.held, saved.held)
        elif path:
            name, wanted = os.fsencode(path), (DONE, NO_FILE)
            if b"\0" in name:
                raise ValueError("a zero byte in a path")
            if shared:
                make("share_file", self.held, name, callers, blocks, limit)
            elif make("reopen_file", self.held, name, limit, None, wanted=wanted) == NO_FILE:
                make("open_file", self.held, name, callers, blocks, limit)
        else:
            make("open", self.held, callers, blocks, limit)

    def __del__(self):
        LIBRARY.onefile_free(self.held)

    def close(self):
        """What is left of a memory that all callers have left."""
        saved = Saved()
        make("close", self.held, saved.held)
        return saved

    def renumber(self):
        """Has the sequences of a memory begin anew that all callers have left, and gives what it
        has left."""
        saved = Saved()
        make("renumber", self.held, saved.held)
        return saved

    def last_reply_of(self, number):
        """What the last call of a number that is held answered, while others go on. None if none
        is."""
        reply, answer = Reply(), BUSY
        while answer == BUSY:
            given = (self.held, number, reply)
            answer = make("last_reply_of", *given, wanted=(DONE, ABSENT, BUSY))
        return reply if answer == DONE else None

    def detach(self):
        """Lets a shared file go, which all callers of this process have left."""
        make("close", self.held, None)


class Caller:
    """A caller that is enrolled: `with Caller(memory, 0) as own`, or with the first number that is
    free: `with Caller(memory) as own`. It leaves at the end. If another one enrols or leaves at
    that moment, it tries again. If its number is not free yet, it tries again for a second."""

    def __init__(self, memory, number=None):
        self.memory, self.number = memory, number

    def __enter__(self):
        if self.number is None:
            number = c_uint32()
            make("enrol_any", self.memory.held, number)
            self.number = number.value
        else:
            self.enrol()
        return self

    def enrol(self):
        for _ in range(MOST_TRIES):
            if make("enrol", self.memory.held, self.number, wanted=(DONE, NOT_YET)) == DONE:
                return
            time.sleep(A_MILLISECOND)
        raise Refusal(name(NOT_YET))

    def __exit__(self, *_):
        while make("leave", self.memory.held, self.number, wanted=(DONE, BUSY)) == BUSY:
            os.sched_yield()

    def call(self, script, steps=NO_END, wanted=DONE):
        """Runs a script, for at most so many steps."""
        text, reply = script.encode(), Reply()
        given = (self.memory.held, self.number, text, len(text), steps, reply)
        make("call_text_within", *given, wanted=(wanted,))
        return reply

    def go_on(self):
        """Ends the open call, which a killed owner of the number may have left. None if none is."""
        reply = Reply()
        given = (self.memory.held, self.number, NO_END, reply)
        return reply if make("go_on", *given, wanted=(DONE, NO_CALL)) == DONE else None

    def sequences_left(self):
        """How many sequences are left at most, as far as this caller knows."""
        left = c_uint32()
        make("sequences_left", self.memory.held, self.number, left)
        return left.value


class Saved:
    """What a memory has left, or what an image holds."""

    def __init__(self, image=None):
        self.held = Guarded()
        if image is not None:
            make("from_image", self.held, image, len(image))

    def __del__(self):
        LIBRARY.onefile_free_saved(self.held)

    def image(self):
        size = c_size_t()
        make("image", self.held, None, 0, size, wanted=(NO_ROOM,))
        text = ctypes.create_string_buffer(size.value)
        make("image", self.held, text, size, size)
        return text.raw

    def register(self, number):
        value = c_uint32()
        make("register", self.held, number, value)
        return value.value

    def key(self, key):
        value = c_uint32()
        answer = make("key", self.held, key, value, wanted=(DONE, ABSENT))
        return value.value if answer == DONE else None

    def ticket(self, number):
        value = c_uint32()
        make("ticket", self.held, number, value)
        return value.value

    def last_reply(self, number):
        reply = Reply()
        make("last_reply", self.held, number, reply)
        return reply
