"""bank.py: the bank of bank.c in Python. What it prints is the same."""
from concurrent.futures import ThreadPoolExecutor
from contextlib import ExitStack

from onefile import CAUSE_SHORT, STOPPED, Caller, Memory, Saved, name

CALLERS, EACH, CALLS = 4, 1000, 2000


def work(own):
    """A caller moves 1 from its register to the next one, again and again."""
    script = f"sub {own.number} 1; add {(own.number + 1) % CALLERS} 1"
    for _ in range(CALLS):
        if own.call(script).cause not in (0, CAUSE_SHORT):
            raise ValueError("cause")


def sum_of(saved):
    return sum(saved.register(i) for i in range(CALLERS))


def enrol_all(stack, bank):
    return [stack.enter_context(Caller(bank, i)) for i in range(CALLERS)]


def first_life():
    """Four threads move money, and caller 3 is stopped. Gives the image of what is left."""
    bank = Memory(CALLERS, 16)
    with ExitStack() as stack:
        callers = enrol_all(stack, bank)
        callers[0].call("; ".join(f"store {i} {EACH}" for i in range(CALLERS)))
        with ThreadPoolExecutor(CALLERS) as pool:
            list(pool.map(work, callers))
        print(f"{CALLERS * CALLS} calls of {CALLERS} threads")
        reply = callers[3].call("put 7 70; push 2 5; len 2", steps=12, wanted=STOPPED)
        print(f"caller 3: {name(STOPPED)} at step {reply.steps}")
        callers[0].call("add 9 1")
    left = bank.close()
    print(f"the sum is {sum_of(left)}")
    return left.image()


def second_life(image):
    """Goes on from the image, and asks what the last call of caller 3 came to."""
    before = Saved(image)
    bank = Memory(saved=before)
    last = before.last_reply(3)
    print(f"caller 3: call {last.ticket} was answered, and the queue has {last.answers()[2]}")
    with ExitStack() as stack:
        callers = enrol_all(stack, bank)
        value, item = callers[3].call("get 7; pop 2").answers()
        print(f"key 7 has {value}, and the queue had {item}")
    left = bank.close()
    print(f"caller 3 has made {left.ticket(3)} calls")
    print(f"the sum is {sum_of(left)}")


if __name__ == "__main__":
    second_life(first_life())
