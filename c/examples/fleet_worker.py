"""fleet_worker.py: a worker of fleet.c in Python: fleet_worker.py PATH NUMBER. It may be killed at
any moment; the next worker of its number goes on."""
import sys
import time

from onefile import Caller, Memory

CALLERS, BLOCKS = 5, 440
WAITING, CLAIM, RESULT = 1, 2000, 3000  # values and keys
DONE_COUNT, OVER, CAME, DID = 0, 1, 2, 7  # registers; of the last two each worker has one


def answer_to(own, instruction):
    return own.call(instruction).answers()[0]


def claim_job(own):
    """Claims the least job that waits, if there is one."""
    while (job := answer_to(own, "first")) is not None and job < CLAIM:
        script = f"need {job} {WAITING}; del {job}; put {CLAIM + own.number} {job}"
        if own.call(script).cause == 0:
            return job
    return None


def do_job(own, job):
    time.sleep(0.004)  # the work
    claim, result = CLAIM + own.number, job * job + 1
    ends = f"add {DONE_COUNT} 1; add {DID + own.number} 1; put {RESULT + job} {result}"
    reply = own.call(f"need {claim} {job}; del {claim}; {ends}")
    if reply.cause or reply.given[4]:
        raise ValueError(f"job {job} was done before")


def work(own):
    own.go_on()
    own.call(f"add {CAME + own.number} 1")
    job = answer_to(own, f"get {CLAIM + own.number}")  # that the dead one had claimed
    while job is not None or answer_to(own, f"load {OVER}") == 0:
        if job is not None:
            do_job(own, job)
        else:
            time.sleep(0.0005)
        job = claim_job(own)


memory = Memory(CALLERS, BLOCKS, path=sys.argv[1], shared=True)
with Caller(memory, int(sys.argv[2])) as caller:
    work(caller)
memory.detach()
