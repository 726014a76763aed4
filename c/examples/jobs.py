"""jobs.py: the job queue of jobs.c in Python. What it prints is the same."""
from concurrent.futures import ThreadPoolExecutor
from contextlib import ExitStack

from onefile import STOPPED, Caller, Memory, Saved

WORKERS, JOBS, EACH = 4, 200, 30


def result_of(job):
    return job * job + 1


def next_script(worker, job):
    """One call that ends a job and takes the next."""
    return f"put {job} {result_of(job)}; add {worker} 1; pop 0"


def job_of(reply):
    """The job that a call took, or None: its last instruction is the `pop`."""
    return reply.answers()[-1]


def work(own, job, most):
    """Does so many jobs at most, and first the one that the worker has, if any. Gives the one that
    it has then."""
    if job is None:
        job = job_of(own.call("pop 0"))
    for _ in range(most):
        if job is None:
            break
        reply = own.call(next_script(own.number, job))
        if reply.cause or reply.given[0]:
            raise ValueError(f"job {job} was done before")
        job = job_of(reply)
    return job


def work_and_stop(own):
    """Does jobs; worker 3 is stopped in the call that would end its last one."""
    if own.number != 3:
        work(own, None, EACH)
        return
    job = work(own, None, EACH - 1)
    own.call(next_script(own.number, job), steps=12, wanted=STOPPED)


def enrol_all(stack, memory):
    return [stack.enter_context(Caller(memory, i)) for i in range(WORKERS)]


def jobs_done(saved):
    """How many jobs have their result."""
    return sum(saved.key(job) == result_of(job) for job in range(1, JOBS + 1))


def jobs_counted(saved):
    """How many jobs the workers have counted."""
    return sum(saved.register(i) for i in range(WORKERS))


def first_life():
    """Some jobs are done, and worker 3 is stopped. Gives the image of what is left."""
    memory = Memory(WORKERS, JOBS)
    with ExitStack() as stack:
        callers = enrol_all(stack, memory)
        for job in range(1, JOBS + 1):
            callers[0].call(f"push 0 {job}")
        with ThreadPoolExecutor(WORKERS) as pool:
            list(pool.map(work_and_stop, callers))
    left = memory.close()
    print(f"{JOBS} jobs, and worker 3 was stopped")
    once = jobs_done(left) == jobs_counted(left)
    print("those that are done:", "each once" if once else "not each once")
    return left.image()


def second_life(image):
    """Goes on from the image: each worker asks which job it has."""
    before = Saved(image)
    memory = Memory(saved=before)
    jobs = [job_of(before.last_reply(i)) for i in range(WORKERS)]
    with ExitStack() as stack:
        callers = enrol_all(stack, memory)
        with ThreadPoolExecutor(WORKERS) as pool:
            list(pool.map(lambda own: work(own, jobs[own.number], JOBS), callers))
    left = memory.close()
    print(f"{jobs_done(left)} jobs are done, and {jobs_counted(left)} were counted")


if __name__ == "__main__":
    second_life(first_life())
