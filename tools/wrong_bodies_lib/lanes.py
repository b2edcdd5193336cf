"""Work side by side, as far as processors and memory allow."""
import time
from concurrent.futures import FIRST_COMPLETED, ThreadPoolExecutor, wait
from dataclasses import dataclass
from typing import Callable

SHARE = 0.85
SPARE = 500_000_000


@dataclass
class Job:
    """Something to run, with the memory that it may take; what it gives are the jobs that can come after it."""

    run: Callable[[], list]
    memory: int
    may_wait: bool = False


def fits(job, running, total, free):
    """Whether a job may start beside those that run: by what they may take together, and by what is free now."""
    held = sum(it.memory for it in running)
    return not running or (held + job.memory <= SHARE * total and job.memory + SPARE <= free)


def in_lanes(jobs, count, free, deadline=None, last=None):
    """Runs the jobs in order, each as soon as it fits. Of those that may wait, none starts after the deadline, and none
    at all after the last moment; returns what was left."""
    left, running, total = list(jobs), {}, free()
    late = []
    with ThreadPoolExecutor(count) as pool:
        while left or running:
            if deadline is not None and time.monotonic() > deadline:
                late += [it for it in left if it.may_wait]
                left = [it for it in left if not it.may_wait]
            if last is not None and time.monotonic() > last:
                late, left = late + left, []
            for job in list(left):
                if len(running) < count and fits(job, running.values(), total, free()):
                    left.remove(job)
                    running[pool.submit(job.run)] = job
            done = wait(running, timeout=2, return_when=FIRST_COMPLETED).done
            for it in done:
                running.pop(it)
                # what comes next goes first, so that a crate's kept work isn't held longer than it must
                left = it.result() + left
    return late
