#!/usr/bin/env python3
"""Writers beside readers of the shared manager, on the program and on the peer in plain Rust in five ways, in turn.

bench/threads.py load_generator [--quick] [--changes N] [--repeats N] [--only 1+3,info]
bench/threads.py --library bench_clients [--changes N] [--repeats N] [--only 0+4]

With --library the program calls the library for C by clients, and the peers take and give states as JSON texts, as it
has to: also readers alone, for half a second, and three times as many threads as there are processors.

For each arrangement: changes and reads a second, in thousands, the middle of the repeats; and the program's over those
of the peer that is best there, the middle of the ratios of each repeat, with the least and the greatest. `mutex again`
is the same peer a second time: its ratio to itself shows the noise. It stops at a run whose counts don't add up."""
import argparse
import json
import os
import statistics
import subprocess
import sys

sys.dont_write_bytecode = True

import build  # noqa: E402

WAYS = ["mutex", "rwlock", "leftright", "arcswap", "slots"]
KEYS = 23
MILLISECONDS = 500  # of readers alone
ARRANGEMENTS = [  # writers, readers, what they read, comms
    *((1, 0, "none", 50), (1, 0, "none", 1000), (1, 0, "none", 4000), (4, 0, "none", 1000)),
    *((1, 1, "state", 1000), (1, 3, "state", 50), (1, 3, "state", 1000), (1, 3, "state", 4000)),
    *((2, 2, "state", 1000), (3, 1, "state", 1000), (1, 1, "info", 1000), (1, 3, "info", 50)),
    *((1, 3, "info", 1000), (1, 3, "info", 4000), (2, 2, "info", 1000)),
]
QUICK = [(1, 0, "none", 1000), (4, 0, "none", 1000), (1, 3, "state", 1000), (2, 2, "state", 1000), (1, 3, "info", 1000)]
PROCESSORS = len(os.sched_getaffinity(0))
LIBRARY = [
    *((1, 0, "none", 1000), (PROCESSORS, 0, "none", 1000), (0, 1, "state", 1000), (0, PROCESSORS, "state", 1000)),
    *((1, PROCESSORS - 1, "state", 1000), (1, PROCESSORS - 1, "info", 1000)),
    *((PROCESSORS, 2 * PROCESSORS, "state", 1000), (1, 3 * PROCESSORS - 1, "state", 1000)),
]
FIELDS = ["changes", "reads", "history", "taken", "untaken", "sum", "ns"]
FIELDS_OF_C = ["changes", "reads", "ns"]


def info_text(comms):
    """What a peer says of its comms."""
    told = {f"c{comm:04}": {"target_name": "jupyter.widget"} for comm in range(comms)}
    return json.dumps({"comms": told}, separators=(",", ":"))


def amiss(told, arrangement, changes, with_texts):
    """Which counts of a run don't add up."""
    writers, readers, read, comms = arrangement
    made = changes // writers * writers if writers else 0
    if list(told) == FIELDS_OF_C:  # the library's history is in proofs alone
        holds = {"changes": told["changes"] == made, "reads": (told["reads"] > 0) == (readers > 0)}
        return [what for what, is_so in holds.items() if not is_so]
    of_info = len(info_text(comms)) if with_texts else 5 * comms
    sums = {"info": told["sum"] == of_info * told["reads"], "state": told["sum"] >= told["reads"]}
    holds = {
        "changes": told["changes"] == made,
        "history": told["history"] - made - comms - 1 in (0, 1),  # a register and the opens; the end is an entry
        "taken and untaken": told["taken"] + told["untaken"] == told["history"],
        "reads": readers or told["reads"] == 0,
        "sum": sums.get(read, told["sum"] == 0),
    }
    return [what for what, is_so in holds.items() if not is_so]


def played(player, arrangement, changes):
    """Thousands of changes and of reads a second, of one run. A player's words stand before and behind the numbers."""
    words, behind = player
    writers, readers, read, comms = arrangement
    work = changes if writers else MILLISECONDS
    words = [*words, *map(str, (writers, readers, work, comms, KEYS, read)), *behind]
    told = json.loads(subprocess.run(words, stdout=subprocess.PIPE, check=True).stdout)
    wrong = amiss(told, arrangement, changes, bool(behind)) if list(told) in (FIELDS, FIELDS_OF_C) else ["keys"]
    if wrong:
        raise SystemExit(f"{' '.join(words)}: wrong {', '.join(wrong)} in {told}")
    return {what: told[what] / told["ns"] * 1e6 for what in ("changes", "reads")}


def middle(rates):
    return f"{statistics.median(rates):,.0f}"


def ratio(rates, others):
    each = [one / other for one, other in zip(rates, others)]
    return f"{statistics.median(each):.2f} ({min(each):.2f} to {max(each):.2f})"


def measured(players, arrangement, changes, repeats):
    """Of each player the runs of an arrangement, all in turn."""
    runs = {who: [] for who in players}
    for turn in range(repeats):
        order = list(players)[turn % len(players) :] + list(players)[: turn % len(players)]
        for who in order:
            runs[who].append(played(players[who], arrangement, changes))
    return runs


def rows(runs, arrangement):
    """The lines of the table for an arrangement."""
    writers, readers, read, comms = arrangement
    for what in ["changes"] * (writers > 0) + ["reads"] * (readers > 0):
        rates = {who: [run[what] for run in each] for who, each in runs.items()}
        best = max(WAYS, key=lambda way: statistics.median(rates[way]))
        cells = [middle(rates[who]) for who in ("program", *WAYS)]
        cells += [f"{ratio(rates['program'], rates[best])} of {best}", ratio(rates["mutex again"], rates["mutex"])]
        yield f"| {writers} + {readers} | {read} | {comms:,} | {what} | {' | '.join(cells)} |"


def options():
    made = argparse.ArgumentParser(description=__doc__, formatter_class=argparse.RawDescriptionHelpFormatter)
    made.add_argument("program", help="the built load_generator, or bench_clients")
    made.add_argument("--library", action="store_true", help="the arrangements for the library for C")
    made.add_argument("--quick", action="store_true", help="five arrangements, half the changes, three repeats")
    made.add_argument("--changes", type=int)
    made.add_argument("--repeats", type=int)
    made.add_argument("--only", metavar="1+3,info", help="the arrangements that have each of these")
    return made.parse_args()


def main():
    asked = options()
    changes = asked.changes or (10_000 if asked.quick else 20_000)
    repeats = asked.repeats or (3 if asked.quick else 9)
    wanted = set(asked.only.split(",")) if asked.only else set()
    peer = str(build.program("thread_peer"))
    behind = ["texts"] if asked.library else []
    peers = {way: ([peer, way], behind) for way in WAYS}
    players = {"program": ([asked.program], []), **peers, "mutex again": peers["mutex"]}
    print(f"{changes:,} changes a run, {KEYS} keys a state, {repeats} repeats; thousands a second\n")
    head = ["writers + readers", "read", "comms", "", "program", *WAYS, "program ÷ best", "mutex again ÷ mutex"]
    print(f"| {' | '.join(head)} |\n|{'---|' * len(head)}")
    for arrangement in LIBRARY if asked.library else QUICK if asked.quick else ARRANGEMENTS:
        writers, readers, read, comms = arrangement
        if wanted <= {f"{writers}+{readers}", read, str(comms)}:
            for line in rows(measured(players, arrangement, changes, repeats), arrangement):
                print(line, flush=True)


if __name__ == "__main__":
    main()
