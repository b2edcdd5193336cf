"""Runs falsified on purpose: each function changes a true run, and says whether there was a place for it. Beside each
stands the rule that must find it."""
from copy import deepcopy

from together_lib.answers import written
from together_lib.edits import answer_of, comm_of, read_at, renumber, see, unmake
from together_lib.rules import READS


def one(chance, among):
    """One of these, or None."""
    among = list(among)
    return chance.choice(among) if among else None


def reads(run):
    return [it for it in run.answers if it.kind in READS]


def entries_swapped(run, asked, chance):
    at = chance.randrange(len(run.entries) - 1)
    run.entries[at : at + 2] = reversed(run.entries[at : at + 2])
    renumber(run)
    return True


def are_exchangeable(run, asked, first, second):
    """Whether two neighbours may change places for all that anybody saw, and would be answered otherwise then: the
    first opens or closes a comm, and the second is about it."""
    if (
        first.client == second.client
        or first.words not in (b"opened", b"closed")
        or comm_of(asked[first.line].line) is None
    ):
        return False
    if (
        comm_of(asked[first.line].line) != comm_of(asked[second.line].line)
        or answer_of(run, second).before >= first.number
    ):
        return False
    others = [it for it in run.answers if it.kind in READS or it.before != it.after]
    at_first = [it for it in run.answers if it.kind in READS and it.number == first.number]
    strangers = [
        it for it in others for entry in (first, second) if it.client != entry.client and it.before == entry.number
    ]
    return (
        not at_first
        and not strangers
        and not any(it.before == first.number and it.client != first.client for it in run.answers)
    )


def entries_swapped_throughout(run, asked, chance):
    pairs = [it for it in zip(run.entries, run.entries[1:]) if are_exchangeable(run, asked, *it)]
    pair = one(chance, pairs)
    if pair is None:
        return False
    first, second = (answer_of(run, it) for it in pair)
    entries_at = first.number - 1
    first.number, second.number = second.number, first.number
    see(run, first, first.number)
    see(run, second, second.number)
    run.entries[entries_at : entries_at + 2] = pair[1], pair[0]
    renumber(run)
    return True


def entry_lost(run, asked, chance):
    run.entries.remove(chance.choice(run.entries))
    return True


def entry_lost_and_renumbered(run, asked, chance):
    entry_lost(run, asked, chance)
    renumber(run)
    run.taken = len(run.entries) + 1 - run.untaken
    return run.taken >= 0


def change_lost(run, asked, chance):
    entry = chance.choice(run.entries)
    run.answers.remove(answer_of(run, entry))
    run.entries.remove(entry)
    return True


def change_told_unavailable(run, asked, chance):
    unmake(run, chance.choice(run.entries), "unavailable", b"history_full")
    return True


def stock_told_empty(run, asked, chance):
    """A register, whose target is left then."""
    entry = one(chance, (it for it in run.entries if asked[it.line].registers))
    if entry is None:
        return False
    unmake(run, entry, "bad", b"no_stock")
    return True


def entry_doubled(run, asked, chance):
    at = chance.randrange(len(run.entries))
    run.entries.insert(at, deepcopy(run.entries[at]))
    return True


def entry_doubled_and_renumbered(run, asked, chance):
    entry_doubled(run, asked, chance)
    renumber(run)
    run.taken = len(run.entries) + 1 - run.untaken
    return True


def read_back_behind_seen(run, asked, chance):
    it = one(chance, (it for it in reads(run) if 0 < it.number == it.before))
    if it is None:
        return False
    read_at(run, it, it.number - 1)
    return True


def shows(it, entry, asked):
    """Whether what a read gives at the front that the entry ends is another than before it, by what the entry says of
    itself."""
    if it.kind == "info":
        is_of_all = (asked[it.line].line.fields.get("content") or {}).get("target_name") is None
        return is_of_all and entry.words in (b"opened", b"launched", b"closed")
    return entry.words in (b"opened", b"closed") and comm_of(asked[entry.line].line) == comm_of(asked[it.line].line)


def read_back_by_one_front(run, asked, chance):
    it = one(
        chance, (it for it in reads(run) if it.before < it.number and shows(it, run.entries[it.number - 1], asked))
    )
    if it is None:
        return False
    read_at(run, it, it.number - 1)
    return True


def reply_of_another_call(run, asked, chance):
    entry = chance.choice(run.entries)
    other = one(chance, (it for it in run.entries if it.words != entry.words))
    entry.words = answer_of(run, entry).words = other.words
    return True


def line_told_reply_of_another_call(run, asked, chance):
    entry = chance.choice(run.entries)
    answer_of(run, entry).words = one(chance, (it for it in run.entries if it.words != entry.words)).words
    return True


def messages_of_another_call(run, asked, chance):
    entry = one(chance, (it for it in run.entries if it.outs))
    other = entry and one(chance, (it for it in run.entries if it.outs != entry.outs))
    if other is None:
        return False
    entry.outs = list(other.outs)
    return True


def message_lost(run, asked, chance):
    entry = one(chance, (it for it in run.entries if it.outs))
    if entry is None:
        return False
    entry.outs.pop()
    return True


def read_of_another_comm(run, asked, chance):
    it = chance.choice([it for it in reads(run) if it.kind == "state"])
    other = one(chance, (other for other in reads(run) if other.kind == "state" and other.words != it.words))
    if other is None:
        return False
    it.words = other.words
    return True


def answer_lost(run, asked, chance):
    run.answers.remove(one(chance, (it for it in run.answers if it.kind != "reply")))
    return True


def answer_doubled(run, asked, chance):
    at = chance.randrange(len(run.answers))
    run.answers.insert(at, deepcopy(run.answers[at]))
    return True


def answer_of_another_client(run, asked, chance):
    it = chance.choice(run.answers)
    it.client = one(chance, {other.client for other in run.answers} - {it.client})
    run.answers.sort(key=lambda it: (it.client, it.line))
    return True


def answers_out_of_order(run, asked, chance):
    at = chance.randrange(len(run.answers) - 1)
    run.answers[at : at + 2] = reversed(run.answers[at : at + 2])
    return True


def bad_words_changed(run, asked, chance):
    it = one(chance, (it for it in run.answers if asked[it.line].is_bad))
    if it is None:
        return False
    it.words = b"not_json" if it.words != b"not_json" else b"bad_client"
    return True


def change_told_bad(run, asked, chance):
    entry = one(chance, (it for it in run.entries if not asked[it.line].registers))
    unmake(run, entry, "bad", b"no_stock")
    return True


def read_told_as_change(run, asked, chance):
    it = chance.choice(reads(run))
    it.kind = "reply"
    return True


def seen_shorter(run, asked, chance):
    """Where something was heard, one less may have been heard as well."""
    pairs = zip(run.answers, run.answers[1:])
    it = one(chance, (it for last, it in pairs if last.client == it.client and 0 < it.before == last.after))
    it.before -= 1
    return True


def change_before_what_was_seen(run, asked, chance):
    """A read gives the front of the change that its client makes next."""
    pairs = [
        it
        for it in zip(run.answers, run.answers[1:])
        if it[0].client == it[1].client and it[0].kind in READS and it[1].kind == "reply"
    ]
    pair = one(chance, (it for it in pairs if it[1].before == it[0].after))
    if pair is None:
        return False
    read_at(run, pair[0], pair[1].number)
    return True


def seen_of_nobody(run, asked, chance):
    """More is seen before a read, and nobody was heard."""
    it = one(chance, (it for it in reads(run) if it.before < it.number and asked[it.line].heard is None))
    if it is None:
        return False
    it.before = it.number
    return True


def heard_of_a_third(run, asked, chance):
    """What a client heard isn't the heard one's."""
    it = one(
        chance,
        (
            it
            for it in run.answers
            if asked[it.line].heard is not None and it.before < it.after - 1 and it.kind in ("reply", *READS)
        ),
    )
    number = it and one(
        chance,
        (
            entry.number
            for entry in run.entries
            if it.before < entry.number < it.after and entry.client != asked[it.line].heard
        ),
    )
    if number is None:
        return False
    it.before = number
    return True


def calls_exchanged(run, asked, chance):
    first = chance.choice(run.entries)
    second = one(chance, (it for it in run.entries if it.client == first.client and it is not first))
    first.call, second.call = second.call, first.call
    return True


def lines_exchanged(run, asked, chance):
    """Two changes of one client stand in the other order."""
    first = chance.choice(run.entries)
    second = one(chance, (it for it in run.entries if it.client == first.client and it is not first))
    one_answer, other = answer_of(run, first), answer_of(run, second)
    first.line, second.line = second.line, first.line
    for key in ("number", "words", "before", "after"):
        mine, its = getattr(one_answer, key), getattr(other, key)
        setattr(one_answer, key, its)
        setattr(other, key, mine)
    return True


def one_more_taken(run, asked, chance):
    run.taken += 1
    return True


def end_taken(run, asked, chance):
    run.taken, run.untaken = len(run.entries) + 1, 0
    return True


WAYS = {
    entries_swapped: "entries",
    entries_swapped_throughout: "replay",
    entry_lost: "entries",
    entry_lost_and_renumbered: "entries",
    change_lost: "lines",
    change_told_unavailable: "unavailable",
    change_told_bad: "bad",
    stock_told_empty: "stock",
    entry_doubled: "entries",
    entry_doubled_and_renumbered: "entries",
    read_back_behind_seen: "seen",
    read_back_by_one_front: "read",
    read_of_another_comm: "read",
    read_told_as_change: "kind",
    reply_of_another_call: "replay",
    line_told_reply_of_another_call: "entries",
    messages_of_another_call: "replay",
    message_lost: "replay",
    answer_lost: "lines",
    answer_doubled: "lines",
    answer_of_another_client: "lines",
    answers_out_of_order: "lines",
    bad_words_changed: "bad",
    seen_shorter: "seen",
    change_before_what_was_seen: "order",
    seen_of_nobody: "heard",
    heard_of_a_third: "heard",
    calls_exchanged: "calls",
    lines_exchanged: "calls",
    one_more_taken: "end",
    end_taken: "end",
}


def texts(run, asked, chance):
    """Of each way that has a place in this run: its name, the rule that must find it, and what such a run would have
    written."""
    for way, rule in WAYS.items():
        changed = deepcopy(run)
        if way(changed, asked, chance):
            yield way.__name__, rule, written(changed)
    text = written(run)
    yield "cut_off", "form", text[: chance.randrange(len(text))]
    yield "more_at_the_end", "form", text + b"taken 0 untaken 0\n"


NAMES = {way.__name__ for way in WAYS} | {"cut_off", "more_at_the_end"}
