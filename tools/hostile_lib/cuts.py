"""Scripts cut after each of their bytes: the whole lines are answered, and a part of a line is not JSON."""
import json

from .script import Case

BLANKS = b" \t\r"


def groups(answers):
    """The answers, line by line of the script: a reply has what goes out behind it, and the answer to an info request
    stands alone."""
    made = []
    for line in answers.splitlines(keepends=True):
        if line.startswith(b"out ") and b'"msg_type":"comm_info_reply"' not in line:
            made[-1] += line
        else:
            made.append(line)
    return made


def is_object(line):
    try:
        return isinstance(json.loads(line), dict)
    except ValueError:
        return False


def cut(name, script, answers):
    """A case for each beginning of the script."""
    of_lines = iter(groups(answers))
    before, start = b"", 0
    for number, line in enumerate(script.splitlines(keepends=True), 1):
        body = line.rstrip(b"\n")
        own = next(of_lines) if body.strip(BLANKS) else b""
        for end in range(len(line)):
            part = body[:end]
            if part.strip(BLANKS) == body.strip(BLANKS):
                wanted = own
            elif part.strip(BLANKS):
                assert not is_object(part), f"{name}: line {number} has a part that is an object"
                wanted = b"bad %d not_json\n" % number
            else:
                wanted = b""
            yield Case(f"{name}, cut after {start + end} bytes", script[: start + end], before + wanted)
        before += own
        start += len(line)
    assert before == answers and next(of_lines, None) is None, f"{name}: as many answers as lines"
    yield Case(name, script, answers)


def cases(folder, names=()):
    for script in sorted(folder.glob("*.jsonl")):
        if not names or script.stem in names:
            yield from cut(script.stem, script.read_bytes(), script.with_suffix(".expected").read_bytes())
