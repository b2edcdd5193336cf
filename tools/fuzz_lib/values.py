"""Values that buffers are placed in and taken out of, by what docs/FORMATS.md says of buffers and paths. A buffer is
bytes, a number a Number."""
import base64

from .json_texts import Number


class Refused(Exception):
    """The words of a fault."""


def need(holds, words):
    if not holds:
        raise Refused(words)


def has_other_number(value):
    """Whether a number in it isn't whole."""
    if isinstance(value, dict):
        value = list(value.values())
    if isinstance(value, list):
        return any(has_other_number(it) for it in value)
    return isinstance(value, Number) and value.whole is None


def decoded(text):
    """The bytes of a base64 text, or None."""
    if not isinstance(text, str):
        return None
    try:
        found = base64.b64decode(text, validate=True)
    except ValueError:
        return None
    return found if base64.b64encode(found).decode() == text else None


def encoded(buffers):
    return [base64.b64encode(it).decode() for it in buffers]


def buffers_of(given):
    """The buffers of a line."""
    need(given is None or isinstance(given, list), "bad_content buffers")
    buffers = [decoded(it) for it in given or []]
    for number, it in enumerate(buffers):
        need(it is not None, f"bad_buffer {number}")
    return buffers


def step_of(value):
    """A key, an index, or None."""
    if isinstance(value, Number):
        return value.whole if value.whole is not None and value.whole >= 0 else None
    return value if isinstance(value, str) else None


def paths_of(given):
    need(given is None or isinstance(given, list), "bad_path 0")
    paths = []
    for number, it in enumerate(given or []):
        steps = [step_of(step) for step in it] if isinstance(it, list) else [None]
        need(None not in steps, f"bad_path {number}")
        paths.append(steps)
    return paths


def has_place(parent, step):
    if isinstance(step, str):
        return isinstance(parent, dict)
    return isinstance(parent, list) and step < len(parent)


def is_there(parent, step):
    return has_place(parent, step) and (isinstance(parent, list) or step in parent)


def copied(value):
    if isinstance(value, dict):
        return {key: copied(it) for key, it in value.items()}
    return [copied(it) for it in value] if isinstance(value, list) else value


def placed(state, given, buffers):
    """A copy of the state with the buffers at the paths that are given."""
    state = copied(state)
    for number, path in enumerate(paths_of(given)):
        need(number < len(buffers), f"buffer_missing {number}")
        need(path, f"bad_path {number}")
        parent = state
        for step in path[:-1]:
            need(is_there(parent, step), f"bad_path {number}")
            parent = parent[step]
        need(has_place(parent, path[-1]), f"bad_path {number}")
        parent[path[-1]] = buffers[number]
    return state


def members(value):
    """The keys or indexes of a value with what stands there, in order."""
    return sorted(value.items()) if isinstance(value, dict) else enumerate(value)


def places(value):
    """Each buffer in it, with its path, in order."""
    if isinstance(value, bytes):
        return [([], value)]
    if not isinstance(value, (dict, list)):
        return []
    return [([step, *path], it) for step, inner in members(value) for path, it in places(inner)]


def plain(value):
    """The value without its buffers: null in lists, and no key in dicts."""
    if isinstance(value, dict):
        return {key: plain(it) for key, it in value.items() if not isinstance(it, bytes)}
    if isinstance(value, list):
        return [None if isinstance(it, bytes) else plain(it) for it in value]
    return value


def separated(state):
    """The state without its buffers, their paths, and these."""
    found = places(state)
    return plain(state), [path for path, _ in found], [it for _, it in found]
