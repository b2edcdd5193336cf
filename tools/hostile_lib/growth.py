"""Time and peak memory of longer and longer lines."""
import os
import subprocess
import tempfile
import time

from .buffers import listed
from .large import SHAPES, buffer
from .play import WAYS
from .script import msg, update, with_echo, with_widget

SIZES = (1, 4, 16, 64)  # MB


def shapes(size):
    """What is echoed: a line that is so long of each shape."""
    for name, shape in SHAPES.items():
        yield name, with_echo(), msg(f'{{"x":{shape(size)}}}').encode()
    yield "one buffer", with_echo(), msg("{}", f',"buffers":["{buffer(size)}"]').encode()
    yield "refused", with_echo(), b'{"x":' + b"[1]," * (size // 4)


def in_one_list(count, given):
    return update(f'{{"l":{listed(["0"] * count)}}}', listed(f'["l",{it}]' for it in range(count)), given)


def in_one_dict(count, given):
    return update('{"d":{}}', listed(f'["d","{it:07}"]' for it in range(count)), given)


def at_keys(count, given):
    return update("{}", listed(f'["{it:07}"]' for it in range(count)), given)


def at_one_place(count, given):
    return update("{}", listed(['["x"]'] * count), given)


PLACES = {
    "buffers placed in one list": in_one_list,
    "buffers placed in one dict of the state": in_one_dict,
    "buffers placed at keys of the state": at_keys,
    "buffers placed at one place": at_one_place,
}


def placed(size):
    """Updates of a widget, of lines that are so long, which place as many buffers of two bytes as go into them."""
    for name, at in PLACES.items():
        few = 10_000
        count = size * few // len(at(few, listed(['"AQI="'] * few)))
        yield name, with_widget(), at(count, listed(['"AQI="'] * count)).encode()


def scripts(size):
    yield from shapes(size)
    yield from placed(size)


def peak_of(process):
    """The most memory that the process had so far, in MB."""
    with open(f"/proc/{process.pid}/status") as status:
        told = next(line for line in status if line.startswith("VmHWM:"))
    return int(told.split()[1]) / 1024


def measured(words, start, line):
    """The CPU seconds that the line takes, and the peak memory: read once the whole line was answered, before the input
    ends."""
    with tempfile.TemporaryFile() as taken:
        process = subprocess.Popen(words, stdin=subprocess.PIPE, stdout=taken)
        process.stdin.write(b"\n".join(start.given) + b"\n" + line + b'\n{"call":"state","id":"zz"}\n')
        process.stdin.flush()
        while b" no_comm\n" not in end_of(taken):
            time.sleep(0.01)
        peak = peak_of(process)
        process.stdin.close()
        _, status, used = os.wait4(process.pid, 0)
        process.returncode = os.waitstatus_to_exitcode(status)
    assert process.returncode == 0
    return used.ru_utime + used.ru_stime, peak


def end_of(file):
    size = os.fstat(file.fileno()).st_size
    return os.pread(file.fileno(), 32, max(0, size - 32))


def least(words, start, line, repeats=3):
    """The least time and the least peak of three runs."""
    return [min(it) for it in zip(*(measured(words, start, line) for _ in range(repeats)))]


def row(name, cells, form):
    print(f"| {name} | {', '.join(format(it, form) for it in cells)} |", end="")


def told(program):
    """A table for each manager: a row for each shape, and in each cell the values of all sizes."""
    for way in WAYS:
        words, who = [program, *way], "over the shared manager" if way else "over that of one thread"
        print(f"\nLines of {', '.join(map(str, SIZES))} MB, {who}:\n")
        print("| Line | CPU ms a MB | peak memory, MB a MB |\n|---|---|---|")
        lines = {}
        for size in SIZES:
            for name, start, line in scripts(size << 20):
                lines.setdefault(name, []).append([it / size for it in least(words, start, line)])
        for name, cells in lines.items():
            row(name, [it[0] * 1000 for it in cells], ".1f")
            print(f" {', '.join(f'{it[1]:.1f}' for it in cells)} |", flush=True)
