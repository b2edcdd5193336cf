"""A script made small: lines are taken out, then bytes, as long as those who play it still differ."""


def without(parts, keeps):
    """Takes out as many parts as it can, in pieces that become shorter."""
    size = max(1, len(parts) // 2)
    while True:
        at, is_changed = 0, False
        while at < len(parts):
            fewer = parts[:at] + parts[at + size :]
            if keeps(fewer):
                parts, is_changed = fewer, True
            else:
                at += size
        if size == 1 and not is_changed:
            return parts
        size = max(1, size // 2)


def smallest(script, differ, most=4000):
    """Of scripts that still differ, one from which nothing can be taken; each try is a play, and there are so many at
    most."""
    left = [most]

    def keeps(candidate):
        left[0] -= 1
        return left[0] > 0 and differ(candidate)

    if not differ(script):  # it differed once, and not again
        return script
    lines = without(script.splitlines(keepends=True), lambda it: keeps(b"".join(it)))
    for number in range(len(lines)):
        line = [lines[number][at : at + 1] for at in range(len(lines[number]))]
        before, behind = b"".join(lines[:number]), b"".join(lines[number + 1 :])
        lines[number] = b"".join(without(line, lambda it: keeps(before + b"".join(it) + behind)))
    return b"".join(lines)
