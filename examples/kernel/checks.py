"""What the tests share. The last line that they write is 'N passed, M failed'."""

passed = failed = 0


def check(what, got, wanted):
    global passed, failed
    if got == wanted:
        passed += 1
    else:
        failed += 1
        print(f"FAILED: {what}\n  got    {got!r}\n  wanted {wanted!r}")


def counted():
    """Tells the counts; the status of the tests."""
    print(f"{passed} passed, {failed} failed")
    return failed != 0
