"""What the tests share. The last line that they write is 'N passed, M failed', and the status is 1 where one failed."""

import traceback
from concurrent.futures import ThreadPoolExecutor

passed = failed = 0


def check(what, got, wanted):
    global passed, failed
    if got == wanted:
        passed += 1
    else:
        failed += 1
        print(f"FAILED: {what}\n  got    {short(got)}\n  wanted {short(wanted)}")


def short(value):
    text = repr(value)
    return text if len(text) < 1000 else text[:500] + " .. " + text[-500:]


def raised(call):
    """The error that a call raises, or None."""
    try:
        call()
    except Exception as error:
        return error
    return None


def run(*parts):
    """Runs each part; one that ends in an error has failed. Gives the status."""
    global failed
    for part in parts:
        try:
            part()
        except Exception:
            failed += 1
            print(f"FAILED: {part.__name__}\n{traceback.format_exc()}")
    print(f"{passed} passed, {failed} failed")
    return failed != 0


def run_at_once(*calls, at_once=4):
    """The same for calls that give rows, each what `check` takes, as many calls at once. Gives the status."""
    with ThreadPoolExecutor(at_once) as pool:
        found = [pool.submit(lambda call=call: list(call())) for call in calls]
        return run(*[lambda rows=rows: [check(*row) for row in rows.result()] for rows in found])
