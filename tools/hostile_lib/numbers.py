"""Numbers at every bound: whole ones, others that a float can hold, and what is no number or none that a float can
hold. A number that lies nearer to the greatest float than to what would come next is held by it:
1.7976931348623158e308, and not 1.7976931348623159e308."""
from .script import WIDGETS, Script, close, message, msg, of_state, update, with_echo, with_widget

MOST = 2**64 - 1
LEAST = -(2**63)


def whole():
    """Whole numbers around each bound, as they are written."""
    near = [2**n for n in (7, 8, 15, 16, 31, 32, 52, 53, 54, 62, 63, 64)] + [10**n for n in range(20)]
    made = {sign * it + by for it in near for sign in (1, -1) for by in (-1, 0, 1)} | {0, MOST, LEAST}
    return [str(it) for it in sorted(made) if LEAST <= it <= MOST]


FLOATS = """
18446744073709551616 -9223372036854775809 36893488147419103232 99999999999999999999 123456789012345678901234567890 -0
-0.0 0.0 1.0 -1.0 1.5
0.1 10.0 1e0 1E0 1e2 1E2 1e+2 1e-2 1E+02 0e0 0e1 0E-1 0e99999999999 -0e0 -0e400 1e15 1e19 1e20 1e308 -1e308 1.7e308
1.7976931348623157e308 1.7976931348623158e308
5e-324 2.2250738585072014e-308 1e-400 -1e-400 1e-99999999999 0.00000000000000000001 9007199254740993.0
18446744073709551615.0
-9223372036854775808.0 18446744073709551615e0 0.9999999999999999999999999999999999999999
""".split()
FLOATS += [
    "1" + "0" * 308,
    "0." + "0" * 400 + "1",
    "1" + "0" * 400 + "e-400",
    "0." + "0" * 400 + "1e400",
    "1." + "5" * 1000,
]

NEITHER = """
1e400 -1e400 1e309 2e308 -2e308 1.7976931348623159e308 1e99999999999 1e999999999999999999999999 01 -01 00 -00 000 01.5
1. -1. .5 -.5 - -- +1 +0 -+1 --1 1.e2 1e 1E 1e+ 1e-
1e+-2 1e.5 1.5.5 1..5 1e5e5 1e5.5 0x10 0b1 0o7 1_000 1,000.0 1f 1u 1n 1l 0x 1a Infinity -Infinity NaN nan inf -inf -
1- 1+ 1/2 ٣ ½ ∞ −1
""".split() + [
    "1 2",
    "1 000",
    "- 1",
    "1 .5",
    "1. 5",
    "1 e5",
    "1e 5",
    "1" + "0" * 400,
    "9" * 400 + ".5",
    "1" * 400 + "e10",
]


def in_data():
    script = with_echo()
    for it in whole():
        script.echoes(f'{{"n":{it},"l":[{it}, {it}\t]}}', f'{{"l":[{it},{it}],"n":{it}}}')
    for it in FLOATS:
        script.bad(msg(f'{{"n":{it}}}'), "not_whole")
        script.bad(msg(f'{{"n":{{"l":[1,{it}]}}}}'), "not_whole")
    for it in NEITHER:
        script.bad(msg(f'{{"n":{it}}}'), "not_json")
        script.bad(msg(f'{{"l":[{it}]}}'), "not_json")
    return script.case("numbers in data")


def in_states(widgets):
    script = with_widget(kind=widgets)
    for it in whole():
        script.updates(f'{{"k":{it}}}')
        script.state(of_state(f'{{"k":{it}}}'))
        script.change(f'{{"call":"push","id":"a","state":{{"k":[{it}]}}}}', "delivered")
        script.sends("comm_msg", "a", f'{{"buffer_paths":[],"method":"update","state":{{"k":[{it}]}}}}')
    for it in FLOATS:
        script.bad(update(f'{{"k":{it}}}'), "not_whole")
        script.bad(f'{{"call":"push","id":"a","state":{{"k":{it}}}}}', "not_whole")
        script.bad(f'{{"call":"push","id":"a","buffer_paths":[["k",{it}]]}}', "not_whole")
        script.bad(f'{{"call":"send","id":"a","data":{{"k":{it}}}}}', "not_whole")
    script.requested(f'{{"k":[{whole()[-1]}]}}')
    return script.case("numbers in states")


def elsewhere():
    """A number that nobody reads may have a fraction, but no line has one that no float can hold."""
    script = with_echo()
    for it in whole() + FLOATS:
        script.change(message("comm_close", f'"comm_id":"q","data":{{"n":{it}}}'), "no_comm")
        script.change(
            message("comm_close", f'"comm_id":"q","x":{it}', f',"x":[{it}],"metadata":{{"version":{it}}}'), "no_comm"
        )
        script.add(f'{{"call":"state","id":"q","data":{it},"name":{it}}}', f"state {script.changes} no_comm")
        script.bad(message("comm_close", f'"comm_id":{it}'), "bad_content comm_id")
        script.bad(f'{{"call":{it}}}', "unknown_call")
        script.bad(it, "not_json")
    for it in NEITHER:
        script.bad(message("comm_close", '"comm_id":"q"', f',"x":{it}'), "not_json")
        script.bad(f'{{"call":"state","id":"q","x":{it}}}', "not_json")
        script.bad(it, "not_json")
    return script.case("numbers elsewhere")


def of_clients():
    script = Script()
    for it in ("0", "1", "2", "3"):
        script.change(close("q")[:-1] + f',"client":{it}}}', "no_comm", client=int(it))
    script.change(close("q")[:-1] + ',"client":null}', "no_comm")
    odd = [it for it in whole() if it not in "0 1 2 3".split()] + FLOATS + ['"0"', "true", "false", "[]", "{}", "[0]"]
    for it in odd:
        script.bad(close("q")[:-1] + f',"client":{it}}}', "bad_client")
        script.bad(f'{{"client":{it},"call":"state","id":"q"}}', "bad_client")
    return script.case("numbers of clients")


def of_steps(widgets):
    """An index of a path: whole numbers from 0 up are steps, and only those below the list's length lead anywhere."""
    script = with_widget(kind=widgets)
    placed = {"0": '{"l":[null,5]}', "1": '{"l":[null,null]}'}
    for it in whole():
        path, buffer = f'[["l",{it}]]', '["AQI="]'
        if it in placed:
            script.updates('{"l":[null,5]}', path, buffer, told=(placed[it], path, buffer))
        else:
            script.change(update('{"l":[null,5]}', path, buffer), "fault bad_path 0")
    for it in FLOATS:
        script.bad(update('{"l":[null,5]}', f'[["l",{it}]]', '["AQI="]'), "not_whole")
    script.state(of_state('{"k":1,"l":[null,null]}', '[["l",1]]', '["AQI="]'))
    return script.case("numbers of steps")


def cases():
    return [in_data(), elsewhere(), of_clients()] + [
        make(widgets) for make in (in_states, of_steps) for widgets in WIDGETS
    ]
