"""Buffers and their paths: base64 that is none, every byte, very many buffers, and paths that are long or lead
nowhere."""
import base64

from .script import WIDGETS, msg, of_state, update, widget_open, with_echo, with_widget

MANY = 10_000
STEPS = 100_000
FAR = 100_001

# RFC 4648, section 4: with padding, no other letters, no blanks, no bits left over.
NO_BASE64 = """
A AQ AQI AQ= AQI AQID= AQI== A=== ==== = == AQ=I =AQI A=QI AQ==AQ== AQI=AQI= AQ==== AQIDA AR== AQJ= AQIDAR== AQ-_ AQ_I
AQ-I AQ*= AQ:I é
""".split() + [
    " ",
    "AQI= ",
    " AQI=",
    "AQ I=",
    "AQI=\\n",
    "AQ\\r\\nI=",
    "\\u0000",
    "AQI\\u0000",
    "AQI=\\u0000",
    "AQI\\u003d=",
    "AQI\\t",
]


def encoded(given):
    return f'"{base64.b64encode(given).decode()}"'


def listed(items):
    return "[" + ",".join(items) + "]"


def bases():
    script = with_echo()
    for it in NO_BASE64:
        script.bad(msg("{}", f',"buffers":["{it}"]'), "bad_buffer 0")
        script.bad(msg("{}", f',"buffers":["AQI=","","{it}",7]'), "bad_buffer 2")
        script.bad(f'{{"call":"send","id":"a","buffers":["AQI=","{it}"]}}', "bad_buffer 1")
    for it in ("7", "null", "true", "[]", "{}", '["AQI="]'):
        script.bad(msg("{}", f',"buffers":["AQI=",{it}]'), "bad_buffer 1")
    for given, wanted in (
        ("AQI\\u003d", "AQI="),
        ("\\u0041QI=", "AQI="),
        ("\\/w==", "/w=="),
        ("", ""),
        ("++++", "++++"),
        ("////", "////"),
        ("AA==", "AA=="),
        ("/w==", "/w=="),
    ):
        script.echoes("{}", "{}", f',"buffers":["{given}"]', f'["{wanted}"]')
    every = (
        [encoded(bytes([it])) for it in range(256)]
        + [encoded(bytes(range(it))) for it in range(257)]
        + [encoded(bytes([255] * it)) for it in range(9)]
    )
    script.echoes("{}", "{}", f',"buffers":{listed(every)}', listed(every))
    return script.case("base64")


def many(widgets):
    """So many buffers, each at a path of its own, in a list and in dicts; one too few; and one that doesn't decode,
    last."""
    given = [encoded(it.to_bytes(3, "big")) for it in range(MANY)]
    script = with_widget(kind=widgets)
    in_list = listed(f'["l",{it}]' for it in range(MANY))
    nulls = listed(["null"] * MANY)
    script.updates(f'{{"l":{nulls}}}', in_list, listed(given))
    script.state(of_state(f'{{"k":1,"l":{nulls}}}', in_list, listed(given)))
    script.change(update(f'{{"l":{nulls}}}', in_list, listed(given[:-1])), f"fault buffer_missing {MANY - 1}")
    script.bad(update(f'{{"l":{nulls}}}', in_list, listed([*given[:-1], '"A"'])), f"bad_buffer {MANY - 1}")
    script.updates(f'{{"l":{nulls}}}', in_list[:-1] + ',["l"]]', listed([*given, '""']), told=("{}", '[["l"]]', '[""]'))
    script.state(of_state('{"k":1}', '[["l"]]', '[""]'))
    script.updates('{"l":[],"k":{}}', told=('{"k":{},"l":[]}', "[]", "[]"))
    keys = sorted((f"{it}" for it in range(MANY)), key=lambda it: it.encode())
    paths = listed(f'["k","{it}"]' for it in reversed(keys))
    in_order = listed(f'["k","{it}"]' for it in keys)
    script.updates('{"k":{}}', paths, listed(given), told=('{"k":{}}', in_order, listed(reversed(given))))
    script.requested('{"k":{},"l":[]}', in_order, listed(reversed(given)))
    script.updates("{}", listed(['["x"]'] * MANY), listed(given), told=("{}", '[["x"]]', f"[{given[-1]}]"))
    script.updates('{"k":0}')
    script.state(of_state('{"k":0,"l":[]}', '[["x"]]', f"[{given[-1]}]"))
    return script.case("many buffers")


def paths(widgets):
    """Paths that are very long, very many, or lead nowhere: nothing is placed."""
    script = with_widget('{"state":{"k":1,"d":{"d":{}},"l":[[]],"t":"x"}}', kind=widgets)
    one = '["AQI="]'
    for step in ('"d"', "0", '""', "18446744073709551615"):
        script.change(update("{}", f"[[{','.join([step] * STEPS)}]]", one), "fault bad_path 0")
    for first, step in (('"d"', ',"d"'), ('"l"', ",0")):
        script.change(update('{"d":{"d":{}},"l":[[]]}', f"[[{first}{step * STEPS}]]", one), "fault bad_path 0")
    script.change(update("{}", listed(['["x"]'] * STEPS), one), "fault buffer_missing 1")
    script.change(update("{}", listed(["[]"] * STEPS), one), "fault bad_path 0")
    script.change(update("{}", listed(['["x"]'] * (STEPS - 1) + ["7"]), one), f"fault bad_path {STEPS - 1}")
    for it in (
        '["t","x"]',
        '["t",0]',
        '["k","x"]',
        '["k",0]',
        '["l","x"]',
        '["l","0"]',
        '["l",1]',
        '["l",0,0]',
        '["d",0]',
        '["d","d",0]',
        '["d","e","f"]',
        "[0]",
        "[]",
        "[null]",
        "[[]]",
        '["x",null]',
        '["x",{}]',
        '["x",-1]',
        '["x",true]',
        '"x"',
        "null",
        "{}",
        "7",
    ):
        script.change(update('{"k":1,"d":{"d":{}},"l":[[]],"t":"x"}', f"[{it}]", one), "fault bad_path 0")
        script.change(
            update('{"k":1,"d":{"d":{}},"l":[[]],"t":"x"}', f'[["x"],{it}]', '["AQI=","AQI="]'), "fault bad_path 1"
        )
    for it in ('"x"', "7", "true", "{}", '{"0":["x"]}'):
        script.change(update("{}", it, one), "fault bad_path 0")
    script.change(msg('{"method":"update","state":{},"buffer_paths":null}', f',"buffers":{one}'), "delivered")
    script.state(of_state('{"d":{"d":{}},"k":1,"l":[[]],"t":"x"}'))
    script.updates(
        "{}",
        '[["x"],["x"],["y"],["x"]]',
        '["AQ==","Ag==","Aw==","BA=="]',
        told=("{}", '[["x"],["y"]]', '["BA==","Aw=="]'),
    )
    script.requested('{"d":{"d":{}},"k":1,"l":[[]],"t":"x"}', '[["x"],["y"]]', '["BA==","Aw=="]')
    return script.case("paths")


def far(widgets):
    """The first fault stands behind more than a hundred thousand paths that are right, and is told by its number: an
    item that is no path, a path that leads into a buffer, and a path without a buffer; of an update, an open, and a
    push, which isn't read then."""
    before, one = ['["x"]'] * FAR, '"AQI="'
    wrong = (
        (listed([*before, "7"]), listed([one]), "bad_path"),
        (listed([*before, '["x","y"]']), listed([one] * (FAR + 1)), "bad_path"),
        (listed([*before, '["x"]']), listed([one] * FAR), "buffer_missing"),
    )
    script = with_widget(kind=widgets)
    for places, given, word in wrong:
        script.change(update("{}", places, given), f"fault {word} {FAR}")
        script.change(
            widget_open(f'{{"state":{{}},"buffer_paths":{places}}}', f',"buffers":{given}', "b"),
            f"refused {word} {FAR}",
        )
        script.sends("comm_close", "b")
        script.bad(f'{{"call":"push","id":"a","buffer_paths":{places},"buffers":{given}}}', f"{word} {FAR}")
    script.state(of_state('{"k":1}'))
    script.updates("{}", listed(before), listed([one] * FAR), told=("{}", '[["x"]]', f"[{one}]"))
    script.state(of_state('{"k":1}', '[["x"]]', f"[{one}]"))
    return script.case("a far fault")


def cases():
    return [bases()] + [make(widgets) for make in (many, paths, far) for widgets in WIDGETS]
