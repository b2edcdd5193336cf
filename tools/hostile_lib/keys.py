"""Keys that stand twice at every level, of which the last counts; very long ones, and very many."""
import random

from .script import (
    WIDGETS,
    Script,
    close,
    message,
    msg,
    of_state,
    of_update,
    widget_open,
    with_echo,
    with_widget,
    written,
)

MANY = 100_000
LONG = 1_000_000

# A key of a message that stands twice: the good line's text, and what it becomes with a bad value before or behind the
# good one.
HEADER, CONTENT = '"header":{"msg_type":"comm_msg"}', '"content":{"comm_id":"q","data":{}}'
TWICE = [
    # the good member, a bad one of the same key, what the bad one alone would be told
    ('"client":0', '"client":4', "bad_client"),
    (HEADER, '"header":7', "no_type"),
    (HEADER, '"header":{"msg_type":"x"}', "unknown_type"),
    ('"msg_type":"comm_msg"', '"msg_type":null', "no_type"),
    ('"msg_type":"comm_msg"', '"msg_type":"comm"', "unknown_type"),
    (CONTENT, '"content":[]', "bad_content content"),
    ('"comm_id":"q"', '"comm_id":7', "bad_content comm_id"),
    ('"data":{}', '"data":[]', "bad_content data"),
    ('"data":{}', '"data":{"n":1.5}', "not_whole"),
    ('"metadata":{}', '"metadata":[]', "bad_content metadata"),
    ('"buffers":[]', '"buffers":{}', "bad_content buffers"),
    ('"buffers":[]', '"buffers":["A"]', "bad_buffer 0"),
]
GOOD = f'{{"client":0,{HEADER},{CONTENT},"metadata":{{}},"buffers":[]}}'

PUSH = '{"call":"push","client":0,"id":"q","state":{},"buffer_paths":[],"buffers":[]}'
PUSH_TWICE = [
    ('"call":"push"', '"call":"dance"', "unknown_call"),
    ('"client":0', '"client":"0"', "bad_client"),
    ('"id":"q"', '"id":null', "bad_field id"),
    ('"state":{}', '"state":[]', "bad_field state"),
    ('"state":{}', '"state":{"x":-0}', "not_whole"),
    ('"buffers":[]', '"buffers":7', "bad_field buffers"),
    ('"buffers":[]', '"buffers":["AQ=="," "]', "bad_buffer 1"),
    ('"buffer_paths":[]', '"buffer_paths":[["x"]]', "buffer_missing 0"),
    ('"buffer_paths":[]', '"buffer_paths":7', "bad_path 0"),
]


def escaped(member):
    """The same member, the first letter of its key as an escape."""
    return f'"\\u{ord(member[1]):04x}{member[2:]}'


def twice():
    """Where a key stands twice in a line, its last value counts; an escape in a key makes no other key."""
    script = Script()
    for line, table in ((GOOD, TWICE), (PUSH, PUSH_TWICE)):
        for good, bad, words in table:
            assert line.count(good) == 1
            for one, other in ((good, bad), (escaped(good), bad), (good, escaped(bad))):
                script.change(line.replace(good, f"{other},{one}"), "no_comm")
                script.bad(line.replace(good, f"{one},{other}"), words)
                script.change(line.replace(good, f'{one},{other},"x":{{}},{one}'), "no_comm")
    script.change('{"call":"x",' + PUSH[1:], "no_comm")
    script.bad(GOOD[:-1] + ',"call":null}', "unknown_call")
    return script.case("keys of a line twice")


def at_every_level(widgets):
    """Keys that stand twice at each level of what is echoed and kept."""
    script = with_echo(widgets)
    script.registers_widgets()
    for levels in (1, 2, 3, 64, 122, 123):
        given = wanted = "7"
        for level in range(levels):
            first = ("0", '{"b":[1]}', '"x"', "[[]]", "null")[level % 5]
            given, wanted = f'{{"b":{first},"a":{first},"a":{given},"b":1}}', f'{{"a":{wanted},"b":1}}'
        script.echoes(given, wanted)
        script.change(widget_open(f'{{"state":{given},"state":{given}}}', comm="w"), "opened")
        script.state(of_state(wanted), comm="w")
        script.change(close("w"), "closed")
    return script.case("keys twice at every level")


def shuffled(count, seed):
    """Keys in an order of no sense, and the same in the order of their bytes."""
    keys = [f"{'é' if it % 3 == 0 else 'k'}{it}" for it in range(count)]
    random.Random(seed).shuffle(keys)
    return keys, sorted(keys, key=lambda it: it.encode())


def members(keys, value):
    return "{" + ",".join(f'"{it}":{value(it)}' for it in keys) + "}"


def many(widgets):
    """So many keys, each twice, in an order of no sense: echoed, kept, merged, read and written."""
    keys, order = shuffled(MANY, 1)
    again, _ = shuffled(MANY, 2)
    place = {key: number for number, key in enumerate(order)}
    doubled = members(keys, lambda _: 0)[:-1] + "," + members(again, place.get)[1:]
    wanted = members(order, place.get)
    script = with_echo(widgets)
    script.registers_widgets()
    script.echoes(doubled, wanted)
    script.change(widget_open(f'{{"state":{doubled}}}', comm="w"), "opened")
    script.state(of_state(wanted), comm="w")
    half = [it for it in order if place[it] % 2]
    script.updates(
        members(reversed(half), lambda _: '"new"'), comm="w", told=(members(half, lambda _: '"new"'), "[]", "[]")
    )
    script.change(msg('{"method":"request_state"}', comm="w"), "delivered")
    script.sends("comm_msg", "w", of_update(members(order, lambda it: '"new"' if place[it] % 2 else place[it])))
    return script.case("many keys, each twice")


def long(widgets):
    """A key, an id, a name and a word of a megabyte."""
    key = "k" * LONG
    script = with_echo(widgets)
    script.registers_widgets()
    script.echoes(f'{{"{key}b":1,"{key}a":2,"{key}":3}}', f'{{"{key}":3,"{key}a":2,"{key}b":1}}')
    text = "é\n" * (LONG // 4)
    script.echoes(f"{{{written(text)}:{written(text)}}}", f"{{{written(text)}:{written(text)}}}")
    script.echoes('{"' + "\\u006b" * (LONG // 6) + '":1}', '{"' + "k" * (LONG // 6) + '":1}')
    script.bad(message(key, ""), "unknown_type")
    script.bad(f'{{"call":"{key}"}}', "unknown_call")
    script.change(close(key), "no_comm")
    script.change(widget_open('{"state":{}}', comm=key), "opened")
    script.updates(f'{{"{key}":1}}', f'[["{key}"]]', '["AQI="]', comm=key, told=("{}", f'[["{key}"]]', '["AQI="]'))
    script.state(of_state("{}", f'[["{key}"]]', '["AQI="]'), comm=key)
    script.change(msg(f'{{"method":"{key}"}}', comm=key), "fault unknown_method")
    script.add(f'{{"call":"state","id":"{key}k"}}', f"state {script.changes} no_comm")
    script.change(f'{{"call":"unregister","name":"{key}"}}', "no_target")
    script.change(f'{{"call":"hang_up","id":"{key}"}}', "closed")
    script.sends("comm_close", key)
    return script.case("keys of a megabyte")


def plain_widget(widgets):
    """What stands in a state is replaced whole, key by key."""
    script = with_widget('{"state":{"a":{"x":1,"y":2},"a":{"z":3}}}', kind=widgets)
    script.state(of_state('{"a":{"z":3}}'))
    script.updates('{"a":{"x":1},"a":{"y":2}}', told=('{"a":{"y":2}}', "[]", "[]"))
    script.state(of_state('{"a":{"y":2}}'))
    return script.case("keys of a state twice")


def cases():
    return [twice()] + [make(widgets) for make in (at_every_level, plain_widget, many, long) for widgets in WIDGETS]
