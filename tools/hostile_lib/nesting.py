"""Objects and lists inside one another: 126, 127 and 128 deep of each kind and at each place, deeper, and not
closed."""
from .script import WIDGETS, close, message, msg, of_state, of_update, update, widget_open, with_echo, with_widget

DEEPEST = 127
KINDS = {"lists": "[", "dicts": "{", "lists in dicts": "{[", "dicts in lists": "[{"}


def opening(kind, levels):
    return "".join('{"k":' if KINDS[kind][it % len(KINDS[kind])] == "{" else "[" for it in range(levels))


def closing(kind, levels):
    return "".join("}" if KINDS[kind][it % len(KINDS[kind])] == "{" else "]" for it in reversed(range(levels)))


def nested(kind, levels, inner="7"):
    return opening(kind, levels) + inner + closing(kind, levels)


def steps(kind, levels):
    """The path to what stands innermost."""
    return ["k" if KINDS[kind][it % len(KINDS[kind])] == "{" else 0 for it in range(levels)]


def path_text(path):
    return "[" + ",".join(f'"{it}"' if isinstance(it, str) else str(it) for it in path) + "]"


def read(kind, depth, given, wanted, refused):
    """The line's own levels and those of what stands in it are so deep: read up to 127, and else not JSON."""
    if depth > DEEPEST:
        refused(given)
    else:
        wanted(given)


def in_messages(kind):
    """Each place of a message, by how many objects and lists stand around it."""
    script = with_echo()

    def refused(line):
        script.bad(line, "not_json")

    def unread(line):
        script.change(line, "no_comm")

    for depth in (126, 127, 128, 129):
        for around, line in (
            (1, lambda it: close("q")[:-1] + f',"x":{it}}}'),
            (2, lambda it: message("comm_close", '"comm_id":"q","x":' + it)),
            (2, lambda it: close("q")[:-1] + f',"metadata":{{"x":{it}}}}}'),
            (3, lambda it: message("comm_close", '"comm_id":"q","data":{"x":' + it + "}")),
        ):
            read(kind, depth, line(nested(kind, depth - around)), unread, refused)
        value = f'{{"x":{nested(kind, depth - 3)}}}'
        read(kind, depth, msg(value), lambda it, v=value: script.echoes(v, v), refused)
        wrong = "bad_buffer 0" if kind != "dicts" and kind != "lists in dicts" else "bad_content buffers"
        read(
            kind,
            depth,
            msg("{}", f',"buffers":{nested(kind, depth - 1)}'),
            lambda it, w=wrong: script.bad(it, w),
            refused,
        )
    return script.case(f"{kind} in messages", is_deep=True)


def in_widgets(kind, widgets):
    """What a widget keeps, merges, tells apart and writes, with a buffer at the deepest place."""
    script = with_widget(kind=widgets)
    for depth in (126, 127, 128):
        inside = depth - 4
        state = f'{{"s":{nested(kind, inside, "null")}}}'
        bare = without(kind, inside)
        path = f"[{path_text(['s', *steps(kind, inside)])}]"
        line = widget_open(f'{{"state":{state},"buffer_paths":{path}}}', ',"buffers":["AQI="]', comm="d")
        if depth > DEEPEST:
            script.bad(line, "not_json")
            script.bad(update(state, path, '["AQI="]'), "not_json")
            script.bad(msg(f'{{"method":"custom","content":{nested(kind, depth - 3)}}}'), "not_json")
            continue
        script.change(line, "opened")
        script.state(of_state(f'{{"s":{bare}}}', path, '["AQI="]'), comm="d")
        script.updates('{"t":1}', comm="d")
        script.change(msg('{"method":"request_state"}', comm="d"), "delivered")
        script.sends("comm_msg", "d", of_update(f'{{"s":{bare},"t":1}}', path), '["AQI="]')
        script.updates(state, path, '["AQI="]', told=(f'{{"s":{bare}}}', path, '["AQI="]'))
        script.updates(state)
        script.requested(f'{{"k":1,"s":{nested(kind, inside, "null")}}}')
        script.change(
            msg(f'{{"method":"custom","content":{nested(kind, depth - 3)}}}'),
            f'custom {{"buffers":[],"content":{nested(kind, depth - 3)}}}',
        )
        script.updates('{"s":[]}', comm="d")
        script.state(of_state('{"s":[],"t":1}'), comm="d")
        script.change(close("d"), "closed")
    return script.case(f"{kind} in widgets", is_deep=True)


def without(kind, levels):
    """The value whose innermost place has a buffer, as it is written: a list's place is null, and a dict's key is
    absent."""
    if steps(kind, levels)[-1] == 0:
        return nested(kind, levels, "null")
    return opening(kind, levels)[: -len('"k":')] + closing(kind, levels)


def in_commands(kind, widgets):
    """A command's state stands higher in its line than a message's, so what goes out nests deeper than what any line
    has."""
    script = with_widget(kind=widgets)
    script.change('{"call":"register","kind":"echo","name":"t"}', "registered")
    script.change(message("comm_open", '"comm_id":"e","target_name":"t"'), "opened")
    uuid = "67e55044-10b1-426f-9247-bb680e5fe0c8"
    for depth in (126, 127, 128):
        inside = depth - 2
        state, bare = f'{{"s":{nested(kind, inside, "null")}}}', f'{{"s":{without(kind, inside)}}}'
        path = f"[{path_text(['s', *steps(kind, inside)])}]"
        placed = f'"state":{state},"buffer_paths":{path},"buffers":["AQI="]'
        launch = f'{{"call":"launch","name":"jupyter.widget","uuid":"{uuid}",{placed}}}'
        push = f'{{"call":"push","id":"a",{placed}}}'
        send = f'{{"call":"send","id":"e","data":{state}}}'
        if depth > DEEPEST:
            for line in (launch, push, send):
                script.bad(line, "not_json")
            continue
        script.change(launch, "launched")
        script.sends(
            "comm_open",
            uuid,
            f'{{"buffer_paths":{path},"state":{bare}}}',
            '["AQI="]',
            more=',"target_name":"jupyter.widget"',
            metadata='{"version":"2.1.0"}',
        )
        script.change(push, "delivered")
        script.sends("comm_msg", "a", of_update(bare, path), '["AQI="]')
        script.change(send, "delivered")
        script.sends("comm_msg", "e", state)
        script.state(of_state(f'{{"k":1,{bare[1:]}', path, '["AQI="]'))
        script.change(f'{{"call":"hang_up","id":"{uuid}"}}', "closed")
        script.sends("comm_close", uuid)
    return script.case(f"{kind} in commands", is_deep=True)


def unclosed():
    script = with_echo()
    for kind in KINDS:
        for levels in (1, 126, 127, 128, 1000, 100_000):
            script.bad(opening(kind, levels), "not_json")
            script.bad(opening(kind, levels) + ",", "not_json")
            script.bad(closing(kind, levels), "not_json")
            script.bad(nested(kind, levels)[:-1], "not_json")
            script.bad(nested(kind, levels) + closing(kind, 1), "not_json")
            script.bad(msg(f'{{"x":{opening(kind, levels)}7'), "not_json")
        for levels in (128, 1000, 100_000):
            script.bad(msg(f'{{"x":{nested(kind, levels)}}}'), "not_json")
    for levels in (1, 2, 100, 125):
        script.bad(msg(f'{{"x":{"[" * levels}{"}" * levels}}}'), "not_json")
        script.bad(msg(f'{{"x":{"[" * levels}{"]" * (levels - 1)}}}}}'), "not_json")
        script.bad(msg(f'{{"x":{"[" * levels}{"]" * (levels + 1)}}}'), "not_json")
        script.bad(msg(f'{{"x":{"[" * levels},{"]" * levels}}}'), "not_json")
    script.echoes('{"x":[[],{},[{}],{"y":[]}]}', '{"x":[[],{},[{}],{"y":[]}]}')
    return script.case("what isn't closed", is_deep=True)


def cases():
    of_widgets = [make(kind, widgets) for kind in KINDS for make in (in_widgets, in_commands) for widgets in WIDGETS]
    return [in_messages(kind) for kind in KINDS] + of_widgets + [unclosed()]
