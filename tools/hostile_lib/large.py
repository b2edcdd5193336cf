"""Lines of 64 MB of each kind, a state of a million values, and a million lines."""
import base64

from .script import WIDGETS, Script, close, message, msg, of_state, of_update, widget_open, with_echo

LINE = 64 << 20
VALUES = 1_000_000


def numbers(size):
    """A list of numbers that is so long."""
    return "[" + ",".join(["1234567"] * (size // 8)) + "]"


def text(size):
    return f'"{"long " * (size // 5)}"'


ESCAPES = "\\u00e9\\n"


def keys(size):
    """A dict whose keys stand in their order."""
    return "{" + ",".join(f'"{it:08}":{it % 10}' for it in range(size // 13)) + "}"


def lists(size):
    return "[" + ",".join(["[[],{}]"] * (size // 8)) + "]"


def buffer(size):
    return base64.b64encode(bytes(range(256)) * (size // 4 * 3 // 256)).decode()


SHAPES = {"numbers": numbers, "one text": text, "keys": keys, "small lists": lists}


def echoed(size):
    for name, shape in SHAPES.items():
        value = shape(size)
        script = with_echo()
        script.echoes(f'{{"x":{value}}}', f'{{"x":{value}}}')
        yield script.case(f"a line of {size >> 20} MB: {name}")
    script = with_echo()
    value = ESCAPES * (size // len(ESCAPES))
    script.echoes(f'{{"x":"{value}"}}', '{"x":"' + value.replace("\\u00e9", "é") + '"}')
    yield script.case(f"a line of {size >> 20} MB: escapes")
    script = with_echo()
    value = f'["{buffer(size)}"]'
    script.echoes("{}", "{}", f',"buffers":{value}', value)
    yield script.case(f"a line of {size >> 20} MB: one buffer")


def refused(size):
    """Lines as long that are no JSON, or whose long part nobody reads."""
    script = Script()
    for it in (b"[", b'{"k":', b'"', b"x", b"\x00", b"\xff", b"1", b"{}", b" {", b"\\"):
        script.bad(it * (size // len(it)), "not_json")
        script.bad(b'{"header":' + it * (size // len(it)), "not_json")
    script.add(b" \t\r" * (size // 3))
    script.change(" " * size + close("q") + "\t" * 1000, "no_comm")
    script.change(close("q")[:-1] + f',"x":{numbers(size)}}}', "no_comm")
    script.bad(message("comm_msg", f'"comm_id":"a","data":{{"x":{numbers(size)[:-1]},1.5]}}'), "not_whole")
    script.bad(close("q")[:-1] + f',"x":{numbers(size)},}}', "not_json")
    return script.case(f"lines of {size >> 20} MB that are refused or not read")


def list_of_values(widgets):
    script = with_echo(widgets)
    script.registers_widgets()
    items = ",".join(str(it) for it in range(VALUES))
    script.change(widget_open(f'{{"state":{{"l":[{items}]}}}}', comm="w"), "opened")
    script.updates('{"k":1}', '[["b"]]', '["AQI="]', comm="w")
    script.change(msg('{"method":"request_state"}', comm="w"), "delivered")
    script.sends("comm_msg", "w", of_update(f'{{"k":1,"l":[{items}]}}', '[["b"]]'), '["AQI="]')
    last, placed = f'["l",{VALUES - 1}]', f'"l":[{items.rpartition(",")[0]},null]'
    script.updates(
        f'{{"l":[{items}]}}', f"[{last}]", '["AQI="]', comm="w", told=(f"{{{placed}}}", f"[{last}]", '["AQI="]')
    )
    script.state(of_state(f'{{"k":1,{placed}}}', f'[["b"],{last}]', '["AQI=","AQI="]'), comm="w")
    script.change(close("w"), "closed")
    return script.case("a state of a million values in a list")


def dict_of_values(widgets):
    script = with_echo(widgets)
    script.registers_widgets()

    def state(more=""):
        return "{" + ",".join(f'"k{it:07}":{it}' for it in range(VALUES)) + more + "}"

    script.change(widget_open(f'{{"state":{state()}}}', comm="w"), "opened")
    for it in range(100):
        script.updates(f'{{"z":{it}}}', comm="w")
    script.state(of_state(state(',"z":99')), comm="w")
    script.change('{"call":"push","id":"w","state":{"z":[]}}', "delivered")
    script.sends("comm_msg", "w", of_update('{"z":[]}'))
    script.change(msg('{"method":"request_state"}', comm="w"), "delivered")
    script.sends("comm_msg", "w", of_update(state(',"z":[]')))
    script.change('{"call":"unregister","name":"jupyter.widget"}', 'unregistered ["w"]')
    script.sends("comm_close", "w")
    return script.case("a state of a million keys")


def lines():
    """Blank lines by the million, and bad ones."""
    script = Script()
    for it in range(VALUES):
        script.add(("", " ", "\r", "\t\t")[it % 4])
    for _ in range(10_000):
        script.bad("{", "not_json")
    script.change(close("q"), "no_comm")
    return script.case("a million lines")


def cases():
    """One after the other, since each takes much memory."""
    yield from echoed(LINE)
    yield refused(LINE // 4)
    for widgets in WIDGETS:
        yield list_of_values(widgets)
        yield dict_of_values(widgets)
    yield lines()
