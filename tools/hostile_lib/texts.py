"""Texts: every escape, surrogates alone and in pairs, bytes that no text may have, and UTF-8 that isn't any, at each
place of a line."""
from .script import Script, close, message, msg, with_echo, written

LETTERS = {'"': '"', "\\": "\\", "/": "/", "b": "\b", "f": "\f", "n": "\n", "r": "\r", "t": "\t"}

# The first and the last of each length, and what stands beside the surrogates.
EDGES = [
    0x20,
    0x7E,
    0x7F,
    0x80,
    0x9F,
    0xA0,
    0x7FF,
    0x800,
    0x2028,
    0x2029,
    0xD7FF,
    0xE000,
    0xFDD0,
    0xFEFF,
    0xFFFD,
    0xFFFE,
    0xFFFF,
    0x10000,
    0x1F600,
    0x10FFFF,
]

NO_UTF8 = """
80 bf c0 c080 c1 c1bf c2 c3 df e0 e080 e08080 e09fbf e1 e180 eda080 edadbf edb080 edbfbf eda0bdedb880 ef ef80 efbf f0
f080 f08080 f0808080
f08fbfbf f09f f09f98 f48fbf f4908080 f4bfbfbf f5 f5808080 f7bfbfbf f8 f888808080 fbbfbfbfbf fc fc8480808080
fdbfbfbfbfbf fe ff fffe feff c2c2 c220 e28220
""".split()


def echoed_text(script, given, text):
    """The text as a value and as a key, as the script has it."""
    script.echoes(f'{{"x":"{given}"}}', f'{{"x":{written(text)}}}')
    script.echoes(f'{{"{given}":["{given}"]}}', f"{{{written(text)}:[{written(text)}]}}")


def refused_text(script, given):
    script.bad(msg(f'{{"x":"{given}"}}'), "not_json")
    script.bad(msg(f'{{"{given}":1}}'), "not_json")
    script.bad(close("q")[:-1] + f',"x":"{given}"}}', "not_json")


def units(code):
    """A character's escape: one unit, or a pair of surrogates."""
    if code < 0x10000:
        return f"\\u{code:04x}"
    code -= 0x10000
    return f"\\u{0xD800 + (code >> 10):04x}\\u{0xDC00 + (code & 0x3FF):04x}"


def escapes():
    script = with_echo()
    for letter, text in LETTERS.items():
        echoed_text(script, f"\\{letter}", text)
    for code in [*range(0x20), *EDGES]:
        for form in (units(code), units(code).upper().replace("U", "u"), f"{units(code)}b\\\\{units(code)}"):
            text = chr(code) if form.count("\\\\") == 0 else f"{chr(code)}b\\{chr(code)}"
            echoed_text(script, form, text)
        if code >= 0x20:
            echoed_text(script, chr(code), chr(code))
    every = [it for it in range(0x10000) if not 0xD800 <= it < 0xE000]
    echoed_text(script, "".join(units(it) for it in every), "".join(chr(it) for it in every))
    for first in range(0x10000, 0x110000, 0x10000):
        edge = [first, first + 1, first + 0x3FF, first + 0x400, first + 0xFFFF]
        echoed_text(script, "".join(units(it) for it in edge), "".join(chr(it) for it in edge))
    return script.case("escapes")


def no_escapes():
    script = with_echo()
    for byte in range(0x80):
        if chr(byte) not in LETTERS and byte not in (0x0A, ord("u")):
            refused_text(script, f"\\{chr(byte)}")
        if byte < 0x20 and byte != 0x0A:
            refused_text(script, f"a{chr(byte)}b")
    for it in (
        "\\u",
        "\\u1",
        "\\u12",
        "\\u123",
        "\\u123g",
        "\\u 123",
        "\\u+123",
        "\\u-123",
        "\\u12 3",
        "\\u0x41",
        "\\u{41}",
        "\\U0041",
        "\\x41",
        "\\'",
        "\\u١٢٣٤",
        "\\é",
        "\\",
    ):
        refused_text(script, it)
        refused_text(script, f"{it} \\n")
    for it in ('"', '"x', '"x\\', '"x\\"', "'x'", "x", "“x”"):
        script.bad(message("comm_msg", f'"comm_id":{it}'), "not_json")
    return script.case("what is no escape")


def surrogates():
    script = with_echo()
    for unit in range(0xD800, 0xE000):
        script.bad(msg(f'{{"x":"\\u{unit:04x}"}}'), "not_json")
        script.bad(msg(f'{{"\\u{unit:04X}":1}}'), "not_json")
    high, low = "\\ud83d", "\\ude00"
    for it in (
        high + "x",
        high + "\\n",
        high + "\\\\",
        high + "\\u0041",
        high + high,
        high + high + low,
        low + high,
        low + low,
        high + "\\u",
        high + "\\",
        high + "\\ude0 ",
        high + "😀",
        high + " " + low,
        high + "\\uE000",
        high + "\\uD7FF",
        "\\uDBFF\\uDBFF",
        "\\uDC00\\uDC00",
        high + low + low,
        high + low + high,
    ):
        refused_text(script, it)
        refused_text(script, f"a{it}b")
    return script.case("surrogates")


def no_utf8():
    """Bytes that aren't UTF-8, put in at each place of a line, or in the place of it."""
    line = msg('{"k":"é","é":[1,"x"]}', ',"buffers":["AQI="],"x":"y"').encode()
    script = with_echo()
    for it in map(bytes.fromhex, NO_UTF8):
        script.bad(it, "not_json")
        for at in range(len(line) + 1):
            script.bad(line[:at] + it + line[at:], "not_json")
    for at in [it for it in range(len(line)) if line[it] >= 0x80]:
        script.bad(line[:at] + line[at + 1 :], "not_json")
        script.bad(line[:at] + b"a" + line[at + 1 :], "not_json")
    script.bad(b"\xef\xbb\xbf" + line, "not_json")
    script.bad(line.decode().encode("utf-16-le").replace(b"\n", b""), "not_json")
    script.echoes('{"k":"é"}', '{"k":"é"}')
    return script.case("what is no UTF-8")


def broken_bytes():
    """Each byte of a line in turn taken away, or put in the place of each other one, where that leaves no JSON object
    for sure."""
    script = Script()
    line = close("q").encode()
    for at, byte in enumerate(line):
        if chr(byte) in '{}":':
            script.bad(line[:at] + line[at + 1 :], "not_json")
        for other in range(0x20):
            if other not in (0x09, 0x0A, 0x0D):
                script.bad(line[:at] + bytes([other]) + line[at:], "not_json")
        script.bad(line[:at] + b"\x00" + line[at + 1 :], "not_json")
    for it in (
        b"x",
        b"{}",
        b",",
        b"]",
        b"}",
        b"\x00",
        b"\x0b",
        b"\x0c",
        b"\xa0",
        "\u00a0".encode(),
        "\u2028".encode(),
        "\ufeff".encode(),
    ):
        script.bad(line + it, "not_json")
        script.bad(it + line, "not_json")
        script.bad(line + b" " + it, "not_json")
    for it in (b"", b" ", b"\t \r"):
        script.change(it + line + it, "no_comm")
        script.add(it)
    return script.case("broken bytes", end=b"")


def names():
    """Any text is an id or a name, and they are listed in the order of their bytes."""
    script = Script()
    script.change('{"call":"register","kind":"echo","name":"\\u0000"}', "registered")
    texts = sorted(
        {chr(it) for it in [*range(0x20), *EDGES]} | {"", '"', "\\", "a" * 10_000, "😀" * 1000, "\uffff\U00010000"},
        key=lambda it: it.encode(),
    )
    for it in reversed(texts):
        script.change(message("comm_open", f'"comm_id":{written(it)},"target_name":"\\u0000"'), "opened")
    script.lists(texts, "\0")
    script.change(
        '{"call":"unregister","name":"\\u0000"}', f"unregistered [{','.join(written(it) for it in reversed(texts))}]"
    )
    for it in reversed(texts):
        script.sends("comm_close", it)
    return script.case("texts as names")


def cases():
    return [escapes(), no_escapes(), surrogates(), no_utf8(), broken_bytes(), names()]
