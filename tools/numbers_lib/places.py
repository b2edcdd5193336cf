"""Where the numbers of bindings/numbers.txt stand, but for the enumerations of the header."""
from dataclasses import dataclass

HEADER = "bindings/c/rolgunai.h"


@dataclass(frozen=True)
class Place:
    """Where numbers of a group stand, by what each line there has: `{number}`, the name as `{NAME}`, `{name}` or
    `{Name}`, and `~` for a little of whatever else. Lines without a number are in the order of their numbers; numbers
    without a name are those of `names`, one after the other, or all of the one."""

    file: str
    group: str
    line: str
    names: str = ""  # which names stand there; none: all of the group
    but: str = ""  # without these
    within: str = ""  # what the part of the file begins with; it ends by ENDS


ENDS = {".rt": "\n}\n", ".antt": "\n\n", ".py": "\n\n\n", ".hpp": "};"}
# What goes by another name in some places.
OTHER_NAMES = {
    ("status", "NOT_UTF8"): "BAD_NAME",
    ("reply", "NOTHING"): "NONE",
    ("reply", "INFOS"): "COMM_INFO",
    ("reply", "OPEN_REFUSED"): "REFUSED",
    ("reason", "MEMORY"): "NONE",
    ("field", "BODY"): "DATA",
}
SRC, SPECS = "crates/comm_c/src/", "crates/comm_c/specs/"
RUST, PYTHON = "bindings/rust/rolgunai/", "bindings/python/src/rolgunai/"
CPP = "bindings/cpp/rolgunai_types.hpp"
NO_CORE_REPLY = "NONE BAD COMM_INFO DELIVERED FOR_KERNEL STATE NO_STATE TARGET"
OF_KEYS, NO_FIELD = "DATA BUFFERS KIND NAME UUID STATE ID", "KIND NAME UUID STATE ID"
# The parts that a function tells apart, in the library and in its definitions.
PARTS_OF = {
    "message_part": "TYPE ID CONTENT METADATA TARGET",
    "custom_part": "CONTENT",
    "ids_part": "CONTENT",
    "change_part": "ID TARGET",
    "members_part": "CONTENT",
    "target_part": "TARGET",
}
MOST, CLIENTS, DEEP = "1 to {number}", "manager has {number} clients", "t most {number} deep"
PLACES = [
    Place(SRC + "codes.rt", "status", "pub const {NAME}: u32 = {number};\n"),
    Place(SPECS + "Codes.antt", "status", "abbrev pub {name} : ℕ\n{name} = {number}\n"),
    Place(RUST + "types.rs", "status", "{number} => Error::{Name},\n",
          "MEMORY BAD_LIMIT EXHAUSTED NOT_JSON NO_TEXT AGAIN NO_SEAT"),
    Place(RUST + "parts.rs", "status", "const {NAME}: u32 = {number};\n", "OK BUFFER_TOO_SMALL BAD_NAME NO_PART"),
    Place(RUST + "client.rs", "status", "const AGAIN: u32 = {number};\n", "AGAIN"),
    Place(PYTHON + "_types.py", "status", "    {NAME} = {number}\n", within="class Status("),
    Place(SRC + "codes.rt", "kind", "number == {number} {\n        Some(BuiltinKind::{Name})"),
    Place(SPECS + "Codes.antt", "kind", "n == {number} then Some {Name}"),
    Place(RUST + "types.rs", "kind", "    {Name} = {number},\n"),
    Place(PYTHON + "_types.py", "kind", "    {NAME} = {number}\n", within="class Kind("),
    Place(SRC + "call_result.rt", "reply", " Reply::{Name}~ => {number},\n", but=NO_CORE_REPLY),
    Place(SRC + "call_result.rt", "reply", "custom {\n        None => {number},\n        Some(_) => {number},\n",
          "DELIVERED FOR_KERNEL"),
    Place(SRC + "call_result.rt", "reply", "StateAnswer::{Name}~ => {number},\n", "NO_COMM STATE NO_STATE"),
    Place(SRC + "call_result.rt", "reply", "name {\n        None => {number},\n        Some(_) => {number},\n",
          "NO_COMM TARGET"),
    Place(SRC + "call_result.rt", "reply", "CallResult::{Name}~ => {number},\n", "NONE BAD COMM_INFO"),
    Place(SPECS + "CallResult.antt", "reply", "reply_number ~reply.{Name}~ = {number}\n", but=NO_CORE_REPLY),
    Place(SPECS + "CallResult.antt", "reply", "delivered_number ~ = {number}\n", "DELIVERED FOR_KERNEL"),
    Place(SPECS + "CallResult.antt", "reply", "state_number ~answer.{Name}~ = {number}\n", "NO_COMM STATE NO_STATE"),
    Place(SPECS + "CallResult.antt", "reply", "target_number ~ = {number}\n", "NO_COMM TARGET"),
    Place(SPECS + "CallResult.antt", "reply", "result_number ~{Name}~ = {number}\n", "NONE BAD COMM_INFO"),
    Place("bindings/c/rolgunai_client.h", "reply", "its reply is {number} to {number}, REG", "REGISTERED NOT_WIDGET"),
    Place(RUST + "client.rs", "reply", "Inclusive<u32> = {number}..={number};\n", "REGISTERED NOT_WIDGET"),
    Place(RUST + "types.rs", "reply", '    (Reply::{Name}, "{name}"),\n'),
    Place(PYTHON + "_types.py", "reply", "    {NAME} = {number}\n", but="TARGET", within="class Reply("),
    Place(CPP, "reply", '"{name}"', within="replies[] = {"),
    Place(SRC + "reasons.rt", "reason", "Fault::{Name}~ => numbered({number}, ", but="NONE NO_TARGET TOO_MANY_COMMS"),
    Place(SRC + "reasons.rt", "reason", "Refusal::{Name}~ => numbered({number}, ", "NO_TARGET TOO_MANY_COMMS"),
    Place(SRC + "reasons.rt", "reason", "const NONE: Reason = Reason {\n    number: {number},\n", "NONE"),
    Place(SPECS + "Reasons.antt", "reason", "_reason ~.{Name}~ = ({number}, "),
    Place(RUST + "types.rs", "reason", "{number} => Reason::{Name}~,\n", but="NONE OTHER"),
    Place(RUST + "types.rs", "reason", "{number} => return None", "NONE"),
    Place(PYTHON + "_types.py", "reason", "    {NAME} = {number}\n", within="class Reason("),
    Place(CPP, "reason", '"{name}"', within="reasons[] = {"),
    Place(SRC + "reasons.rt", "field", "Field::{Name} => {number},\n", but=NO_FIELD),
    Place(SRC + "reasons.rt", "field", "Key::{Name} => {number},\n", OF_KEYS),
    Place(SPECS + "Reasons.antt", "field", "field_number field.{Name} = {number}\n", but=NO_FIELD),
    Place(SPECS + "Reasons.antt", "field", "key_number key.{Name} = {number}\n", OF_KEYS),
    Place(RUST + "types.rs", "field", '    (Field::{Name}, "{name}"),\n'),
    Place(PYTHON + "_types.py", "field", "    {NAME} = {number}\n", within="class Field("),
    Place(CPP, "field", '"{name}"', within="fields[] = {"),
    *(Place(SRC + "part_bytes.rt", "part", " part == {number} {", names, within=f"\nfn {function}(")
      for function, names in PARTS_OF.items()),
    Place(SRC + "part_bytes.rt", "part", "const FIRST_BUFFER: usize = {number};\n", "BUFFERS"),
    *(Place(SPECS + "Parts.antt", "part", " n == {number} then", names, within=f"\n{function} ")
      for function, names in PARTS_OF.items()),
    Place(SPECS + "Parts.antt", "part", "nat_lt n {number} ", "BUFFERS"),
    Place(SPECS + "Parts.antt", "part", "(n - {number})", "BUFFERS"),
    Place(RUST + "parts.rs", "part", "\nconst {NAME}: usize = {number};"),
    Place("crates/comm_core/src/limits.rt", "limit", "MOST_COMMS: usize = {number};\n", "COMMS"),
    Place("crates/comm_core/src/limits.rt", "limit", 'bounds: 1 to {number}"', "COMMS"),
    Place("crates/comm_core/specs/Limits.antt", "limit", "(comms ≤ {number})", "COMMS"),
    Place(PYTHON + "_calls.py", "limit", "\nMOST_COMMS = {number} ", "COMMS"),
    *(Place(file, "limit", MOST, "COMMS")
      for file in (HEADER, "bindings/c/rolgunai_client.h", "bindings/python/native/manager.c", RUST + "types.rs", CPP)),
    Place("crates/comm_shared/src/manager.rt", "limit", "0u64; {number}]", "CLIENTS"),
    Place("crates/comm_shared/src/manager.rt", "limit", "SharedWriter::new(alloc, {number},", "CLIENTS"),
    Place("crates/comm_shared/specs/SharedView.antt", "limit", "\nseats = {number}\n", "CLIENTS"),
    *(Place(file, "limit", CLIENTS, "CLIENTS") for file in (HEADER, RUST + "types.rs", CPP)),
    Place("crates/comm_json/src/reading.rt", "limit", "const DEPTH: usize = {number};\n", "DEPTH"),
    Place("crates/comm_reader/src/line.rt", "limit", "const DEPTH: usize = {number};\n", "DEPTH"),
    *(Place(file, "limit", DEEP, "DEPTH") for file in (HEADER, RUST + "types.rs")),
]  # fmt: skip
