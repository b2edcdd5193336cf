"""What is inside of a library that is released: the crates of this repository and of the kit that it is built over,
with versions and licenses, and the SBOM that lists them (SPDX 2.3)."""
import json
import re
from pathlib import Path
from typing import NamedTuple

from wrong_bodies_lib.sums import below, listed

NOT_STATED = "NOASSERTION"
# How the texts of licenses begin, or what stands in them.
TEXTS = [
    ("Apache License", "Apache-2.0"),
    ("Boost Software License", "BSL-1.0"),
    ("Permission is hereby granted, free of charge, to any", "MIT"),
]
PORTED = re.compile(r"[Tt]he Rust crate `([\w-]+)` (\d+\.\d+\.\d+)")


class Part(NamedTuple):
    """A crate of the kit: its name, the Rust crate and the version that it follows, if any, its license as SPDX writes
    it, and the files of license texts."""

    name: str
    follows: str
    version: str
    license: str
    texts: list


def kit_crates(rows, crate, rlibs):
    """The kit's crates that a crate of crates.txt is built over, in the order of their names. `std` is always there."""
    mine = [crate, *below(rows, crate)]
    left = ["std", *(word for name in mine for word in rows[name] if word not in rows)]
    found = set()
    while left:
        name = left.pop()
        format_file = rlibs / f"{name}.rlib" / "format"
        if name not in found and format_file.is_file():
            found.add(name)
            left += re.findall(r"^dep (\w+)$", format_file.read_text(errors="replace"), re.MULTILINE)
    return sorted(found)


def license_of(texts):
    """The license of a crate by its files of license texts. Two that name MIT and Apache are a choice, as its page
    says; others are of two works in it, and hold both."""
    if not texts:
        return NOT_STATED
    named = {text.name: next(name for begin, name in TEXTS if begin in text.read_text()) for text in texts}
    joined = " OR " if set(named) == {"LICENSE-APACHE", "LICENSE-MIT"} else " AND "
    return joined.join(sorted(set(named.values())))


def part_of(folder):
    page = folder / "README.md"
    follows = PORTED.search(page.read_text()) if page.is_file() else None
    texts = sorted(folder.glob("LICENSE*"))
    return Part(folder.name, *(follows.groups() if follows else ("", "")), license_of(texts), texts)


def parts_of(root, kit, crate="comm_c"):
    """What of the kit is in the library of a crate."""
    rows = listed(Path(root, "crates.txt").read_text())
    return [part_of(kit / "rattle" / name) for name in kit_crates(rows, crate, kit / "rlibs")]


def package(name, version, license_expression, **more):
    return {
        "SPDXID": f"SPDXRef-{name.replace('_', '-')}",
        "name": name,
        "versionInfo": version,
        "downloadLocation": NOT_STATED,
        "filesAnalyzed": False,
        "licenseConcluded": license_expression,
        "licenseDeclared": license_expression,
        "copyrightText": NOT_STATED,
        **more,
    }


def sbom(version, date, record, contents):
    """The SBOM as a text: each thing that is released, and in it crates of the kit, by its name in `contents`."""
    kit = record["kit"].split()[0]
    of = {"sourceInfo": f"commit {record['commit']}", "licenseConcluded": NOT_STATED}
    wholes = [package(name, version, "MIT", **of) for name in contents]
    inner = {part.name: of_kit(part, kit) for parts in contents.values() for part in parts}
    relations = [("SPDXRef-DOCUMENT", "DESCRIBES", whole["SPDXID"]) for whole in wholes]
    relations += [
        (whole["SPDXID"], "CONTAINS", inner[part.name]["SPDXID"])
        for whole, parts in zip(wholes, contents.values())
        for part in parts
    ]
    document = {
        "spdxVersion": "SPDX-2.3",
        "dataLicense": "CC0-1.0",
        "SPDXID": "SPDXRef-DOCUMENT",
        "name": f"rolgunai-{version}",
        "documentNamespace": f"urn:rolgunai:{version}:{record['commit']}",
        "creationInfo": {"created": date, "creators": ["Tool: rolgunai-tools-release"]},
        "packages": [*wholes, *inner.values()],
        "relationships": [
            {"spdxElementId": one, "relationshipType": kind, "relatedSpdxElement": other}
            for one, kind, other in relations
        ],
    }
    return json.dumps(document, indent=1) + "\n"


def of_kit(part, kit):
    """A crate of the kit, with the version of the Rust crate that it follows, or else the kit's name."""
    after = f", after the Rust crate {part.follows} {part.version}" if part.follows else ""
    return package(part.name, part.version or kit, part.license, comment=f"of {kit}{after}")


def license_files(parts):
    """The texts of the licenses, by the names of files that go along."""
    return {f"licenses/{part.name}-{text.name}": text.read_bytes() for part in parts for text in part.texts}
