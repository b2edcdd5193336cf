"""The pages that go along with a release: templates with the version and the like filled in, and what is proved, out
of the repository's own documents."""
import re
from pathlib import Path

# What the library asks of a processor, and the newest symbol version of glibc that it takes.
PROCESSOR = "any x86-64 processor"
GLIBC = "2.14"


def filled(path, version, **more):
    """A template's text with each @NAME@ filled in."""
    major = version.partition(".")[0]
    words = {"VERSION": version, "MAJOR": major, "SONAME": f"librolgunai.so.{major}"}
    words |= {"PROCESSOR": PROCESSOR, "GLIBC": GLIBC, **more}
    return re.sub(r"@([A-Z]+)@", lambda found: words[found[1]], Path(path).read_text())


def section(path, heading):
    """A section of a document, without its heading. Links lead nowhere without the other documents, so only their words
    stay."""
    text = Path(path).read_text().partition(f"\n## {heading}\n")[2].partition("\n## ")[0]
    return re.sub(r"\[([^\]]*)\]\([^)]*\)", r"\1", text).strip()


def release_text(version, record):
    """What a release is of: the file RELEASE."""
    return f"version: {version}\n" + "".join(f"{key}: {value}\n" for key, value in record.items())


def proved(root, version, record):
    """The page of what is proved."""
    return f"""# What is proved of Rolgunai {version}

Commit {record["commit"]} was proved by {record["kit"]}; the last line of its gate is '{record["gate"]}'.
The files that are named below lie in the repository.

## In one sentence, and what is assumed

{section(Path(root, "README.md"), "What is proved")}

## Of the library for C

{section(Path(root, "bindings/README.md"), "What is proved")}

## What it can't do

{section(Path(root, "README.md"), "What it can't do")}
"""
