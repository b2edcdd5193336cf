"""Archives with the same bytes each time: sorted names, one date, no owner, and no name or date of the compressor's."""
import gzip
import io
import tarfile
from pathlib import Path


def entry(name, date, mode, size=0, link=None):
    made = tarfile.TarInfo(name)
    made.mtime, made.mode, made.size = date, mode, size
    if link is not None:
        made.type, made.linkname, made.mode = tarfile.SYMTYPE, link, 0o777
    return made


def packed(folder, files, date):
    """A .tar.gz, as bytes, of what is in `folder`. The files are bytes by their names; one whose name ends in `*` may
    be run, and a text `-> NAME` is a link."""
    into = io.BytesIO()
    with tarfile.open(fileobj=into, mode="w", format=tarfile.PAX_FORMAT) as archive:
        for name in sorted(files):
            content, path = files[name], f"{folder}/{name.removesuffix('*')}"
            if isinstance(content, str) and content.startswith("-> "):
                archive.addfile(entry(path, date, 0o777, link=content.removeprefix("-> ")))
                continue
            data = content.encode() if isinstance(content, str) else content
            mode = 0o755 if name.endswith("*") else 0o644
            archive.addfile(entry(path, date, mode, len(data)), io.BytesIO(data))
    return gzip.compress(into.getvalue(), mtime=0)


def files_below(folder):
    """The files below a folder as bytes by their names; links are followed."""
    paths = (path for path in sorted(Path(folder).rglob("*")) if path.is_file())
    return {path.relative_to(folder).as_posix(): path.read_bytes() for path in paths}
