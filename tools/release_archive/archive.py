"""Writes an archive whose bytes depend on its files alone."""
import gzip
import hashlib
import io
import tarfile

from .parts import Part


def with_sums(parts):
    """The files with their checksums as one more."""
    lines = [f"{hashlib.sha256(part.data).hexdigest()}  {name}\n" for name, part in sorted(parts.items())]
    return {**parts, "SHA256SUMS": Part("".join(lines).encode(), False)}


def packed(name, parts, time):
    """The bytes of the archive: all files in the order of their names, of the superuser, with this time."""
    plain = io.BytesIO()
    with tarfile.open(fileobj=plain, mode="w", format=tarfile.USTAR_FORMAT) as archive:
        for file, part in sorted(parts.items()):
            about = tarfile.TarInfo(f"{name}/{file}")
            about.size, about.mtime, about.mode = len(part.data), time, 0o755 if part.is_program else 0o644
            about.uname = about.gname = "root"
            archive.addfile(about, io.BytesIO(part.data))
    return compressed(plain.getvalue())


def compressed(data):
    """In the form of gzip. `gzip.compress` begins with other bytes in another version of Python."""
    made = io.BytesIO()
    with gzip.GzipFile(filename="", mode="wb", compresslevel=9, fileobj=made, mtime=0) as file:
        file.write(data)
    return made.getvalue()
