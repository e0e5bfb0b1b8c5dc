"""Makes a wheel of the files below a folder: what tools/dist.py calls.

A wheel is a zip with a folder of its own in it: METADATA, WHEEL, and RECORD, which lists each file with its checksum.
"""

import base64
import hashlib
import os
import platform
import re
import shutil
import subprocess
import time
import zipfile

METADATA = """Metadata-Version: 2.1
Name: tktext
Version: {version}
Summary: The editing core of Tk's text widget, without a display{note}
Requires-Python: >=3.9

`tktext.Text` has the methods of tkinter's own `Text` that the core has:

    from tktext import Text
    text = Text(undo=True)
    text.insert("1.0", "hello, wide world")

The file PROVED in this package's own folder says whether its library was proved, and COPYRIGHT by which licences it may
be copied.
"""
WHEEL = """Wheel-Version: 1.0
Generator: tools/python_wheel.py
Root-Is-Purelib: false
Tag: {tag}
"""
NEEDED = re.compile(r"\(NEEDED\).*\[(.*)\]")
GLIBC = re.compile(r"GLIBC_(\d+)\.(\d+)")
# The minimum that `pip` supports in this form of a tag.
LEAST_GLIBC = (2, 5)


def metadata(version, note):
    """METADATA, with a note on the library after the summary."""
    return METADATA.format(version=version, note=note)


def told(*words):
    return subprocess.run(words, capture_output=True, text=True, check=True).stdout


def platform_of(library):
    """The platform of an extension: one of Linux by its minimum version of glibc, if it needs nothing else."""
    machine = platform.machine()
    if shutil.which("readelf") is None or NEEDED.findall(told("readelf", "-d", library)) != ["libc.so.6"]:
        return f"linux_{machine}"
    versions = [tuple(map(int, it)) for it in GLIBC.findall(told("readelf", "--version-info", "--wide", library))]
    return "manylinux_{}_{}_{}".format(*max([LEAST_GLIBC, *versions]), machine)


def record_line(place, content):
    digest = base64.urlsafe_b64encode(hashlib.sha256(content).digest()).rstrip(b"=").decode("ascii")
    return f"{place},sha256={digest},{len(content)}\n"


def contents(root, notes, version, tag):
    """Each file of the wheel, by its path: those of the folder, then the notes, and RECORD last."""
    own = f"tktext-{version}.dist-info"
    files = {}
    places = [os.path.relpath(os.path.join(at, name), root) for at, _, names in os.walk(root) for name in names]
    for place in sorted(places):
        with open(os.path.join(root, place), "rb") as file:
            files[place] = file.read()
    notes = {**notes, "WHEEL": WHEEL.format(tag=tag)}
    files.update((f"{own}/{name}", text.encode("utf-8")) for name, text in notes.items())
    record = "".join(record_line(place, content) for place, content in files.items())
    return {**files, f"{own}/RECORD": f"{record}{own}/RECORD,,\n".encode("utf-8")}


def make(root, extension, notes, version, seconds, out):
    """Makes the wheel of the files below a folder and of notes, METADATA among them.

    `seconds` are the time of each file.  The extension among them goes by the stable ABI of Python 3.9.
    """
    tag = f"cp39-abi3-{platform_of(extension)}"
    path = os.path.join(out, f"tktext-{version}-{tag}.whl")
    # A zip has no time before 1980.
    stamp = max(time.gmtime(seconds)[:6], (1980, 1, 1, 0, 0, 0))
    with zipfile.ZipFile(path, "w", zipfile.ZIP_DEFLATED) as archive:
        for place, content in contents(root, notes, version, tag).items():
            about = zipfile.ZipInfo(place, stamp)
            about.external_attr, about.compress_type = 0o100644 << 16, zipfile.ZIP_DEFLATED
            archive.writestr(about, content)
    return path
