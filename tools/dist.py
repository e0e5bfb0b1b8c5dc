#!/usr/bin/env python3
"""Makes a release in out/dist, of what was built: what `make dist` calls.

    python3 tools/dist.py [--try] [--out out/dist]

- tktext-VERSION-MACHINE.tar.gz: what `make install` puts down; it may be unpacked anywhere
- tktext-VERSION-cp39-abi3-PLATFORM.whl: the Python package with the library in it, for `pip install`; where Python's
  headers are
- tktext_VERSION_MACHINE.deb: what the tarball has below /usr, where `dpkg-deb` is installed
- SHA256SUMS: the checksums of these

Each has a file PROVED, which says what was proved: the commit, the toolchain, the last line of the gate where it was
run on that commit, and the checksum of each file; and one that says by which licences it may be copied.  With `--try`
they contain the unproved builds, and say so.  Made twice of one commit and one build they are the same bytes; so the
wheel is put together here (tools/python_wheel.py), and not by setuptools, whichever version of it is installed.
"""

import argparse
import hashlib
import os
import platform
import shutil
import subprocess
import sys
import tempfile

import build_python
import copyrights
import gate
import install
import python_wheel
import version

TOP = install.TOP
NOTE = os.path.join("share", "doc", "tktext", "PROVED")
# Where Debian looks for it.
LICENCE = os.path.join("share", "doc", "tktext", "copyright")
# Below this prefix the tarball's description for pkg-config finds the rest from where it stands itself.
MOVABLE = "${pcfiledir}/../.."
WHAT = """tktext {version}: the editing core of the Tk text widget

Proved: {proved}
Commit: {commit}
Toolchain: {toolchain}
The gate: {gate}

docs/theorems.md of that commit lists what is proved, only tested, and trusted.
`git checkout COMMIT && make test` proves it again; docs/release.md says more.

SHA-256 of each file:
"""
CONTROL = """Package: tktext
Version: {version}
Architecture: {machine}
Maintainer: {maintainer}
Section: libs
Priority: optional
Depends: libc6
Suggests: tcl8.6
Installed-Size: {size}
Description: editing core of the Tk text widget
 A program that runs scripts of Tk's text widget, the same core as a library for
 C, and a package for Tcl. No display is needed.
 .
 {proved}; {note} says which commit, and by which toolchain.
"""


def said(words, otherwise=""):
    """What a program prints, in one line, or something else where it can't."""
    try:
        done = subprocess.run(words, cwd=TOP, capture_output=True, text=True, check=False)
    except OSError:
        return otherwise
    return done.stdout.strip() if done.returncode == 0 else otherwise


def digest(path):
    with open(path, "rb") as file:
        return hashlib.sha256(file.read()).hexdigest()


def files_below(folder):
    """The paths of all files and links below a folder, in order."""
    places = [os.path.relpath(os.path.join(at, name), folder) for at, _, names in os.walk(folder) for name in names]
    return sorted(places)


def checksums(folder, places):
    """A line for each file, as `sha256sum` prints it."""
    return "".join(f"{digest(os.path.join(folder, place))}  {place}\n" for place in places)


def proved_words(is_tried):
    return "NO: built by `make try` and `make try-lib`" if is_tried else "yes, by the toolchain below"


def what_is_proved(root, is_tried):
    """The text of PROVED for the files below a root."""
    commit = gate.commit()
    head = WHAT.format(
        version=version.text(), proved=proved_words(is_tried), commit=commit,
        toolchain=said(["rt", "version"], "unknown"), gate=gate.last_line_of(commit) or "not run on this commit here",
    )
    return head + checksums(root, files_below(root))


def write(root, place, text):
    install.put(os.path.join(root, place), 0o644, lambda path: install.write_text(path, text))


def stage(root, prefix, is_tried):
    """Puts everything below a root, and what is proved of it; ends where something isn't built."""
    missing = install.install(root, prefix, is_tried)
    if missing:
        sys.exit(f"make dist: not built: {' '.join(missing)}")
    write(root, LICENCE, copyrights.text(version.text()))
    write(root, NOTE, what_is_proved(root, is_tried))


def seconds_of_commit():
    """When the commit was made, which is the time of each file."""
    return said(["git", "log", "-1", "--format=%ct"], "0")


def pack(folder, name, out):
    """A tarball of a folder, which has the same bytes each time."""
    path = os.path.join(out, f"{name}.tar.gz")
    sorted_words = ["--sort=name", f"--mtime=@{seconds_of_commit()}", "--owner=0", "--group=0", "--numeric-owner"]
    tar = subprocess.run(["tar", *sorted_words, "-C", folder, "-cf", "-", name], stdout=subprocess.PIPE, check=True)
    with open(path, "wb") as file:
        subprocess.run(["gzip", "-9n"], input=tar.stdout, stdout=file, check=True)
    return path


def make_tarball(folder, out, is_tried):
    name = f"tktext-{version.text()}-{platform.machine()}"
    stage(os.path.join(folder, name), MOVABLE, is_tried)
    return pack(folder, name, out)


def make_wheel(folder, out, is_tried):
    """The wheel for Python, with the library in its extension."""
    root, number = os.path.join(folder, "wheel"), version.text()
    build_python.build(root, os.path.join(TOP, os.path.dirname(install.library(is_tried)), "libtktext.a"))
    extension = os.path.join(root, "tktext", build_python.EXTENSION)
    notes = {
        "METADATA": python_wheel.metadata(number, install.UNPROVED if is_tried else ""),
        "PROVED": what_is_proved(root, is_tried), "COPYRIGHT": copyrights.text(number),
    }
    return python_wheel.make(root, extension, notes, number, int(seconds_of_commit()), out)


def write_control(package, machine, is_tried):
    """The files by which Debian knows a package."""
    size = sum(os.path.getsize(os.path.join(package, place)) for place in files_below(package)) // 1024 + 1
    control = CONTROL.format(
        version=version.for_debian(), machine=machine, size=size, note=f"/usr/{NOTE}",
        maintainer=said(["git", "log", "-1", "--format=%an <%ae>"], "unknown <unknown>"),
        proved="Not proved" if is_tried else "Proved",
    )
    os.makedirs(os.path.join(package, "DEBIAN"))
    install.write_text(os.path.join(package, "DEBIAN", "control"), control)
    install.write_text(os.path.join(package, "DEBIAN", "triggers"), "activate-noawait ldconfig\n")


def make_package(folder, out, is_tried):
    """The Debian package."""
    package = os.path.join(folder, "package")
    machine = said(["dpkg", "--print-architecture"], "amd64")
    stage(os.path.join(package, "usr"), "/usr", is_tried)
    write_control(package, machine, is_tried)
    path = os.path.join(out, f"tktext_{version.for_debian()}_{machine}.deb")
    words = ["dpkg-deb", "--root-owner-group", "--build", package, path]
    environment = {**os.environ, "SOURCE_DATE_EPOCH": seconds_of_commit()}
    subprocess.run(words, check=True, stdout=subprocess.DEVNULL, env=environment)
    return path


def make(out, is_tried):
    """Makes a release in a folder, and returns its files."""
    os.makedirs(out, exist_ok=True)
    makers = [make_tarball] + [make_wheel] * build_python.can_build()
    makers += [make_package] * (shutil.which("dpkg-deb") is not None)
    with tempfile.TemporaryDirectory() as folder:
        # A package has the modes that are written here, whatever the user's mask.
        os.umask(0o022)
        made = [maker(folder, out, is_tried) for maker in makers]
    install.write_text(os.path.join(out, "SHA256SUMS"), checksums(out, map(os.path.basename, made)))
    return made


def main():
    parser = argparse.ArgumentParser(description="makes a release of what was built")
    parser.add_argument("--try", action="store_true", dest="is_tried")
    parser.add_argument("--out", default=os.path.join(TOP, "out", "dist"))
    options = parser.parse_args()
    made = make(os.path.abspath(options.out), options.is_tried)
    print(*made, sep="\n")
    if not made[-1].endswith(".deb"):
        print("make dist: no Debian package: it needs dpkg-deb", file=sys.stderr)
    if not build_python.can_build():
        print(f"make dist: no wheel: it needs {build_python.WANTED}", file=sys.stderr)
    if options.is_tried:
        print("make dist: these files are NOT PROVED", file=sys.stderr)
    return 0


if __name__ == "__main__":
    sys.exit(main())
