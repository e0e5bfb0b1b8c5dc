#!/usr/bin/env python3
"""Makes out/libtktext.a and out/libtktext.so: what `make lib` calls.

    python3 tools/build_library.py

The crate `tktext_c` is proved and built over the crates below it.  Mostly this is what tools/build.py does: what
has changed since it was proved is proved.  A gate leaves the crates below as it proved them, but without the stamps by
which `rt` knows them, so that `rt` would prove them all again; there tools/over.py proves and builds the one crate.

libtktext.a is this crate, the kit's few lines of C that allocate memory, and those of include/; libtktext.so.1
the same, which shows the names of tktext.h alone, and libtktext.so a link to it.
"""

import os
import shutil
import subprocess
import sys
import tempfile

import build
import forms

CRATE = "tktext_c"
NEEDED = "install the Rattle kit (`rt` on the path) and a C compiler"
OUT = os.path.join(build.TOP, "out")
MADE = os.path.join(build.TOP, "crates", CRATE, "out", f"lib{CRATE}.a")
# The name by which a program that was linked with the library looks for it; the number grows with what such a program
# sees.
SONAME = "libtktext.so.1"
# The files of include/.
CALLS_IN_C = ("comfort", "hints", "version")
NAMES = "{ global: tktext_*; local: *; };\n"


def kit_folder():
    """The folder of the kit, which has the page that `rt doc` names."""
    page = subprocess.run(["rt", "doc"], capture_output=True, text=True, check=True).stdout.strip()
    return os.path.dirname(page)


def folder_of(name):
    return os.path.join(build.TOP, "crates", name)


def kept_of(name):
    """Where a library is kept for those above it."""
    return os.path.join(folder_of(name), "out", "rlib", f"{name}.rlib")


def newest_source(name):
    """When the youngest file that a crate's proof reads was written."""
    files = []
    for part in ("src", "specs", "proofs"):
        for folder, _, names in os.walk(os.path.join(folder_of(name), part)):
            files += [os.path.join(folder, it) for it in names]
    return max(map(os.path.getmtime, files))


def is_of_a_gate(name):
    """A gate left this library, of its sources as they are, and `rt` doesn't know it."""
    kept = kept_of(name)
    has_stamp = os.path.exists(os.path.join(os.path.dirname(kept), "stamp"))
    return os.path.isdir(kept) and not has_stamp and os.path.getmtime(kept) > newest_source(name)


def prove():
    """Proves and builds the crate, and returns whether it is proved."""
    below = build.crates_below(build.read_crates(os.path.join(build.TOP, "crates.txt")), CRATE)
    tools = os.path.join(build.TOP, "tools")
    if not all(map(is_of_a_gate, below)):
        return subprocess.run([sys.executable, os.path.join(tools, "build.py"), "--crate", CRATE]).returncode == 0
    words = [sys.executable, os.path.join(tools, "over.py"), CRATE, "--build"]
    done = subprocess.run(words, capture_output=True, text=True, errors="replace")
    if done.returncode:
        print(done.stdout[-4000:], done.stderr[-4000:], sep="\n", file=sys.stderr)
    return done.returncode == 0


def unpack(archive, folder):
    """The objects of an archive, in a folder."""
    subprocess.run(["ar", "x", archive], cwd=folder, check=True)


def compile_calls(objects, proved):
    """The calls that are written in C, of which one says whether the others are proved, among the objects of a folder."""
    flags = ["-Wall", "-Wextra", "-O2", "-fPIC", f'-DTKTEXT_PROVED="{proved}"']
    with tempfile.TemporaryDirectory() as folder:
        with open(os.path.join(folder, "forms.h"), "w", encoding="ascii") as file:
            file.write(forms.header())
        for name in CALLS_IN_C:
            source, made = os.path.join(build.TOP, "include", f"{name}.c"), os.path.join(objects, f"{name}.o")
            subprocess.run(["cc", *flags, f"-I{folder}", "-c", source, "-o", made], check=True)


def pack(objects, out, proved):
    """Makes both libraries of the objects in a folder, and of the calls in C, in `out`."""
    compile_calls(objects, proved)
    files = sorted(os.path.join(objects, name) for name in os.listdir(objects))
    os.makedirs(out, exist_ok=True)
    with tempfile.TemporaryDirectory() as folder:
        archive, shared, names = (os.path.join(folder, name) for name in ("libtktext.a", SONAME, "names"))
        with open(names, "w", encoding="ascii") as file:
            file.write(NAMES)
        subprocess.run(["ar", "rcs", archive, *files], check=True)
        linked = ["-shared", f"-Wl,-soname,{SONAME}", f"-Wl,--version-script={names}"]
        subprocess.run(["cc", *linked, "-o", shared, *files], check=True)
        for made in (archive, shared):
            shutil.move(made, os.path.join(out, os.path.basename(made)))
    link = os.path.join(out, "libtktext.so")
    if os.path.lexists(link):
        os.remove(link)
    os.symlink(SONAME, link)


def main(words):
    if words:
        print(__doc__)
        return 2
    try:
        kit = kit_folder()
        if not prove():
            return 1
        with tempfile.TemporaryDirectory() as folder:
            unpack(MADE, folder)
            unpack(os.path.join(kit, "c", "liblibc_c.a"), folder)
            pack(folder, OUT, "proved")
    except (OSError, subprocess.CalledProcessError) as error:
        print(f"make lib: cannot build the library: {error}: {NEEDED}", file=sys.stderr)
        return 1
    return 0


if __name__ == "__main__":
    sys.exit(main(sys.argv[1:]))
