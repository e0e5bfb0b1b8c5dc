#!/usr/bin/env python3
"""Installs into a scratch folder, and tries what stands there as a user would.

    python3 tools/install_test.py

Takes what is proved, or else what `make try` and `make try-lib` built, and says which.  From the scratch prefix alone,
with no folder of this repository in a path: the examples in C and Tcl are built and run, in C by pkg-config and with
each library; the program answers; the library shows the names of include/tktext.h and no others; the manual pages are
found.  Then nothing is left after `make uninstall`.  The same files go below a DESTDIR, and into the tarball and the
Debian package of a release, whose checksums hold; its wheel goes into an environment of Python of its own, where
README's lines and the example in Python run by the library in it, and so does this repository by `pip install .`,
without a network.  The program of `make try` is built anew and tried.  A part that wants a package that isn't there says
so, and is skipped.  Ends in a line `N passed, M failed`; the exit status is 1 if anything failed.
"""

import os
import shutil
import subprocess
import sys
import tempfile
import zipfile

import build_python
import dist
import examples
import install
import library
import manpages
import pages
import python_wheel
import version
from build_library import SONAME
from harness import Tally

TOP = install.TOP
TIMEOUT_SECONDS = 60
# The address space that the program of `make try` is given, and the libraries that it may need.
TRIED_KILOBYTES, C_LIBRARIES = 100_000, {b"libc.so.6", b"libm.so.6"}
PROGRAM_SCRIPT, PROGRAM_PRINTS = b"text .t\n.t insert 1.0 abc\n.t index end-1c\n", b".t\n\n1.3\n"


def is_built(is_tried):
    """Whether a program and a library stand there to be installed."""
    return all(os.path.exists(os.path.join(TOP, item.source)) for item in install.items(is_tried)[:4])


def run(words, folder, given=b"", **more):
    """Runs a command in a scratch folder, with nothing set but what is given.  What it printed, and its status."""
    environment = {"PATH": os.environ["PATH"], "HOME": folder, "LC_ALL": "C.UTF-8", **more}
    done = subprocess.run(words, input=given, capture_output=True, cwd=folder, env=environment, timeout=TIMEOUT_SECONDS)
    if done.returncode:
        print(done.stderr.decode("utf-8", "replace")[-1000:])
    return done.stdout, done.returncode


def call_install(*words):
    """Runs tools/install.py, and tells whether it ended well."""
    done = subprocess.run([sys.executable, os.path.join(TOP, "tools", "install.py"), *words], capture_output=True)
    return done.returncode == 0


def files_below(folder):
    """The places of all files and links below a folder."""
    return {os.path.relpath(os.path.join(at, name), folder) for at, _, names in os.walk(folder) for name in names}


def wanted_places(is_tried):
    """What has to stand below the prefix, by what was built."""
    places = {item.place for item in install.items(is_tried) if os.path.exists(os.path.join(TOP, item.source))}
    return places | {install.LINK, install.DESCRIPTION}


def check_c(prefix, folder, wanted, tally):
    """The example in C, with the shared library as pkg-config says, and with the archive."""
    shutil.copy(os.path.join(TOP, "examples", "peers.c"), folder)
    if shutil.which("pkg-config") is None:
        print("skipped: pkg-config isn't installed")
    else:
        described = f"{prefix}/lib/pkgconfig"
        flags, _ = run(["pkg-config", "--cflags", "--libs", "tktext"], folder, PKG_CONFIG_PATH=described)
        run(["cc", "peers.c", *flags.decode().split(), "-o", "shared"], folder)
        given = run(["./shared"], folder, LD_LIBRARY_PATH=f"{prefix}/lib")
        tally.check(given == (wanted, 0), f"peers.c by pkg-config: {flags!r}, {given!r}")
    run(["cc", "peers.c", f"-I{prefix}/include", f"{prefix}/lib/libtktext.a", "-o", "static"], folder)
    given = run(["./static"], folder)
    tally.check(given == (wanted, 0), f"peers.c with the archive: {given!r}")


# What the calls say that meet no world.
WORDS_PROGRAM = """#include <tktext.h>
#include <stdio.h>
int main(void)
{
    puts(tktext_version());
    puts(tktext_code_text(TKTEXT_NOT_TEXT));
    return puts(tktext_hint(2, (const char *[]){".t", "index"}, "wrong # args")) < 0;
}
"""


def version_line(is_tried):
    """What the library says of itself."""
    return f"{version.text()}, {'not proved' if is_tried else 'proved'}"


def check_words(prefix, is_tried, folder, tally):
    """The library says its version, and whether it was proved; what a code means; and what a fault leaves unsaid."""
    with open(os.path.join(folder, "words.c"), "w", encoding="utf-8") as file:
        file.write(WORDS_PROGRAM)
    run(["cc", "words.c", f"-I{prefix}/include", f"{prefix}/lib/libtktext.a", "-o", "words"], folder)
    given = run(["./words"], folder)
    wanted = f"{version_line(is_tried)}\na word isn't UTF-8\nindex index\n"
    tally.check(given == (wanted.encode(), 0), f"the version, a code, a hint: {given!r}")


def check_tcl(prefix, folder, wanted, tally):
    """The example in Tcl."""
    if not examples.has_tcl() or not os.path.exists(os.path.join(prefix, install.tcl_folder(), "tktext.so")):
        print(f"skipped: the Tcl package isn't built, which wants {examples.TCL_WANTED}")
        return
    shutil.copy(os.path.join(TOP, "examples", "peers.tcl"), folder)
    given = run(["tclsh8.6", "peers.tcl"], folder, TCLLIBPATH=f"{prefix}/lib/tcltk")
    tally.check(given == (wanted, 0), f"peers.tcl: {given!r}")


def check_names(prefix, folder, tally):
    """The shared library shows the calls of its header, and says by which name it is looked for."""
    with open(os.path.join(TOP, "include", "tktext.h"), encoding="utf-8") as file:
        calls = set(manpages.DECLARED.findall(file.read()))
    shown, _ = run(["nm", "-D", "--defined-only", f"{prefix}/lib/{SONAME}"], folder)
    tally.check({line.split()[-1] for line in shown.decode().splitlines()} == calls, f"names that are shown: {shown!r}")
    told, _ = run(["readelf", "-d", f"{prefix}/lib/libtktext.so"], folder)
    tally.check(f"soname: [{SONAME}]".encode() in told, f"the library's own name: {told!r}")


def check_pages(prefix, folder, tally):
    """`man` finds both pages, and shows the name of each."""
    for section in ("1", "3"):
        if not os.path.exists(f"{prefix}/share/man/man{section}/tktext.{section}"):
            print(f"skipped: tktext({section}) isn't made, which wants pandoc")
        elif shutil.which("man") is None:
            print("skipped: man isn't installed")
        else:
            shown, status = run(["man", "-M", f"{prefix}/share/man", section, "tktext"], folder, MANPAGER="cat")
            is_shown = status == 0 and f"tktext({section})".encode() in shown and b"NAME" in shown
            tally.check(is_shown, f"tktext({section}): {shown[:300]!r}")


def check_program(prefix, folder, tally):
    given = run([f"{prefix}/bin/tktext"], folder, PROGRAM_SCRIPT)
    tally.check(given == (PROGRAM_PRINTS, 0), f"the program: {given!r}")


def check_tried(folder, tally):
    """What `make try` builds is like the proved program: it needs the C library alone, and no sanitizer's memory."""
    if shutil.which("rt") is None:
        print("skipped: `make try` wants the Rattle kit (`rt`)")
        return
    program = os.path.join(folder, "tried")
    subprocess.run([sys.executable, os.path.join(TOP, "tools", "try.py"), "--build", program], check=True)
    given = run(["sh", "-c", f"ulimit -v {TRIED_KILOBYTES} && exec {program}"], folder, PROGRAM_SCRIPT)
    tally.check(given == (PROGRAM_PRINTS, 0), f"the program of `make try`, in little memory: {given!r}")
    needed, _ = run(["readelf", "-d", program], folder)
    libraries = [line.split(b"[")[1][:-1] for line in needed.splitlines() if b"(NEEDED)" in line]
    tally.check(set(libraries) <= C_LIBRARIES, f"what the program of `make try` needs: {libraries}")
    with open(program, "rb") as file:
        tally.check(b"ASAN_OPTIONS" not in file.read(), "the program of `make try` has clang's sanitizer in it")


def listed(words, folder, top):
    """The files that a release lists, without the folder that they all stand in."""
    lines = [line.split(" -> ")[0] for line in run(words, folder)[0].decode("utf-8").splitlines()]
    return {line.split()[-1].removeprefix(top) for line in lines if not line.endswith("/")}


def check_record(wheel, tally):
    """A wheel lists each of its files but the list, with its checksum."""
    with zipfile.ZipFile(wheel) as archive:
        record = next(place for place in archive.namelist() if place.endswith("/RECORD"))
        files = {place: archive.read(place) for place in archive.namelist() if place != record}
        given = archive.read(record).decode("utf-8").splitlines()
    wanted = [python_wheel.record_line(place, content).strip() for place, content in files.items()]
    tally.check(sorted(given) == sorted([*wanted, f"{record},,"]), f"the wheel lists {given}")
    names = {os.path.basename(place) for place in files}
    tally.check(names == WHEEL_HAS, f"the wheel has {sorted(names)}")


WHEEL_HAS = {*build_python.files(), build_python.EXTENSION, "METADATA", "WHEEL", "PROVED", "COPYRIGHT"}
# After README's lines: what the text has, an error, whether it is proved, and where the package was found.
WHEEL_PROGRAM = """
import tktext
print(text.get("1.0", "1.end"))
try:
    text.world.call(str(text), "index")
except tktext.TclError as error:
    print(error)
print(tktext.library_version)
print(tktext.__file__)
"""


def check_wheel(wheel, is_tried, example, folder, tally):
    """A wheel, and what `pip install .` makes of this repository, in environments of Python of their own."""
    check_record(wheel, tally)
    if run([sys.executable, "-m", "pip", "--version"], folder)[1]:
        print("skipped: pip isn't installed, by which the wheel is tried")
        return
    block = pages.first_block("README.md", "python")
    for name, installed in (("wheel", wheel), ("source", TOP)):
        place = os.path.join(folder, name)
        python = os.path.join(place, "bin", "python3")
        run([sys.executable, "-m", "venv", "--without-pip", place], folder)
        words = ["--python", python, "install", "--no-index", "--disable-pip-version-check", installed]
        _, status = run([sys.executable, "-m", "pip", *words], folder)
        tally.check(status == 0, f"it is installed by pip: {installed}")
        given, _ = run([python, "-c", "\n".join(block.lines) + WHEEL_PROGRAM], folder)
        said = given.decode("utf-8").splitlines()
        wanted = ["hello, wide world", 'wrong # args: should be ".!text index index"', version_line(is_tried)]
        tally.check(said[:-1] == [*block.output, *wanted], f"README's lines by the {name}: {said}")
        tally.check(said[-1:] and said[-1].startswith(place), f"the folder of the package of the {name}: {said}")
        given = run([python, os.path.join(TOP, "examples", "peers.py")], folder)
        tally.check(given == (example, 0), f"peers.py by the {name}: {given!r}")


def check_release(places, is_tried, example, folder, tally):
    """A release has the same files, what was proved and its licences, and its checksums are right."""
    if any(not os.path.exists(os.path.join(TOP, item.source)) for item in install.items(is_tried)):
        print("skipped: a release wants the Tcl package and the manual pages")
        return
    out, wanted = os.path.join(folder, "dist"), places | {dist.NOTE, dist.LICENCE}
    made = {os.path.splitext(path)[1]: path for path in dist.make(out, is_tried)}
    tarball = made[".gz"]
    name = os.path.basename(tarball).removesuffix(".tar.gz")
    given = listed(["tar", "tzf", tarball], folder, f"{name}/")
    tally.check(given == wanted, f"the tarball lists {sorted(given ^ wanted)}")
    tally.check(run(["sha256sum", "-c", "SHA256SUMS"], out)[1] == 0, "the checksums of the release")
    run(["tar", "xzf", tarball], folder)
    note = os.path.join(folder, name, dist.NOTE)
    with open(note, "rb") as file:
        sums = file.read().partition(b"SHA-256 of each file:\n")[2]
    holds = sums and run(["sha256sum", "-c"], os.path.join(folder, name), sums)[1] == 0
    tally.check(holds, "the checksums of its files")
    if ".whl" in made:
        check_wheel(made[".whl"], is_tried, example, folder, tally)
    else:
        print(f"skipped: a wheel wants {build_python.WANTED}")
    if ".deb" in made:
        given = listed(["dpkg-deb", "-c", made[".deb"]], folder, "./usr/")
        tally.check(given == wanted, f"the Debian package lists {sorted(given ^ wanted)}")
    else:
        print("skipped: dpkg-deb isn't installed")


def check_all(flags, is_tried, folder, tally):
    """Installs, tries everything, and uninstalls."""
    prefix, root, work = (os.path.join(folder, name) for name in ("prefix", "root", "work"))
    os.makedirs(work)
    wanted = {name: text.encode("utf-8") for name, text in library.wanted_of_examples().items()}
    tally.check(call_install("--prefix", prefix, *flags), "it is installed")
    places = wanted_places(is_tried)
    tally.check(files_below(prefix) == places, f"installed: {sorted(files_below(prefix) ^ places)}")
    check_program(prefix, work, tally)
    check_c(prefix, work, wanted["examples/peers.c"], tally)
    check_words(prefix, is_tried, work, tally)
    check_tcl(prefix, work, wanted["examples/peers.tcl"], tally)
    check_names(prefix, work, tally)
    check_pages(prefix, work, tally)
    tally.check(call_install("--prefix", prefix, *flags), "it is installed once more")
    tally.check(call_install("--prefix", prefix, "--uninstall"), "it is uninstalled")
    tally.check(not files_below(prefix), f"not uninstalled: {files_below(prefix)}")
    tally.check(call_install("--prefix", "/usr", "--destdir", root, *flags), "it is installed below a DESTDIR")
    tally.check(files_below(os.path.join(root, "usr")) == places, "the same files are below a DESTDIR")
    with open(os.path.join(root, "usr", install.DESCRIPTION), encoding="utf-8") as file:
        tally.check(file.read().startswith("prefix=/usr\n"), "the description doesn't name the DESTDIR")
    check_release(places, is_tried, wanted["examples/peers.py"], folder, tally)


def main():
    tally = Tally()
    is_tried = not is_built(False)
    if shutil.which("cc") is None or is_tried and not is_built(True):
        print("nothing is tried: this wants a C compiler, and what `make build lib` or `make try try-lib` builds")
        return tally.close()
    out = examples.TRIED if is_tried else examples.PROVED
    print(f"from {out}, which is {'NOT proved' if is_tried else 'proved'}")
    examples.build_alone(out)
    manpages.main([os.path.join(TOP, "out", "man")])
    with tempfile.TemporaryDirectory() as folder:
        check_tried(folder, tally)
        check_all(["--try"] if is_tried else [], is_tried, folder, tally)
    return tally.close()


if __name__ == "__main__":
    sys.exit(main())
