#!/usr/bin/env python3
"""Makes out/try/libtktext.a and out/try/libtktext.so before anything is proved: what `make try-lib` calls.

    python3 tools/try_library.py

`rt try` compiles programs alone.  So a copy of the crate `tktext_c` gets a `main` that makes each call once, and is
tried; what its compiler was given is compiled once more as tools/unproved.py does it, with the names of
include/tktext.h and as if each check held, which a proof ensures.  Where one doesn't hold it does anything at
all: this library is for a first look, and for testing code that uses it.
"""

import os
import re
import shutil
import subprocess
import sys
import tempfile

import build
import build_library
import unproved

CRATE = build_library.CRATE
OUT = os.path.join(build.TOP, "out", "try")
# A program whose functions are the library's: what it doesn't call isn't compiled.
MAIN = """
fn main(rt: HostRuntime) {
    let alloc = rt.alloc();
    let lengths = [4usize, 2];
    let mut room = [0u8; 8];
    let mut handle = Handle::empty();
    let mut report = ReportHandle::empty();
    let _ = tktext_new(alloc, &mut handle, 9, 9, 9, 9);
    tktext_drop(alloc, &mut handle);
    let _ = tktext_new_greatest(alloc, &mut handle);
    let _ = tktext_call(alloc, &mut handle, b"text.t", &lengths);
    let _ = tktext_said(alloc, &mut handle, &mut room);
    let _ = tktext_call_told(alloc, &mut handle, true, b"text.t", &lengths);
    let _ = tktext_word(alloc, &mut handle, 0, &mut room);
    let _ = tktext_report_new(alloc, &mut report);
    let _ = tktext_take_report(alloc, &mut handle, &mut report);
    let _ = tktext_told_to(alloc, &mut handle, &mut report, b".t");
    let _ = tktext_told(alloc, &mut report);
    let _ = tktext_told_at(alloc, &mut report, 0);
    let _ = tktext_told_removed(alloc, &mut report, 0);
    let _ = tktext_told_inserted(alloc, &mut report, 0, &mut room);
    let _ = tktext_told_line(alloc, &mut report, 0, 0);
    let _ = tktext_told_column(alloc, &mut report, 0, 0);
    let _ = tktext_told_bytes(alloc, &mut report, 0, 0);
    let _ = tktext_told_units(alloc, &mut report, 0, 0);
    let _ = tktext_told_tags(alloc, &mut report);
    let _ = tktext_told_tag(alloc, &mut report, 0, &mut room);
    let _ = tktext_told_tag_widget(alloc, &mut report, 0, &mut room);
    let _ = tktext_told_tag_from(alloc, &mut report, 0);
    let _ = tktext_told_tag_to(alloc, &mut report, 0);
    let _ = tktext_told_tag_on(alloc, &mut report, 0);
    let _ = tktext_told_marks(alloc, &mut report);
    let _ = tktext_told_mark(alloc, &mut report, 0, &mut room);
    let _ = tktext_told_mark_widget(alloc, &mut report, 0, &mut room);
    let _ = tktext_told_mark_at(alloc, &mut report, 0, 0);
    let _ = tktext_told_mark_gravity(alloc, &mut report, 0, 0);
    let _ = tktext_told_mark_to(alloc, &mut report, 0, b".t");
    tktext_report_drop(alloc, &mut report);
    report.spent();
    let _ = tktext_can_undo(alloc, &mut handle, b".t");
    let _ = tktext_can_redo(alloc, &mut handle, b".t");
    let _ = tktext_feed(alloc, &mut handle, b"text .u");
    tktext_finish(alloc, &mut handle);
    let _ = tktext_next(alloc, &mut handle);
    let _ = tktext_next_told(alloc, &mut handle, true);
    let _ = tktext_status(alloc, &mut handle);
    tktext_drop(alloc, &mut handle);
    handle.spent();
}
"""
EXPORTED = re.compile(r'no_mangle\)\]\npub extern "C" fn (\w+)')
# A function of the crate's root in the module, and how the program begins, of which the library has no need.
NAMED = re.compile(rf'@"{CRATE}::(tktext_\w+)"')
START = "define i32 @main("


def text_of(path):
    with open(path, encoding="utf-8") as file:
        return file.read()


def copy_as_program(folder):
    """A copy of the crate, as a program, and of those below it, in a folder.  Gives the crate's own."""
    crates = os.path.join(build.TOP, "crates.txt")
    copied = {CRATE} | build.crates_below(build.read_crates(crates), CRATE)
    for name in copied:
        left_out = shutil.ignore_patterns("out", "must-fail", "wrong")
        shutil.copytree(build_library.folder_of(name), os.path.join(folder, "crates", name), ignore=left_out)
    with open(os.path.join(folder, "crates.txt"), "w", encoding="utf-8") as file:
        lines = [line for line in text_of(crates).splitlines(True) if re.match(r"\w*", line)[0] in copied]
        file.write("".join(lines).replace(f"{CRATE} staticlib:", f"{CRATE}:"))
    crate = os.path.join(folder, "crates", CRATE)
    root = os.path.join(crate, "src", "lib.rt")
    with open(os.path.join(crate, "src", "main.rt"), "w", encoding="utf-8") as file:
        file.write(text_of(root) + MAIN)
    os.remove(root)
    return crate


def with_names(module, path):
    """Writes a module in which the library's calls, and they alone, are seen from outside.  Gives their names."""
    found = set()
    with open(module, encoding="utf-8") as lines, open(path, "w", encoding="utf-8") as written:
        for line in lines:
            if line.startswith("define ") and (named := NAMED.search(line)):
                found.add(named[1])
                line = line.replace("define internal ", "define ", 1)
            elif line.startswith(START):
                line = line.replace("define ", "define internal ", 1)
            written.write(NAMED.sub(r"@\1", line))
    return found


def compile_library(kit, folder):
    """Makes the libraries of the copy that stands in a folder."""
    kept = unproved.keep_try(kit, folder, copy_as_program(folder))
    tools, named, objects = f"{kit}/toolchain/bin", os.path.join(folder, "named.ll"), os.path.join(folder, "objects")
    module = unproved.kept_files(kept, "clang", "module.bc")[0]
    names = with_names(unproved.without_checks(tools, kept, module), named)
    wanted = set(EXPORTED.findall(text_of(os.path.join(build_library.folder_of(CRATE), "src", "lib.rt"))))
    if names != wanted:
        sys.exit(f"MAIN of tools/try_library.py doesn't call {' '.join(sorted(wanted - names))}")
    os.makedirs(objects)
    flags = ["-fPIC" if flag == "-fPIE" else flag for flag in unproved.COMPILED]
    subprocess.run([f"{tools}/clang", *flags, named, "-o", os.path.join(objects, "tktext.o")], check=True)
    build_library.unpack(os.path.join(kit, "c", "liblibc_c.a"), objects)
    build_library.pack(objects, OUT, "not proved")


def main(words):
    if words:
        print(__doc__)
        return 2
    print("make try-lib: building the library without a proof (3 to 4 minutes)", file=sys.stderr, flush=True)
    try:
        with tempfile.TemporaryDirectory() as folder:
            compile_library(unproved.kit_folder(), folder)
    except (OSError, subprocess.CalledProcessError) as error:
        print(f"make try-lib: cannot build the library: {error}: {build_library.NEEDED}", file=sys.stderr)
        return 1
    print("make try-lib: out/try/libtktext.a and .so are NOT PROVED; `make lib` makes proved ones", file=sys.stderr)
    return 0


if __name__ == "__main__":
    sys.exit(main(sys.argv[1:]))
