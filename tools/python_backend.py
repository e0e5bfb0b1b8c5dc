"""What `pip install .` calls, by pyproject.toml: makes the wheel that `make dist` makes, of what was built.

The library is out/libtktext.a, or else the unproved out/try/libtktext.a.
"""

import os
import sys
import tempfile

# `pip` has this folder alone where it looks for this file.
sys.path.insert(0, os.path.dirname(os.path.abspath(__file__)))

import build_python  # noqa: E402
import dist  # noqa: E402
import examples  # noqa: E402

NOT_BUILT = """
pip: libtktext.a isn't built: run `make lib`, which proves it, or `make try-lib` for an unproved one in 4 minutes.
"""
WANTED = f"\npip: cannot build the Python package: it needs {build_python.WANTED}.\n"


def is_tried():
    """Whether the library that is at hand isn't proved; ends where there is none."""
    for out in (examples.PROVED, examples.TRIED):
        if os.path.exists(os.path.join(build_python.TOP, out, "libtktext.a")):
            return out == examples.TRIED
    sys.exit(NOT_BUILT)


def build_wheel(wheel_directory, config_settings=None, metadata_directory=None):
    """Makes the wheel in a folder, and returns its name."""
    tried = is_tried()
    if not build_python.can_build():
        sys.exit(WANTED)
    with tempfile.TemporaryDirectory() as folder:
        return os.path.basename(dist.make_wheel(folder, wheel_directory, tried))


def build_sdist(sdist_directory, config_settings=None):
    """There is none: the library's own source is this repository."""
    raise NotImplementedError("a source distribution isn't made: the library is built from the whole repository")
