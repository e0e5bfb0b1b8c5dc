"""A file and the text that it holds, read and written in pieces, so that nothing is in memory twice."""

import contextlib
import errno
import os
import re
import shutil
import stat

from lock import Lock

PIECE_BYTES, PIECE_LINES = 1 << 16, 1000
# The core keeps characters: a byte that isn't UTF-8 is a private one in the text, from here on.  The bytes of a file's
# own characters of that kind are taken so too, and thus each file comes back as it was.
BYTES = 0x10FE00
_UNUSUAL = re.compile("[\udc80-\udcff\U0010fe80-\U0010feff]")
# No new file can take the name of the edited one, or its owner, by these errors; it can still be written in place.
_NOT_REPLACEABLE = (errno.EACCES, errno.EPERM, errno.EROFS, errno.EBUSY, errno.EINVAL)
_FULL = (errno.ENOSPC, errno.EDQUOT, errno.EFBIG)


def decoded(data):
    """The characters of any bytes; `encoded` returns the same bytes."""
    kept = lambda found: "".join(chr(BYTES + byte) for byte in found[0].encode("utf-8", "surrogateescape"))
    text = data.decode("utf-8", "surrogateescape")
    return text if text.isascii() else _UNUSUAL.sub(kept, text)


def encoded(text):
    escaped = text if text.isascii() else _UNUSUAL.sub(lambda found: chr(ord(found[0]) - BYTES + 0xDC00), text)
    return escaped.encode("utf-8", "surrogateescape")


def stamp_of(file):
    """What distinguishes a state of a file from another; None if there is no file."""
    with contextlib.suppress(OSError):
        return (status := os.stat(file)).st_ino, status.st_size, status.st_mtime_ns


def drop(path):
    with contextlib.suppress(OSError):
        os.unlink(path)


def state_folder():
    """The editor's own folder, for what can't be created in the folder of a file."""
    state = os.environ.get("XDG_STATE_HOME", "")
    return os.path.join(state if os.path.isabs(state) else os.path.expanduser("~/.local/state"), "tktext-editor")


def give_status(new, path, is_copy):
    """Sets the owner and the mode of a new file to those of another one; if it can't, a copy is private."""
    wanted, given = os.stat(path), os.stat(new)
    try:
        if (given.st_uid, given.st_gid) != (wanted.st_uid, wanted.st_gid):
            os.chown(new, wanted.st_uid, wanted.st_gid)
        shutil.copystat(path, new)
    except OSError:
        if not is_copy:
            raise
        os.chmod(new, 0o600)
    os.utime(new)  # copystat gives the old times too, and they would stay if nothing is written


def synchronise(folder):
    """Has the names in a folder on the disk, where the system can do that."""
    with contextlib.suppress(OSError):
        descriptor = os.open(folder, os.O_RDONLY)
        try:
            os.fsync(descriptor)
        finally:
            os.close(descriptor)


def reserve(file, size):
    """Reserves the space for a new size, so that a full disk is met before anything is overwritten."""
    old = os.stat(file.fileno()).st_size
    if size > old and hasattr(os, "posix_fallocate"):
        try:
            os.posix_fallocate(file.fileno(), old, size - old)
        except OSError as error:
            os.truncate(file.fileno(), old)
            if error.errno in _FULL:
                raise


class File:
    """An edited file, its lock, and the copy that is kept while edits aren't saved.

    The lock and the copy are in the folder of the file, or if nothing can be created there, at the same path under the
    state folder.
    """

    def __init__(self, path):
        # The file that a link leads to is edited, and the link stays.
        self.path, self.line_end = os.path.realpath(path), "\n"
        folder, self.name = os.path.split(self.path)
        self.folders = folder, state_folder() + folder
        self.lock_held, self.is_read_only, self.is_half_written = None, False, False
        with contextlib.suppress(FileNotFoundError):
            if not stat.S_ISREG(os.stat(self.path).st_mode):
                raise OSError("not a regular file")
            open(self.path, "rb").close()
        self.stamp = stamp_of(self.path)

    def hidden(self, folder, kind):
        return os.path.join(folder, f".{self.name}.{kind}~")

    def make_state_folder(self):
        os.makedirs(state_folder(), mode=0o700, exist_ok=True)
        os.makedirs(self.folders[1], exist_ok=True)

    def is_changed(self):
        return stamp_of(self.path) != self.stamp

    # The lock

    def lock(self, takes_over=False):
        """Takes the lock.  Raises `Held` if another editor has it, and OSError if there can't be one."""
        lock, other = (Lock(self.hidden(folder, "lock")) for folder in self.folders)
        try:
            lock.take(takes_over)
        except OSError:
            self.make_state_folder()
            lock = other
            lock.take(takes_over)
        self.lock_held = lock

    def unlock(self):
        if self.lock_held:
            self.lock_held.release()
            self.lock_held = None

    # The copy

    def copy(self):
        """The path of the copy that there is, of the newest one if there are two, or None."""
        copies = [path for folder in self.folders if os.path.exists(path := self.hidden(folder, "copy"))]
        return max(copies, key=os.path.getmtime, default=None)

    def drop_copies(self):
        """Deletes the copies; but not another editor's, nor one that has what a file that is half written lacks."""
        if not (self.is_read_only or self.is_half_written):
            for folder in self.folders:
                drop(self.hidden(folder, "copy"))

    def keep(self, text, is_synchronised=False):
        """Keeps a copy of a text, yields the fraction done, and returns the path of the copy."""
        copy, other = (self.hidden(folder, "copy") for folder in self.folders)
        try:
            yield from self.write(text, copy, is_synchronised)
        except OSError:
            self.make_state_folder()
            copy = other
            yield from self.write(text, copy, is_synchronised)
        return copy

    # Loading and saving

    def load(self, text, copy=None):
        """Inserts the file, or a copy of it, at the end of a text; yields the fraction done.  A new file is empty."""
        self.stamp = stamp_of(self.path)
        if not copy and not self.stamp:
            return
        with open(copy or self.path, "rb") as file:
            # By whole lines, so that no character and no end of a line is cut.
            pieces_of = lambda: iter(lambda: b"".join(file.readlines(PIECE_BYTES)), b"")
            size = os.stat(file.fileno()).st_size or 1
            # Where each end of a line is \r\n the core keeps \n, and else each \r is a character as any other.
            counts = [set(map(piece.count, (b"\n", b"\r\n", b"\r"))) for piece in pieces_of()]
            self.line_end = "\r\n" if all(len(count) == 1 for count in counts) and any(map(max, counts)) else "\n"
            file.seek(0)
            for piece in pieces_of():
                text.insert("end", decoded(piece).replace(self.line_end, "\n"))
                yield file.tell() / size

    def save(self, text):
        """Saves a text by a new file that takes the name, or else in place; yields the fraction done."""
        exists = os.path.exists(self.path)
        if exists and not os.access(self.path, os.W_OK):
            raise PermissionError("the file is write-protected")
        if exists and os.stat(self.path).st_nlink > 1:
            yield from self.overwrite(text)
        else:
            try:
                self.stamp = yield from self.write(text, self.path, is_synchronised=True)
            except OSError as error:
                if not exists or error.errno not in _NOT_REPLACEABLE:
                    raise
                yield from self.overwrite(text)
        self.is_half_written = False
        self.drop_copies()

    def write(self, text, path, is_synchronised):
        """Writes a new file, then renames it; yields the fraction done, and returns its stamp."""
        folder = os.path.dirname(path)
        new = self.hidden(folder, "new")
        drop(new)
        try:
            with open(new, "xb") as file:
                if os.path.exists(self.path):
                    give_status(new, self.path, is_copy=path != self.path)
                count = text.count("1.0", "end", "lines", return_ints=True)
                for line in range(1, count + 1, PIECE_LINES):
                    # The newline that the core keeps after the last line isn't the file's.
                    end = f"{line + PIECE_LINES}.0" if line + PIECE_LINES <= count else "end - 1c"
                    file.write(encoded(text.get(f"{line}.0", end).replace("\n", self.line_end)))
                    yield line / count
                file.flush()
                if is_synchronised:
                    os.fsync(file.fileno())
                stamp = stamp_of(file.fileno())
            os.replace(new, path)
            if is_synchronised:
                synchronise(folder)
            return stamp
        finally:
            drop(new)

    def overwrite(self, text):
        """Writes the file in place once a copy is on the disk, which stays until the file is on the disk too."""
        try:
            copy = yield from self.keep(text, is_synchronised=True)
        except OSError as error:
            raise OSError(f"cannot keep a copy while it is overwritten: {error}") from error
        try:
            with open(copy, "rb") as source, open(self.path, "r+b") as file:
                reserve(file, os.path.getsize(copy))
                self.is_half_written = True
                shutil.copyfileobj(source, file)
                file.truncate()
                file.flush()
                os.fsync(file.fileno())
        except OSError as error:
            raise OSError(f"{error}; the text is in {copy}") from error
        finally:
            self.stamp = stamp_of(self.path)
