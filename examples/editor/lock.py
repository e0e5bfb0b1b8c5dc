"""The lock on a file that is edited: one editor has it at a time, and the lock file says which one."""

import contextlib
import errno
import fcntl
import os
import re
import time

# How often a lock file that another process holds is tried again: that process may only be checking it, as this one.
ATTEMPTS, PAUSE_SECONDS = 4, 0.05
CHANGES = 20  # how often a lock file may come and go meanwhile
_NO_FLOCK = (errno.ENOLCK, errno.ENOSYS, errno.ENOTSUP, errno.EOPNOTSUPP, errno.EINVAL, errno.EBADF)
_RECORD = re.compile(r"process \d+ on (?P<host>.+) since .+")


class Held(Exception):
    """Another editor has the lock.  `may_be_stale` is set where this host can't know whether it still runs."""

    def __init__(self, record, may_be_stale):
        super().__init__(f"being edited by {record or 'another process'}")
        self.may_be_stale = may_be_stale


def record_of_this():
    return f"process {os.getpid()} on {os.uname().nodename} since {time.strftime('%Y-%m-%d %H:%M:%S')}"


def is_of_other_host(record):
    found = _RECORD.fullmatch(record)
    return bool(record) and (not found or found["host"] != os.uname().nodename)


class Lock:
    """A lock file that its process holds by `flock`, so it is free as soon as that process ends, however it ends.

    A lock file that no process holds is stale, also where its process number belongs to another process now.  The one
    exception is a record of another host: a shared file system may not pass on what that host holds.
    """

    def __init__(self, path):
        self.path, self.file = path, None

    def take(self, takes_over=False):
        """Takes the lock.  Raises Held if another editor has it, and OSError if no lock file can be created."""
        for _ in range(CHANGES):
            with contextlib.suppress(FileExistsError):
                return self.create()
            with contextlib.suppress(FileNotFoundError):  # its editor has just left
                self.delete_stale(takes_over)
        raise Held("", may_be_stale=True)

    def create(self):
        """Creates the lock file and holds it.  Raises FileExistsError if there is one, or if it isn't held in time."""
        file = open(self.path, "x", encoding="utf-8")
        try:
            if try_to_hold(file) is False or not self.is_current(file):
                raise FileExistsError("another editor took it for a stale one")
            self.write_record(file)
        except OSError:
            file.close()
            raise
        self.file = file

    def write_record(self, file):
        """Writes which process has the lock, for the users of other accounts too; deletes the file if that fails."""
        with contextlib.suppress(OSError):
            os.chmod(self.path, 0o644)
        try:
            os.write(file.fileno(), record_of_this().encode("utf-8"))
        except OSError:
            os.unlink(self.path)
            raise

    def delete_stale(self, takes_over):
        """Deletes a lock file whose editor is gone.  Raises Held if it runs, or if that can't be known."""
        try:
            file = open(self.path, "r+" if os.access(self.path, os.W_OK) else "r", encoding="utf-8", errors="replace")
        except PermissionError as error:
            raise Held("another user", may_be_stale=False) from error
        with file:
            is_held = try_to_hold(file)
            record = file.read().strip()
            if is_held is False:
                raise Held(record, may_be_stale=False)
            if (is_held is None or is_of_other_host(record)) and not takes_over:
                raise Held(record, may_be_stale=True)
            if self.is_current(file):
                os.unlink(self.path)

    def is_current(self, file):
        """Whether the lock file is still this one: another editor may have deleted it."""
        with contextlib.suppress(OSError):
            return os.path.samestat(os.fstat(file.fileno()), os.stat(self.path))
        return False

    def release(self):
        if self.file:
            with contextlib.suppress(OSError):
                if self.is_current(self.file):
                    os.unlink(self.path)
                self.file.close()
            self.file = None


def try_to_hold(file):
    """Holds an open lock file: whether it could, or None where the file system has no such locks."""
    for _ in range(ATTEMPTS):
        try:
            fcntl.flock(file, fcntl.LOCK_EX | fcntl.LOCK_NB)
            return True
        except BlockingIOError:
            time.sleep(PAUSE_SECONDS)
        except OSError as error:
            if error.errno not in _NO_FLOCK:
                raise
            return None
    return False
