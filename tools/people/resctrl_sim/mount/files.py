"""The simulated tree as a file system. Which command an operation is stands here; what it answers is the program's word."""
import errno
import os
import stat

from fusepy import FuseOSError, Operations

from ..program import Broken, NoScript
from . import extras
from .attributes import Table
from .kinds import MODES, NAME_BYTES, Kind, Kinds, is_name, is_path
from .nothing import NotThere
from .opens import Opens
from .recording import Unrecordable
from .strict import Strict
from .words import warn

BLOCK_BYTES = 4096


class Files(Opens, NotThere, Operations):
    """The operations of clients, one at a time. The path is None of a file or directory that is held open and was removed."""

    # For the library: times are nanoseconds, paths may be None, and a time may be left as it is.
    use_ns = True
    flag_nullpath_ok = 1
    flag_utime_omit_ok = 1

    def __init__(self, recording, ready, strict=False, processes=None):
        self.recording = recording
        self.ready = ready
        self.strict = Strict(recording) if strict else None
        self.processes = processes
        self.kinds = Kinds(recording)
        self.table = Table()
        self.handles = {}
        self.next_handle = 1
        # Why the mount itself refused an operation, until the next command that sets a status.
        self.cause = None
        # Whether it was said that nothing can be recorded now.
        self.is_stuck = False

    def init(self, path):
        self.ready()

    # ---- what stands at a path

    def mode(self, path):
        """The kind and the permissions of what stands at a path."""
        mode = extras.MODES.get(path) if extras.is_extra(path) else MODES.get(self.asked(lambda: self.kinds.of(path)))
        if mode is None:
            raise FuseOSError(errno.ENOENT)
        changed = self.table.of(path).mode
        return mode if changed is None else stat.S_IFMT(mode) | changed

    def getattr(self, path, fh=None):
        if path is None:
            return self.handles[fh].stat | {"st_nlink": 0}
        mode, attributes = self.mode(path), self.table.of(path)
        return {
            "st_mode": mode,
            "st_ino": attributes.inode,
            "st_nlink": 2 if stat.S_ISDIR(mode) else 1,
            "st_uid": attributes.uid,
            "st_gid": attributes.gid,
            "st_atime": attributes.accessed,
            "st_mtime": attributes.modified,
            "st_ctime": attributes.changed,
        }

    def statfs(self, path):
        return {"f_bsize": BLOCK_BYTES, "f_frsize": BLOCK_BYTES, "f_namemax": NAME_BYTES}

    # ---- commands

    def asked(self, question):
        """What the program answers, unless the script or the record has no room for more, or the program finds no memory."""
        count = self.recording.count
        try:
            answer = question()
        except NoScript as why:
            raise FuseOSError(errno.EFBIG if why.what == "script too large" else errno.EINVAL) from why
        except Broken as why:
            warn(why)
            raise FuseOSError(errno.EIO) from why
        except Unrecordable as why:
            self.cause = f"not recorded, and so not done: {why.strerror}"
            if not self.is_stuck:
                warn(f"an operation was {self.cause}; others are refused too, until they can be recorded")
            self.is_stuck = True
            raise
        self.is_stuck = self.is_stuck and self.recording.count == count
        return answer

    def command(self, op, play=None):
        """The answer of an accepted command; a refusal's name is the error."""
        answer = self.asked(lambda: (play or self.recording.do)(op))
        if op.startswith(("mkdir ", "write ")):
            self.cause = None
            if self.strict:
                self.strict.answered(*(op.split(" ", 2) + [""])[1:3], answer)
        if not answer.accepted:
            raise FuseOSError(getattr(errno, answer.error))
        return answer

    def mkdir(self, path, mode):
        if not is_name(os.path.basename(path)):
            raise FuseOSError(errno.ENAMETOOLONG)
        if not is_path(path):
            raise FuseOSError(errno.EINVAL)
        if self.strict:
            self.strict.may_make(path)
        self.command(f"mkdir {path}")
        self.kinds.changed(path, Kind.DIRECTORY)
        self.table.made(path, stat.S_IMODE(mode))

    def rmdir(self, path):
        self.command(f"rmdir {path}")
        self.kinds.changed(path, Kind.NOTHING)
        self.table.removed(path)

    def readdir(self, path, fh):
        if path is None:
            raise FuseOSError(errno.ENOENT)
        names = [] if extras.is_extra(path) else self.command(f"list {path}").lines
        return [".", "..", *names]

    # ---- what no command has

    def chmod(self, path, mode):
        self.mode(path)
        self.table.change(path, mode=stat.S_IMODE(mode))

    def chown(self, path, uid, gid):
        self.mode(path)
        given = {"uid": uid, "gid": gid}
        self.table.change(path, **{name: value for name, value in given.items() if value != -1})

    def utimens(self, path, times=None):
        self.mode(path)
        self.table.set_times(path, times)
