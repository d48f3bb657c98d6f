"""Open files: reads and writes of their texts."""
import errno
import os

from fusepy import FuseOSError, fuse_get_context

from ..kernel_texts import Unread
from ..program import NoScript
from . import extras, texts
from .kinds import Kind
from .texts import Handle, Refused

LAST_STATUS = "/info/last_cmd_status"


class Opens:
    """The operations on open files and directories, by their handles."""

    def open(self, path, flags):
        """A handle. As in a kernel's tree, also for root the permissions have to allow what it is opened for."""
        needed = {os.O_RDONLY: 0o444, os.O_WRONLY: 0o222, os.O_RDWR: 0o666}[flags & os.O_ACCMODE]
        mode = self.mode(path)
        if needed & 0o444 and not mode & 0o444 or needed & 0o222 and not self.is_writable(path, mode):
            raise FuseOSError(errno.EACCES)
        if self.strict:
            self.strict.may_open(path, bool(needed & 0o222))
        return self.opened(path)

    def opendir(self, path):
        return self.opened(path)

    def opened(self, path):
        handle = self.next_handle
        self.handles[handle] = Handle(path, self.getattr(path))
        self.next_handle += 1
        return handle

    def release(self, path, fh):
        del self.handles[fh]

    releasedir = release

    def is_writable(self, path, mode):
        kind = Kind.WRITABLE if path == extras.ACCESS else self.kinds.known.get(path)
        return bool(mode & 0o222) and kind is Kind.WRITABLE

    def truncate(self, path, length, fh=None):
        self.there(path)
        if not self.is_writable(path, self.mode(path)):
            raise FuseOSError(errno.EACCES)

    def there(self, path):
        """Refuses what is done to a file that was removed, as a kernel does."""
        if path is None:
            raise FuseOSError(errno.ENODEV)

    def read(self, path, size, offset, fh):
        """A read from the beginning is a command; what follows it reads on in the same text."""
        self.there(path)
        handle = self.handles[fh]
        if offset == 0:
            handle.text = self.text(path).encode("ascii")
        return handle.text[offset : offset + size]

    def text(self, path):
        if extras.is_extra(path):
            return extras.read(self.recording, path)
        if path == LAST_STATUS and self.cause:
            return self.cause + "\n"
        text = self.command(f"read {path}").text
        text = self.processes.shown(path, text) if self.processes else text
        return self.strict.shown(path, text) if self.strict else text

    def write(self, path, data, offset, fh):
        """A write is a command. One that goes on where the last of this open file ended, within a line, is the rest of it."""
        self.there(path)
        handle = self.handles[fh]
        goes_on = offset != 0 and offset == handle.offset
        if offset != 0 and not goes_on:
            raise FuseOSError(errno.EINVAL)
        if extras.is_extra(path):
            lines, _, rest = (handle.written + data).rpartition(b"\n")
            self.play_lines(lines)
            handle.written = rest
        else:
            self.write_text(handle, path, data, goes_on and handle.is_cut)
        self.table.modify(path)
        handle.offset = offset + len(data)
        return len(data)

    def flush(self, path, fh):
        """The last line of accesses may lack its newline."""
        handle = self.handles[fh]
        if path and extras.is_extra(path) and handle.written:
            handle.written, last = b"", handle.written
            self.play_lines(last)

    def play_lines(self, lines):
        """Plays whole lines that were written to `.sim/access`, all of them or none."""
        try:
            ops = extras.ops_of(lines)
            self.asked(lambda: self.keep(ops))
        except Refused as why:
            self.cause = why.cause
            raise

    def keep(self, ops):
        """Plays ops and keeps them. A Refused tells of what the program does not take."""
        try:
            self.recording.keep(ops)
        except NoScript as why:
            number = errno.EFBIG if why.what == "script too large" else errno.EINVAL
            raise Refused(number, extras.cause_of(self.recording, ops, why)) from why

    def write_text(self, handle, path, data, is_rest):
        """Writes a text, or the rest of one, which takes its place if no other operation came between."""
        if self.strict:
            self.write_strictly(handle, path, data, is_rest)
            return
        again = is_rest and handle.count == self.recording.count
        written = handle.written + data if again else data
        try:
            texts.op_of(path, written)
            text, ended = self.met(path, written, again)
            if text or ended is None:
                self.write_op(handle, texts.op_of(path, text), written, again)
            if ended is not None:
                raise Refused(errno.ESRCH, f"no task {ended}")
        except Refused as why:
            self.cause = why.cause or self.cause
            raise

    def write_op(self, handle, op, written, again):
        """Does the command of a write. The handle has what was written once it is kept, accepted or refused."""
        before = self.recording.count
        try:
            self.command(op, self.recording.do_again if again else self.recording.do)
        finally:
            if self.recording.count != before:
                handle.written, handle.count = written, self.recording.count

    def met(self, path, text, again=False):
        """What a write moves before it meets a process that has ended, and the id of that, or None. Processes are declared."""
        if not self.processes:
            return text, None
        self.asked(lambda: self.processes.meet(path, text, again))
        ended = self.processes.first_ended(path, text)
        return (text, None) if ended is None else (text[: ended.start()].rstrip(b", \t"), int(ended[0]))

    def write_strictly(self, handle, path, data, is_rest):
        """Writes a text as a kernel reads it, who takes the rest of one for a text of its own."""
        handle.written, self.cause = data, None
        texts.require_whole(path, data, is_rest)
        writer = fuse_get_context()[2]
        text, fault = self.strict.text(path, data, writer)
        text, ended = self.met(path, text.encode("ascii"))
        if ended is not None:
            fault = Unread(errno.ESRCH, f"No task {ended}\nError while processing task {ended}\n")
        if text or not fault:
            self.command(texts.op_of(path, text))
        if fault:
            self.strict.refuse(path, fault)
