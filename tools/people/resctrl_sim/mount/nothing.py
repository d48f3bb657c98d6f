"""The operations on files that a kernel's resctrl does not have."""
import errno

from fusepy import FuseOSError


def refuse_with(number):
    """An operation that always answers this error."""

    def refuse(self, *args):
        raise FuseOSError(number)

    return refuse


class NotThere:
    """Files are neither made nor removed, renamed nor linked, and have no extended attributes."""

    create = refuse_with(errno.EACCES)
    mknod = refuse_with(errno.EPERM)
    unlink = refuse_with(errno.EPERM)
    rename = refuse_with(errno.EPERM)
    link = refuse_with(errno.EPERM)
    symlink = refuse_with(errno.EPERM)
    readlink = refuse_with(errno.EINVAL)
    setxattr = refuse_with(errno.EOPNOTSUPP)
    getxattr = refuse_with(errno.EOPNOTSUPP)
    listxattr = refuse_with(errno.EOPNOTSUPP)
    removexattr = refuse_with(errno.EOPNOTSUPP)
