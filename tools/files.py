"""Why a file cannot be read or written, in the system's words. Nothing is read that could be used up, and nothing is written."""
import errno
import os
import select
import stat


def words_of(number):
    return os.strerror(number)


def why_not_read(path):
    """Why a file cannot be read, or None."""
    try:
        mode = os.stat(path).st_mode
        if stat.S_ISDIR(mode):
            return words_of(errno.EISDIR)
        if not stat.S_ISREG(mode):
            return None if os.access(path, os.R_OK) else words_of(errno.EACCES)
        with open(path, "rb") as f:
            f.read(1)
    except (OSError, ValueError) as error:
        return getattr(error, "strerror", None) or str(error)
    return None


def why_not_written(path):
    """Why a file cannot be written, or None."""
    try:
        if os.path.exists(path):
            if os.path.isdir(path):
                return words_of(errno.EISDIR)
            return None if os.access(path, os.W_OK) else words_of(refused_by(path))
        # What a link leads to is what is written.
        folder = os.path.dirname(os.path.realpath(path) if os.path.islink(path) else path) or "."
        if not path or not os.path.exists(folder):
            return words_of(errno.ENOENT)
        if not os.path.isdir(folder):
            return words_of(errno.ENOTDIR)
        if os.path.islink(path) and os.path.islink(os.path.realpath(path)):
            return words_of(errno.ELOOP)
        if len(os.fsencode(os.path.basename(path))) > os.pathconf(folder, "PC_NAME_MAX"):
            return words_of(errno.ENAMETOOLONG)
        return None if os.access(folder, os.W_OK | os.X_OK) else words_of(refused_by(folder))
    except (OSError, ValueError) as error:
        return getattr(error, "strerror", None) or str(error)


def refused_by(path):
    """The number of the cause why what is there may not be written."""
    return errno.EROFS if os.statvfs(path).f_flag & os.ST_RDONLY else errno.EACCES


def why_write_failed(path):
    """Why a write to a file failed that was tried, as far as can be seen afterwards, or None."""
    found = why_not_written(path)
    if found:
        return found
    try:
        state = os.stat(path if os.path.exists(path) else os.path.dirname(path) or ".")
        if stat.S_ISCHR(state.st_mode) and os.path.exists("/dev/full") and state.st_rdev == os.stat("/dev/full").st_rdev:
            return words_of(errno.ENOSPC)
        if stat.S_ISREG(state.st_mode) or stat.S_ISDIR(state.st_mode):
            return words_of(errno.ENOSPC) if os.statvfs(path if os.path.exists(path) else os.path.dirname(path) or ".").f_bavail == 0 else None
    except OSError as error:
        return error.strerror
    return None


def why_output_failed():
    """Why standard output took nothing, as far as can be seen afterwards, or None."""
    try:
        os.write(1, b"")
        watch = select.poll()
        watch.register(1, select.POLLOUT)
        if any(event & (select.POLLERR | select.POLLHUP) for _, event in watch.poll(0)):
            return words_of(errno.EPIPE)
        return words_of(errno.ENOSPC) if os.fstatvfs(1).f_bavail == 0 and stat.S_ISREG(os.fstat(1).st_mode) else None
    except OSError as error:
        return error.strerror
