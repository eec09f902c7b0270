"""Files: read whole before anything is written; written beside and renamed, so that one that stood there stays or is complete."""

import errno
import os
import stat
import sys
import tempfile

from tsav.command.answer import Failure
from tsav.command.messages import N_, _

STANDARD_INPUT = "-"

# The system's own words are English where Python says them.
_WHYS = {
    errno.ENOENT: N_("there is no such file or folder"),
    errno.EISDIR: N_("it is a folder"),
    errno.EACCES: N_("you may not do that"),
    errno.EROFS: N_("you may not do that"),
    errno.ENOSPC: N_("the disk is full"),
    errno.EPIPE: N_("nobody reads it"),
    errno.ENODEV: N_("it is no file, but a device or a pipe"),
    errno.ENOTDIR: N_("there is no such file or folder"),
    errno.ENAMETOOLONG: N_("its name is too long"),
    errno.ELOOP: N_("its links lead nowhere"),
    errno.EFBIG: N_("the disk is full"),
    errno.EDQUOT: N_("the disk is full"),
    errno.EBADF: N_("it is closed"),
    errno.EIO: N_("the device fails"),
}


def why(error: OSError) -> str:
    known = _WHYS.get(error.errno)
    return _(known) if known else error.strerror or str(error)


def read(name: str, most: int) -> bytes:
    """The file's bytes, or standard input's; of a longer one only the first `most` and one more, which tells that it is longer."""
    try:
        if name == STANDARD_INPUT:
            return _whole(opened(sys.stdin).buffer, most + 1)
        with open(name, "rb") as file:
            return _whole(file, most + 1)
    except OSError as error:
        raise Failure(_("{file} can't be read: {why}").format(file=shown(name), why=why(error))) from error


def opened(stream):
    """A standard stream, which Python hasn't where it is closed."""
    if stream is None:
        raise OSError(errno.EBADF, os.strerror(errno.EBADF))
    return stream


def _whole(file, most: int) -> bytes:
    """A pipe may give less than is asked for."""
    found = bytearray()
    while len(found) < most:
        more = file.read(most - len(found))
        if not more:
            break
        found += more
    return bytes(found)


def shown(name: str) -> str:
    return _("standard input") if name == STANDARD_INPUT else name


def differ(read_from: str, written_to: str) -> None:
    """Refuses to write over what is read."""
    try:
        same = read_from != STANDARD_INPUT and os.path.samefile(read_from, written_to)
    except OSError:
        return
    if same:
        raise Failure(_("{file} is what is read: give another name to write").format(file=written_to))


def new(name: str, otherwise: str) -> None:
    """Refuses, in these words, to replace a file that is there: somebody may have filled it in."""
    if os.path.lexists(name):
        raise Failure(otherwise.format(file=name))


def ending(name: str, *endings: str) -> str:
    """Which of these a file's name has, in letters of any size."""
    for found in endings:
        if name.lower().endswith(found):
            return found
    raise Failure(_("{file} is to end in {endings}").format(file=name, endings=_(" or ").join(endings)))


def write(name: str, content: bytes) -> None:
    """In one step: what stood there stays where this fails. Where the name is a link, the file that it leads to is written."""
    if name == STANDARD_INPUT:
        raise Failure(_("give the name of a file to write: {name} is none").format(name=name))
    place = os.path.realpath(name)
    try:
        rights = _rights(place)
        with tempfile.NamedTemporaryFile(dir=os.path.dirname(place), prefix=".tsav-", delete=False) as file:
            beside = file.name
            try:
                file.write(content)
                file.flush()
                os.fsync(file.fileno())
                os.chmod(beside, rights)
                os.replace(beside, place)
            except BaseException:
                os.unlink(beside)
                raise
    except OSError as error:
        raise Failure(_("{file} can't be written: {why}").format(file=name, why=why(error))) from error


def _rights(place: str) -> int:
    """Those of the file that stands there, or that one made by open() would have. A device or a pipe is no place for another file."""
    if not os.path.lexists(place):
        mask = os.umask(0)
        os.umask(mask)
        return 0o666 & ~mask
    found = os.stat(place).st_mode
    if not stat.S_ISREG(found):
        raise OSError(errno.EISDIR if stat.S_ISDIR(found) else errno.ENODEV, os.strerror(errno.ENODEV))
    if not os.access(place, os.W_OK):
        raise OSError(errno.EACCES, os.strerror(errno.EACCES))
    return stat.S_IMODE(found)
