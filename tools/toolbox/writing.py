"""Files that are written whole: there is always the old one or the new one, also where the disk fills or the power fails, and nothing
beside it of a writer that was killed."""
from __future__ import annotations

import contextlib
import errno
import json
import mmap
import os
import stat
from typing import Callable

from toolbox.locks import HAS_LOCKS, lock_free

STREAMS = ('/dev/', '/proc/')
OPEN_FILES = '/proc/self/fd'
# What is said by a file system that has no files without a name.
NAMED_ONLY = (errno.EOPNOTSUPP, errno.EISDIR, errno.EINVAL)
NO_EXCHANGE = (errno.EINVAL, errno.ENOSYS, errno.EOPNOTSUPP, errno.EPERM)  # said of an exchange of two names where there is none
IN_THE_PRESENT_FOLDER, EXCHANGE = -100, 2  # for Linux's renameat2
MOST_IN_PLACE = 1 << 26  # bytes of a file that is written in place, since a copy of both contents is kept
MOST_SECONDS = 60  # a file that was touched so long after its copy was kept is another hand's
NO_READER = 'nobody reads it'
Octets = bytes | mmap.mmap
Look, Taken = Callable[[], None], Callable[[str], None]


class InPlace(Exception):
    """A new file can't take the old one's place with all that the old one has."""


def write_whole(path: str, octets: Octets, look: Look = lambda: None, mode: int = 0o666, taken: Taken | None = None) -> None:
    """Writes a new file, flushes it to the disk and renames it over the old one; mode, owner and attributes stay, and a link leads
    where it led. A file with other names, or with what a new one can't have, is written in place. A stream, as a FIFO or a device, is
    written as it is. `look` is called last before anything changes, and may raise; `taken` is told where that lies for a moment whose place
    the new file has taken, if the system can tell, and may raise, after which it is in its place again. `mode` is that of a file that
    wasn't there. OSError tells why nothing was written."""
    try:
        old = os.stat(path)
    except FileNotFoundError:
        old = None
    if is_stream(path):
        look()
        with open(open_stream(path), 'wb') as stream:
            stream.write(octets)
        return
    if old:
        check_writable(path)
    target = os.path.realpath(path)
    try:
        if old and old.st_nlink > 1:
            raise InPlace
        _replace(target, octets, old, look, mode, taken if old else None)
    except InPlace:
        _write_over(target, octets, look)


def check_writable(path: str) -> None:
    """Raises PermissionError of a file that is read-only, be it for root, too."""
    if not os.stat(path).st_mode & 0o222 or not os.access(path, os.W_OK):
        raise PermissionError(errno.EACCES, 'it is read-only', path)


def is_stream(path: str) -> bool:
    """Whether what stands at a path is no file that another one could take the place of."""
    return path.startswith(STREAMS) or os.path.exists(path) and not os.path.isfile(path)


def open_stream(path: str) -> int:
    """Opens a stream to write to it. A FIFO that nobody reads doesn't wait for one who does."""
    try:
        handle = os.open(path, os.O_WRONLY | os.O_CREAT | os.O_TRUNC | os.O_NONBLOCK | os.O_NOCTTY | os.O_CLOEXEC, 0o666)
    except OSError as error:
        raise OSError(error.errno, NO_READER, path) if error.errno == errno.ENXIO else error from None
    os.set_blocking(handle, True)
    return handle


def write_all(handle: int, octets: Octets) -> None:
    """Writes to an open file, however little of it is taken at a time."""
    left = memoryview(octets)
    while left:
        left = left[os.write(handle, left) :]


def own_folder(path: str) -> None:
    """Makes a folder if it isn't there, and sees to it that nobody else reads in it."""
    os.makedirs(path, mode=0o700, exist_ok=True)
    found = os.stat(path)
    if found.st_uid != os.geteuid():
        raise PermissionError(0, 'it belongs to another user')
    if stat.S_IMODE(found.st_mode) != 0o700:
        os.chmod(path, 0o700)


def _replace(target: str, octets: Octets, old: os.stat_result | None, look: Look, mode: int, taken: Taken | None) -> None:
    """Writes a new file down to the disk, and renames it over the old one."""
    handle, beside = _new(target, 0o600 if old else mode)
    opened = contextlib.ExitStack()
    opened.callback(os.close, handle)
    try:
        with contextlib.suppress(OSError):  # while this is held, no other writer takes the file for a left one
            lock_free(handle)
        if old:
            _carry_over(target, handle, old)
        write_all(handle, octets)
        os.fsync(handle)
        if not beside:
            beside = _place_beside(target)
            os.link(f'{OPEN_FILES}/{handle}', beside, src_dir_fd=handle, follow_symlinks=True)  # with a folder it follows, as Linux wants
        look()
        if not HAS_LOCKS:  # and nothing that is open gets another name, as on Windows
            opened.close()
        _rename(beside, target, taken)
    except BaseException:
        with contextlib.suppress(OSError):
            os.remove(beside)
        raise
    finally:
        opened.close()
    _flush_folder(os.path.dirname(target))


def _new(target: str, mode: int) -> tuple[int, str]:
    """Opens a new file: without a name, so that nothing of it is left if this process is killed; if there can be none such, with the
    name that it returns."""
    try:
        if os.path.isdir(OPEN_FILES):
            return _opened(os.path.dirname(target), os.O_TMPFILE, mode), ''
    except OSError as error:
        if error.errno not in NAMED_ONLY:
            raise
    beside = _place_beside(target)
    return _opened(beside, os.O_CREAT | os.O_EXCL, mode), beside


def _opened(path: str, how: int, mode: int) -> int:
    """Opens a new file to write to it."""
    try:
        return os.open(path, how | os.O_WRONLY | os.O_CLOEXEC, mode)
    except PermissionError as error:
        raise PermissionError(error.errno, f"its folder can't be written ({error.strerror})", path) from None


def _place_beside(target: str) -> str:
    """A name beside a file, always the same one, so that what a killed writer has left there goes. While that is in use, or where
    anybody may make files, another one."""
    folder, fresh = os.path.dirname(target), f'.{os.urandom(8).hex()}.new'
    if os.stat(folder).st_mode & stat.S_IWOTH:
        return os.path.join(folder, fresh)
    _remove_beside(target)
    return _name_beside(target) if not os.path.lexists(_name_beside(target)) else os.path.join(folder, fresh)


def _name_beside(target: str) -> str:
    """That name."""
    mine = _sum_of(f'{os.geteuid()} {target}'.encode('utf-8', 'surrogateescape'))[:16]
    return os.path.join(os.path.dirname(target), f'.{mine}.new')


def _sum_of(octets: bytes) -> str:
    """The SHA-256 of bytes."""
    import hashlib  # which takes long to load, and whoever only reads doesn't need

    return hashlib.sha256(octets).hexdigest()


def _remove_beside(target: str) -> None:
    """Removes what a killed writer has left there."""
    owner = os.stat(target if os.path.exists(target) else os.path.dirname(target)).st_uid
    _remove_left(_name_beside(target), {os.geteuid(), owner})


def sweep(folder: str) -> None:
    """Removes what killed writers have left in a folder of the user's own, whose files have other names each time."""
    for name in os.listdir(folder):
        if name.startswith('.') and name.endswith('.new'):
            _remove_left(os.path.join(folder, name), {os.geteuid()})


def _remove_left(path: str, owners: set[int]) -> None:
    """Removes a file of this name that no writer holds, if it is of one of these users."""
    with contextlib.suppress(OSError):
        handle = os.open(path, os.O_RDONLY | os.O_NOFOLLOW | os.O_NONBLOCK | os.O_CLOEXEC)
        try:
            found = os.fstat(handle)
            if stat.S_ISREG(found.st_mode) and found.st_uid in owners:
                lock_free(handle)
                os.remove(path)
        finally:
            os.close(handle)


def _attributes(file: str | int) -> dict[str, bytes]:
    """A file's extended attributes, its access list among them."""
    try:
        return {name: os.getxattr(file, name) for name in os.listxattr(file)}
    except OSError as error:
        if error.errno == errno.ENOTSUP:
            return {}
        raise


def _carry_over(target: str, handle: int, old: os.stat_result) -> None:
    """Gives a new file the old one's owner, attributes and mode, as far as the system has them."""
    if os.chmod not in os.supports_fd:
        return
    try:
        new = os.fstat(handle)
        if (new.st_uid, new.st_gid) != (old.st_uid, old.st_gid):
            os.chown(handle, old.st_uid, old.st_gid)
        wanted, has = _attributes(target), _attributes(handle)
        for name in has.keys() - wanted.keys():
            os.removexattr(handle, name)
        for name in (each for each in wanted if wanted[each] != has.get(each)):
            os.setxattr(handle, name, wanted[name])
        os.chmod(handle, stat.S_IMODE(old.st_mode))
    except OSError:
        raise InPlace from None


def _rename(beside: str, target: str, taken: Taken | None) -> None:
    """Puts a new file into the old one's place, which can't be where the old one is mounted by itself, as into a container."""
    try:
        if not taken or not exchange(beside, target):
            os.replace(beside, target)
            return
    except OSError as error:
        if error.errno == errno.EBUSY:
            raise InPlace from None
        raise
    try:
        taken(beside)
    except BaseException:
        exchange(beside, target)
        raise
    os.remove(beside)


def exchange(one: str, other: str) -> bool:
    """Puts each of two files into the other's place, at once; False where the system has no such call."""
    import ctypes  # which most that is written doesn't need

    if not HAS_LOCKS:
        return False
    call = getattr(ctypes.CDLL(None, use_errno=True), 'renameat2', None)
    if not call:
        return False
    if call(IN_THE_PRESENT_FOLDER, os.fsencode(one), IN_THE_PRESENT_FOLDER, os.fsencode(other), EXCHANGE) == 0:
        return True
    if (number := ctypes.get_errno()) in NO_EXCHANGE:
        return False
    raise OSError(number, os.strerror(number), other)


def _flush_folder(path: str) -> None:
    """Flushes a folder's names to the disk, where its file system does that."""
    with contextlib.suppress(OSError):
        handle = os.open(path, os.O_RDONLY | os.O_DIRECTORY)
        try:
            os.fsync(handle)
        finally:
            os.close(handle)


# In place


def _kept_for(target: str) -> str:
    """Where both contents of a file lie while it is written in place."""
    from toolbox.command import state_folder  # which stands on this module

    return os.path.join(state_folder(), 'unfinished', f'{_sum_of(os.fsencode(target))}.json')


def is_unfinished(path: str) -> bool:
    """Whether a file is being written, or was when its writer was killed."""
    target = os.path.realpath(path)
    return os.path.exists(_kept_for(target)) or os.path.lexists(_name_beside(target))


def _octets_in(path: str) -> bytes:
    """A file's bytes."""
    with open(path, 'rb') as file:
        return file.read()


def _write_over(target: str, octets: Octets, look: Look) -> None:
    """Writes into the old file itself. A copy of both contents is kept until that is done; a failure brings the old one back."""
    finish(target)
    if max(os.stat(target).st_size, len(octets)) > MOST_IN_PLACE:
        raise OSError(errno.EFBIG, f'it has to be written in place, and has more than {MOST_IN_PLACE:,} bytes', target)
    old, kept = _octets_in(target), _kept_for(target)
    try:
        own_folder(os.path.dirname(kept))
        text = json.dumps({'old': old.decode('latin-1'), 'new': bytes(octets).decode('latin-1')})
        write_whole(kept, text.encode('ascii'))
    except OSError as error:
        raise OSError(error.errno, f'it has to be written in place, and no copy can be kept in {os.path.dirname(kept)} ({error.strerror})') from None
    try:
        look()
    except BaseException:
        _forget(kept)
        raise
    try:
        _put(target, octets)
    except BaseException:
        _put(target, old)
        _forget(kept)
        raise
    _forget(kept)


def _forget(kept: str) -> None:
    """Removes a copy that is no longer wanted. If one stays, `finish` finds nothing to do."""
    with contextlib.suppress(OSError):
        os.remove(kept)


def _put(target: str, octets: Octets) -> None:
    """Writes into a file, down to the disk."""
    handle = os.open(target, os.O_WRONLY | os.O_CLOEXEC)
    try:
        write_all(handle, octets)
        os.ftruncate(handle, len(octets))
        os.fsync(handle)
    finally:
        os.close(handle)


def finish(path: str) -> None:
    """Finishes what a writer that was killed has begun in a file, if nobody has written to it since. OSError tells why not."""
    target = os.path.realpath(path)
    kept = _kept_for(target)
    _remove_beside(target)
    try:
        both = json.loads(_octets_in(kept))
        old, new = (both[name].encode('latin-1') for name in ('old', 'new'))
    except FileNotFoundError:
        return
    except (ValueError, KeyError, TypeError, AttributeError):
        _forget(kept)  # of a copy that isn't whole, nothing was written yet
        return
    now, is_fresh = _octets_in(target), os.stat(target).st_mtime < os.stat(kept).st_mtime + MOST_SECONDS
    done = len(os.path.commonprefix([now, new]))
    if is_fresh and now[done:] == old[done:] and now != old:
        _put(target, new)
        now = new
    if now in (old, new) or not is_fresh:
        _forget(kept)
