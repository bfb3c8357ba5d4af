"""Folders of the page's programs, which go with the process that made them."""
import fcntl
import os
import shutil
from collections.abc import Iterator
from contextlib import contextmanager, suppress
from pathlib import Path
from tempfile import gettempdir, mkdtemp
from typing import Optional

_PREFIX = "gaslab-page-"
_TRIES = 9
_MEMORY = "/dev/shm"  # files there are never written to a disk


def rooms_folder() -> str:
    """Where the folders are: in memory, or else where the system has such files."""
    return _MEMORY if os.access(_MEMORY, os.W_OK) else gettempdir()


@contextmanager
def room() -> Iterator[str]:
    """A new folder that nobody else sees. It is locked while it is in use, so that no `sweep` takes it."""
    folder, lock = _made()
    try:
        yield folder
    finally:
        shutil.rmtree(folder, ignore_errors=True)
        os.close(lock)


def _made() -> tuple[str, int]:
    """A folder, and the descriptor that locks it. A sweep can remove it first: then it is made again."""
    for _ in range(_TRIES):
        folder = mkdtemp(prefix=_PREFIX, dir=rooms_folder())
        lock = _locked(folder, fcntl.LOCK_EX)
        if lock is not None:
            return folder, lock
    raise OSError(f"no folder in {rooms_folder()} can be locked")


def sweep(where: Optional[str] = None) -> list[str]:
    """Removes the folders that a process left when it was killed. Returns their paths."""
    found = []
    for path in Path(where or rooms_folder()).glob(_PREFIX + "*"):
        lock = _locked(str(path), fcntl.LOCK_EX | fcntl.LOCK_NB)
        if lock is not None:
            shutil.rmtree(path, ignore_errors=True)
            os.close(lock)
            found.append(str(path))
    return found


def _locked(folder: str, how: int) -> Optional[int]:
    """The descriptor by which this process holds a folder of its user, or None. Closing it unlocks it."""
    with suppress(OSError):
        lock = os.open(folder, os.O_RDONLY | os.O_DIRECTORY | os.O_NOFOLLOW)
        with suppress(OSError):
            fcntl.flock(lock, how)
            is_ours = os.fstat(lock).st_uid == os.getuid()
            if is_ours and os.path.samestat(os.fstat(lock), os.stat(folder, follow_symlinks=False)):
                return lock
        os.close(lock)
    return None
