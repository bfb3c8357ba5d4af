"""Which program is started, and whether it is built from its sources as they are."""
import json
import os
import shlex
import shutil
import subprocess
from functools import lru_cache
from importlib import metadata
from pathlib import Path
from typing import Optional
from urllib.parse import unquote, urlparse

from .doors import PathLike
from .errors import Unreachable
from .places import WHEEL_PROGRAM

_LONGEST_SUM = 60.0  # seconds that the script gets to compare its sources
_ROOT = Path(__file__).resolve().parents[4]
_BUILD_LINE = ("In a clone of the repository, this line builds one:\n"
               "    ./gaslab --build && export GASLAB_PROGRAM=$PWD/gaslab")
_BUILT = {1: "was built from other sources", 2: "is not built"}


def find_program(program: Optional[PathLike] = None) -> Path:
    """The program to start: `program`, or what GASLAB_PROGRAM names, or else the first that is found.

    That is the program of the wheel that this package came in, or else that of a script `gaslab`: the one of
    the repository that this package is in or was installed from, or the one on the PATH. The script is asked
    once in a process whether its program is built. Raises `Unreachable`, with the line that helps, if there
    is none, or if a repository's program is not built from its sources as they are.
    """
    named = program if program is not None else os.environ.get("GASLAB_PROGRAM") or _found()
    if named is None:
        raise Unreachable(f"no program to start. {_BUILD_LINE}")
    path = Path(named).absolute()
    if not os.access(path, os.X_OK) or path.is_dir():
        raise Unreachable(f"no program to start: {path} can't be run. {_BUILD_LINE}")
    executable(path)
    return path


def executable(path: Path) -> Path:
    """What is started: the program that a script has built, or else the program that `path` is."""
    return _built(path) if is_script(path) else path


def is_script(path: PathLike) -> bool:
    """Whether a file is the script `gaslab`, which can tell what its program is built from, or a program."""
    with open(path, "rb") as file:
        return b"--is-built" in file.read(1 << 14)


def _found() -> Optional[PathLike]:
    """The wheel's program, or the script of this package's repository, or else what is on the PATH."""
    if WHEEL_PROGRAM.is_file():
        return WHEEL_PROGRAM
    for root in (_ROOT, _installed_from()):
        if root and (root / "gaslab").is_file():
            return root / "gaslab"
    return shutil.which("gaslab")


def _installed_from() -> Optional[Path]:
    """The repository whose client was installed, by what pip notes of a folder that it installs."""
    try:
        noted = metadata.distribution("gaslab").read_text("direct_url.json")
    except metadata.PackageNotFoundError:
        return None
    told = json.loads(noted or "{}")
    folder = Path(unquote(urlparse(told.get("url", "")).path))
    return folder.parents[1] if "dir_info" in told and len(folder.parents) > 1 else None


@lru_cache(maxsize=None)
def _built(script: Path) -> Path:
    """The program that a script has built. A fault is not kept: the next call asks the script again."""
    try:
        done = subprocess.run([script, "--is-built", "--path"], stdin=subprocess.DEVNULL,
                              stdout=subprocess.PIPE, stderr=subprocess.DEVNULL, text=True,
                              timeout=_LONGEST_SUM)
        status, told = done.returncode, done.stdout.rstrip("\n")
    except (OSError, subprocess.TimeoutExpired):
        status, told = -1, ""
    if status or not os.access(told, os.X_OK):
        what = _BUILT.get(status, "does not say whether it is built")
        raise Unreachable(f"the program {what}. This line builds it:\n"
                          f"    (cd {shlex.quote(str(script.resolve().parent))} && ./gaslab --build)\n"
                          "Another program can be named by program= (--program) or GASLAB_PROGRAM")
    return Path(told)
