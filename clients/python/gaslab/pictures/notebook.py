"""How a notebook shows a laboratory or a snapshot: as its picture."""
import sys

from ..lab.lab import Lab
from ..snapshot.files import Snapshot
from .drawing import picture_bytes


def show_pictures() -> None:
    """Has IPython, if it runs, show laboratories and snapshots as pictures."""
    python = sys.modules.get("IPython")
    shell = python.get_ipython() if python else None
    if shell is not None:
        for kind in (Lab, Snapshot):
            shell.display_formatter.formatters["image/png"].for_type(kind, picture_bytes)
