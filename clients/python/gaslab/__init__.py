"""A client for gaslab, the flow laboratory on the HPP lattice gas.

It speaks the laboratory's line protocol over a pipe or a socket, reads its snapshots, and draws and measures
what it finds. It proves nothing: what is proved is the program that it talks to.
"""
from .protocol.errors import (GaslabError, Gone, MissingLibrary, Moving, Refused, Silent, Strange,
                              Unreachable)
from .protocol.limits import LIMITS, REFUSALS
from .protocol.places import lesson
from .protocol.replies import (Bye, Entry, Ledger, Ok, Probe, Reply, Row, Saved, Tally, named, parse_reply,
                               reply_text)
from .protocol.scripts import Script, parse_script
from .snapshot.files import (Drain, MagicFault, PortFault, ShortFault, SizeFault, Snapshot, SnapshotFault,
                             Source, TickFault, TrailingFault)
from .snapshot.gases import random_gas
from .lab.gas import Gas
from .lab.lab import Lab
from .measure.ensembles import SeedFault, ensemble
from .measure.flows import Flow, flow
from .measure.gates import shoot, trace, truth_table
from .measure.measuring import Fields, Wave, every, profile, velocity, wave
from .measure.placing import Placed, place
from .measure.recording import Recording, record
from .measure.tables import chart, csv_text
from .pictures import palette
from .pictures.drawing import picture, picture_bytes
from .pictures.films import film
from .pictures.notebook import show_pictures
from .pictures.text import text_picture

__version__ = "1.0.0"

__all__ = [
    "Bye", "Drain", "Entry", "Fields", "Flow", "Gas", "GaslabError", "Gone", "LIMITS", "Lab", "Ledger",
    "MagicFault", "MissingLibrary", "Moving", "Ok", "Placed", "PortFault", "Probe", "REFUSALS", "Recording",
    "Refused", "Reply", "Row", "Saved", "Script", "SeedFault", "ShortFault", "Silent", "SizeFault",
    "Snapshot", "SnapshotFault", "Source", "Strange", "Tally", "TickFault", "TrailingFault", "Unreachable",
    "Wave", "chart", "csv_text", "ensemble", "every", "film", "flow", "lesson", "named", "palette",
    "parse_reply", "parse_script", "picture", "picture_bytes", "place", "profile", "random_gas", "record",
    "reply_text", "shoot", "text_picture", "trace", "truth_table", "velocity", "wave",
]

show_pictures()
