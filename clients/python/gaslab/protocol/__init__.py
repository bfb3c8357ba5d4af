"""The line protocol. It needs the standard library and numpy only."""
from .errors import library

library("numpy")  # without it, the message says how to install it
