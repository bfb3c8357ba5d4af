"""`python3 clients/python WORD ..` is `gaslab-client WORD ..`, without an installation."""
import _signal  # what `signal` stands on: it is there already, and importing nothing can lose no Ctrl-C
import sys

if _signal.getsignal(_signal.SIGINT) is _signal.default_int_handler:
    _signal.signal(_signal.SIGINT, _signal.SIG_DFL)  # a KeyboardInterrupt in an import can be lost
try:
    from gaslab.__main__ import main
except ImportError as fault:
    sys.exit(f"gaslab: {fault}")
sys.exit(main())
