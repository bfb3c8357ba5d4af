"""The client's tests. With WITHOUT_PANDAS in the environment they run as if pandas weren't there."""
import os
import sys

if os.environ.get("WITHOUT_PANDAS"):
    sys.modules["pandas"] = None  # an import then fails
