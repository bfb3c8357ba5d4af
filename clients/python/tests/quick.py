"""Tests in several processes, to which their classes are dealt. Warnings are errors there.

    /usr/bin/python3 -m tests.quick      without a browser, a notebook or an installation: under 20 seconds
                                         on four idle cores
    /usr/bin/python3 -m tests.quick all  all but the notebook and those of the page in a browser: a minute

The last line counts tests.
"""
import importlib
import os
import pathlib
import re
import subprocess
import sys
import time
import unittest
from concurrent.futures import ThreadPoolExecutor

QUICK = [f"test_{name}" for name in (
    "lab", "measure", "pictures", "link", "recording", "one_file", "snapshot", "page_texts", "progress",
    "watch", "page_gates", "replies")]


def classes(modules):
    """The names of all test classes of the modules."""
    found = []
    for name in modules:
        module = importlib.import_module(f"tests.{name}")
        kinds = [it for it in vars(module).values() if isinstance(it, type)]
        found += [f"{it.__module__}.{it.__name__}" for it in kinds
                  if issubclass(it, unittest.TestCase) and it.__module__ == module.__name__]
    return found


def run(names):
    """How many tests these classes have, and what is said if one fails."""
    done = subprocess.run([sys.executable, "-W", "error", "-m", "unittest", *names], text=True,
                          env={**os.environ, "WITHOUT_PAGE": "1", "WITHOUT_NOTEBOOK": "1"},
                          stdout=subprocess.PIPE, stderr=subprocess.STDOUT)
    count = re.search(r"^Ran (\d+) test", done.stdout, re.M)
    return int(count[1]) if count else 0, done.stdout if done.returncode else ""


def main():
    every = sorted(it.stem for it in pathlib.Path(__file__).parent.glob("test_*.py"))
    modules = {(): QUICK, ("all",): every}.get(tuple(sys.argv[1:])) or sys.exit(__doc__)
    began, names, groups = time.monotonic(), classes(modules), 2 * (os.cpu_count() or 1)
    with ThreadPoolExecutor(groups // 2) as pool:
        done = list(pool.map(run, [names[k::groups] for k in range(groups)]))
    faults = [said for _, said in done if said]
    count, seconds = sum(count for count, _ in done), time.monotonic() - began
    print("".join(faults) + f"{count} tests in {seconds:.0f} seconds, {len(faults)} processes failed")
    sys.exit(bool(faults))


if __name__ == "__main__":
    main()
