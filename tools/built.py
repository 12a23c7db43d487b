"""The programs that were proved and built from the present sources."""

import functools
import subprocess
import sys
from pathlib import Path


@functools.cache
def find_program(name):
    """The path of a program, or None if it is not built; tools/built.sh then says on standard error how to build it."""
    process = subprocess.run([Path(__file__).with_name("built.sh"), name], stdout=subprocess.PIPE, check=False)
    return process.stdout.decode().strip() if process.returncode == 0 else None


@functools.cache
def program(name):
    """The path of a program. Ends this process if it is not built, after a message of tools/built.sh."""
    process = subprocess.run([Path(__file__).with_name("built.sh"), name], stdout=subprocess.PIPE, check=False)
    if process.returncode != 0:
        sys.exit(process.returncode)
    return process.stdout.decode().strip()
