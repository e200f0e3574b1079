"""Runs a python script as a process of its own, forked from this one: the interpreter and the library's modules that a recipe imports are there already, which
is most of what a recipe takes. The script itself, and what it imports beside it, is loaded anew each time."""
import argparse
import array
import bisect
import collections
import datetime
import decimal
import gc
import gzip
import hashlib
import io
import json
import mmap
import os
import runpy
import shutil
import signal
import subprocess
import sys
import textwrap
import traceback
import typing

# What the scripts import of Python's library, imported once here, so that each run of one is short.
LIBRARY = (argparse, array, bisect, collections, datetime, decimal, gc, gzip, hashlib, json, mmap, shutil, subprocess, textwrap, typing)
# The folder of this script.
OWN = os.path.dirname(os.path.realpath(__file__))
SECONDS = 120  # how long a script may take before it is ended


def become(script, words, variables, outputs):
    """Runs the script in this process, which ends with the script."""
    # The outputs are those of the call, the input is empty, and the time is limited.
    for number, output in enumerate(outputs, 1):
        os.dup2(output, number)
    os.dup2(os.open(os.devnull, os.O_RDONLY), 0)
    os.environ.update(variables)
    sys.dont_write_bytecode, sys.pycache_prefix = False, variables.get("PYTHONPYCACHEPREFIX")
    signal.alarm(SECONDS)
    # The script finds the modules beside it, and none of the checker's own.
    sys.path[:] = [os.path.dirname(script), *(folder for folder in sys.path[1:] if os.path.realpath(folder) != OWN)]
    for name, module in list(sys.modules.items()):  # the checker's own modules are none of the script's
        if os.path.dirname(os.path.realpath(getattr(module, "__file__", None) or "/")) == OWN:
            del sys.modules[name]
    sys.argv = [script, *words]
    sys.stdout = io.TextIOWrapper(os.fdopen(1, "wb"), encoding="utf-8")
    sys.stderr = io.TextIOWrapper(os.fdopen(2, "wb"), encoding="utf-8")
    # The script runs as the program, and its end tells the status.
    status = 0
    try:
        runpy.run_path(script, run_name="__main__")
    except SystemExit as ended:
        # An end with a number has that status, one with nothing 0, and one with a text 1: the text is told.
        status = ended.code if isinstance(ended.code, int) else 0 if ended.code is None else 1
        if isinstance(ended.code, str):
            print(ended.code, file=sys.stderr)
    except BaseException:
        traceback.print_exc()
        status = 1
    sys.stdout.flush()
    sys.stderr.flush()
    # So nothing of the checker runs at the end.
    os._exit(status)


def run(script, *words, **variables):
    """What a script writes to its output and says on its error output, and its status."""
    with open(os.memfd_create("said"), "w+b") as said, open(os.memfd_create("told"), "w+b") as told:
        process = os.fork()
        if not process:
            try:
                become(os.fspath(script), [os.fspath(word) for word in words], variables, (said.fileno(), told.fileno()))
            finally:
                # A script that could not be begun.
                os._exit(70)
        status = os.waitstatus_to_exitcode(os.waitpid(process, 0)[1])
        texts = []
        for file in (said, told):
            file.seek(0)
            texts.append(file.read().decode("utf-8", "replace"))
    return texts[0], texts[1], status
