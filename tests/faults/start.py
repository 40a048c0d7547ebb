"""Starts a program in a folder with some files, with calls that fail, and with limits."""
import os
import resource
import subprocess
import sys

HERE = os.path.dirname(os.path.realpath(__file__))
ROOT = os.path.join(HERE, "..", "..")
sys.path.insert(1, os.path.join(HERE, "..", "random"))
LIBRARY = os.path.join(HERE, "out", "faults.so")
# seconds for one run: the machine may be busy
PATIENCE = 600


def build():
    """Builds the library that makes calls fail."""
    os.makedirs(os.path.dirname(LIBRARY), exist_ok=True)
    subprocess.run(["cc", "-O1", "-shared", "-fPIC", os.path.join(HERE, "faults.c"), "-o", LIBRARY, "-ldl"], check=True)


def start(program, words, folder, given=b"", faults=None, memory=None, stack=None):
    """The status, below 0 where a signal ended it, the output and the lines. `faults` are variables for the library; `memory`
    and `stack` are limits in bytes."""

    def limit():
        if memory:
            resource.setrlimit(resource.RLIMIT_AS, (memory, memory))
        if stack:
            resource.setrlimit(resource.RLIMIT_STACK, (stack, stack))

    variables = dict(os.environ)
    if faults is not None:
        variables.update({name: str(value) for name, value in faults.items()}, LD_PRELOAD=LIBRARY)
    limited = limit if memory or stack else None
    ran = subprocess.run([program, *words], cwd=folder, input=given, capture_output=True, timeout=PATIENCE, env=variables, preexec_fn=limited)
    return ran.returncode, ran.stdout, ran.stderr


def put(folder, files):
    for name, text in files.items():
        with open(os.path.join(folder, name), "wb") as file:
            file.write(text)


def examples():
    """The files of the folder examples/."""
    folder = os.path.join(ROOT, "examples")
    files = {}
    for name in sorted(os.listdir(folder)):
        with open(os.path.join(folder, name), "rb") as file:
            files[name] = file.read()
    return files
