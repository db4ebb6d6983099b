"""What more than one file of checks needs: where things stand, and small ways to run and to write."""

import os
import subprocess

from cases.case import REPOSITORY

TOCK, EXAMPLES = os.path.join(REPOSITORY, "tock"), os.path.join(REPOSITORY, "examples")
IMAGES, SCRIPTS = os.path.join(EXAMPLES, "images"), os.path.join(EXAMPLES, "scripts")


def run(words, timeout=100, **how):
    return subprocess.run(words, capture_output=True, text=True, timeout=timeout, **how)


def write(folder, name, text, mode=0o644):
    path = os.path.join(folder, name)
    os.makedirs(os.path.dirname(path), exist_ok=True)
    with open(path, "w") as file:
        file.write(text)
    os.chmod(path, mode)


def contents(path):
    with open(path, "rb") as file:
        return file.read()
