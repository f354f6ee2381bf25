"""New Python environments, into which a package is installed without a network."""
import os
import subprocess
import sys
from pathlib import Path

SECONDS = 600


def run(*words, **setting):
    """The status of a command and what it prints, where neither this package nor what is built is known."""
    hidden = {"PYTHONPATH", "PREFQ_PROGRAM", "PREFQ_LIBRARY"}
    environment = {**{name: value for name, value in os.environ.items() if name not in hidden}, "PATH": "/usr/bin:/bin", **setting}
    done = subprocess.run([str(word) for word in words], env=environment, stdout=subprocess.PIPE, stderr=subprocess.STDOUT, text=True, timeout=SECONDS, cwd="/")
    return done.returncode, done.stdout


def new_python(folder):
    """The Python of a new environment in this folder; none where python3-venv is not installed."""
    status, said = run(sys.executable, "-m", "venv", folder)
    if status and "ensurepip" in said:
        return None
    if status:
        raise AssertionError(said)
    return Path(folder, "bin/python")


def install(python, *words, **setting):
    """Installs by pip what the words say; its status, and what it prints."""
    return run(python, "-m", "pip", "install", "--no-index", "--disable-pip-version-check", *words, **setting)
