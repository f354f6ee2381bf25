#!/usr/bin/env python3
"""Asks a question of all CSV files of a folder on a Dask cluster, whose workers need neither this package nor its library: both are sent to them.

    dask-scheduler --port 8786 &
    dask-worker tcp://127.0.0.1:8786 --nthreads 1 &               # one or more, on machines that see the folder under the same path
    python3 examples/parts/dask_workers.py tcp://127.0.0.1:8786 FOLDER 'best low(price) * low(dist)'

Needs Dask (Debian: python3-distributed), and the package `prefq` where this runs.
"""
import io
import os
import sys
import zipfile
from pathlib import Path

from distributed import Client, WorkerPlugin

import prefq
from prefq.parts import best


class SendPrefq(WorkerPlugin):
    """A worker plugin: writes the package and the library into the folder of each worker, also of those that join later."""

    name = "prefq"

    def __init__(self, package, library):
        self.package, self.library = package, library

    def setup(self, worker):
        package, library = (os.path.join(worker.local_directory, name) for name in ("prefq.zip", "libprefq.so"))
        for path, data in [(package, self.package), (library, self.library)]:
            with open(path + ".new", "wb") as file:
                file.write(data)
            os.replace(path + ".new", path)
        sys.path.insert(0, package)
        os.environ["PREFQ_LIBRARY"] = library


def package():
    """The Python files of the package, zipped, as Python can import them."""
    folder, zipped = Path(prefq.__file__).parent, io.BytesIO()
    with zipfile.ZipFile(zipped, "w", zipfile.ZIP_DEFLATED) as archive:
        for path in folder.rglob("*.py"):
            archive.write(path, path.relative_to(folder.parent))
    return zipped.getvalue()


def main(scheduler, folder, question):
    files = sorted(Path(folder).resolve().glob("*.csv"))
    with Client(scheduler) as client:
        register = getattr(client, "register_plugin", None) or client.register_worker_plugin     # its name in new and in old versions
        register(SendPrefq(package(), Path(prefq.find_library()).read_bytes()))
        try:
            print(best(files, question, map=client.map).to_csv(), end="")
        except prefq.Error as why:
            sys.exit(str(why))


if __name__ == "__main__":
    main(*sys.argv[1:])
