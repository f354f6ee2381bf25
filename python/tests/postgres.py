"""A server of PostgreSQL of the tests' own, on a socket in a folder of its own, where PostgreSQL and psycopg2 or psycopg are installed."""
import contextlib
import os
import pwd
import shutil
import subprocess
import tempfile
import time
from importlib import import_module
from pathlib import Path

SECONDS = 120
SETTINGS = {"listen_addresses": "", "wal_level": "logical", "max_replication_slots": "10", "fsync": "off", "shared_buffers": "16MB", "logging_collector": "off"}


def programs():
    """The folder of the server's programs, the newest ones; None where there are none."""
    found = sorted(Path("/usr/lib/postgresql").glob("*/bin/initdb"), key=lambda path: int(path.parts[-3]))
    on_path = shutil.which("initdb")
    return found[-1].parent if found else Path(on_path).resolve().parent if on_path else None


def clients():
    """The modules that connect to a server."""
    found = []
    for name in ("psycopg2", "psycopg"):
        with contextlib.suppress(ImportError):
            found.append(import_module(name))
    return found


def user():
    """Whom the server runs as: it refuses to be root's."""
    if os.geteuid() != 0:
        return pwd.getpwuid(os.geteuid())
    try:
        return pwd.getpwnam("postgres")
    except KeyError:
        return None


MISSING = "PostgreSQL is not installed" if programs() is None or user() is None else "" if clients() else "neither psycopg2 nor psycopg is installed"


class Server:
    """A server with an empty database; `start` and `stop` may be called again."""

    def __init__(self, **settings):
        self.settings = {**SETTINGS, **settings}
        self.folder = tempfile.mkdtemp(prefix="pg")
        os.chown(self.folder, user().pw_uid, user().pw_gid)
        self.data = os.path.join(self.folder, "data")
        self.process = None
        self._run("initdb", "-D", self.data, "-U", "postgres", "-A", "trust", "--no-sync", "-E", "UTF8", "--locale=C")
        self.start()

    def __enter__(self):
        return self

    def __exit__(self, *_):
        self.stop()
        shutil.rmtree(self.folder)

    def start(self):
        options = [word for name, value in self.settings.items() for word in ("-c", f"{name}={value}")]
        command = [str(programs() / "postgres"), "-D", self.data, "-k", self.folder, *options]
        self.process = subprocess.Popen(command, stdin=subprocess.DEVNULL, stdout=subprocess.DEVNULL, stderr=subprocess.DEVNULL, cwd=self.folder, **self._as_user())
        end = time.monotonic() + SECONDS
        while True:
            try:
                self.connected().close()
                return
            except Exception:       # not yet
                if time.monotonic() > end or self.process.poll() is not None:
                    raise
                time.sleep(0.1)

    def stop(self):
        self.process.send_signal(2)     # a fast shutdown
        self.process.wait()

    def connected(self, module=None, **options):
        """A connection, each of whose statements is a transaction, unless it says begin."""
        found = (module or clients()[0]).connect(**{"host": self.folder, "user": "postgres", "dbname": "postgres", **options})
        found.autocommit = True
        return found

    def _run(self, program, *words):
        subprocess.run([str(programs() / program), *words], check=True, stdin=subprocess.DEVNULL, stdout=subprocess.DEVNULL, cwd=self.folder, **self._as_user())

    def _as_user(self):
        return {"user": user().pw_uid, "group": user().pw_gid, "extra_groups": []} if os.geteuid() == 0 else {}
