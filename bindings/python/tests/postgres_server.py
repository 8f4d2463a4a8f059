"""A PostgreSQL server for one test: its files are in a temporary folder, and it listens at a socket there alone."""

from __future__ import annotations

import os
import pwd
import shutil
import subprocess
import tempfile
from pathlib import Path


def _programs() -> Path | None:
    """The folder of `initdb` and `pg_ctl`."""
    places = sorted(Path("/usr/lib/postgresql").glob("*/bin"), reverse=True)
    found = shutil.which("initdb")
    return next((place for place in places if (place / "initdb").exists()), Path(found).parent if found else None)


class TemporaryServer:
    """Entering it starts the server and gives its address; leaving it stops the server and removes its files."""

    @staticmethod
    def is_installed() -> bool:
        """Whether there is a server to start, and one to start it as: it refuses to run as root."""
        return _programs() is not None and (os.geteuid() != 0 or _has_user())

    def __enter__(self) -> str:
        self._folder = Path(tempfile.mkdtemp())
        if os.geteuid() == 0:
            shutil.chown(self._folder, "postgres", "postgres")
        self._run("initdb", "--auth=trust", "--username=lnlink", f"--pgdata={self._folder}/data")
        self._run("pg_ctl", "start", "--wait", f"--pgdata={self._folder}/data", f"--log={self._folder}/log",
                  f"--options=-c listen_addresses='' -c unix_socket_directories={self._folder}")
        return f"host={self._folder} user=lnlink dbname=postgres"

    def __exit__(self, *_: object) -> None:
        self._run("pg_ctl", "stop", "--mode=fast", f"--pgdata={self._folder}/data")
        shutil.rmtree(self._folder)

    def _run(self, program: str, *arguments: str) -> None:
        place = _programs()
        assert place is not None
        as_user = {"user": "postgres", "group": "postgres"} if os.geteuid() == 0 else {}
        subprocess.run([str(place / program), *arguments], check=True, stdout=subprocess.DEVNULL, cwd="/", **as_user)


def _has_user() -> bool:
    try:
        pwd.getpwnam("postgres")
        return True
    except KeyError:
        return False
