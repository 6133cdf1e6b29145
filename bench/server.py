"""A PostgreSQL server of a script's own, in a folder of its own, and stopped at the end.

The programs are those of `pg_config --bindir`, or those beside the `initdb` on the PATH. A server
doesn't run as root: where the script does, the server runs as `postgres`, to whom its folder is
given.
"""

from __future__ import annotations

import contextlib
import os
import pwd
import re
import shutil
import signal
import subprocess
import tempfile
from collections.abc import Iterator, Mapping
from dataclasses import dataclass

# Between the values of a row that psql prints. No text of the scripts has it.
SEPARATOR = "\x1f"

# The order of texts is that of their bytes. Nothing is synced, since nothing outlives the script.
INITDB = ["--no-sync", "--auth=trust", "--username=postgres", "--encoding=UTF8", "--locale=C"]

# Nobody but the script works in the cluster. Hint bits need a commit that is waited for.
SETTINGS = {
    "autovacuum": "off",
    "checkpoint_timeout": "1h",
    "fsync": "off",
    "full_page_writes": "off",
    "listen_addresses": "",
    "max_wal_senders": "0",
    "max_wal_size": "16GB",
    "timezone": "UTC",
    "wal_level": "minimal",
}


class Absent(Exception):
    """Why there is no server on this machine that could be used."""


class Refused(Exception):
    """What the server, or one of its programs, said of words that it refused."""


@dataclass(frozen=True)
class Installation:
    """The server's programs, and who runs them."""

    programs: str
    user: pwd.struct_passwd | None
    """None for whoever runs the script."""

    def command(self, name: str, *words: str) -> list[str]:
        return [os.path.join(self.programs, name), *words]

    def run(self, command: list[str], folder: str, said: str | None = None) -> str:
        """Runs a command in a folder with this text as its input, and answers what it printed."""
        as_user = {}
        if self.user is not None:
            as_user = {"user": self.user.pw_uid, "group": self.user.pw_gid, "extra_groups": []}
        ended = subprocess.run(
            command, input=said, capture_output=True, text=True, errors="replace", cwd=folder,
            env=plain_environment(), **as_user,
        )  # fmt: skip
        if ended.returncode != 0:
            raise Refused((ended.stderr or ended.stdout).strip())
        return ended.stdout

    def give(self, path: str) -> None:
        """Lets the server's user have a file or a folder."""
        if self.user is not None:
            os.chown(path, self.user.pw_uid, self.user.pw_gid)


def plain_environment() -> dict[str, str]:
    """An environment without the settings by which a user's own psql finds another server."""
    return {"PATH": os.environ.get("PATH", os.defpath), "LC_ALL": "C", "TZ": "UTC"}


def installation() -> Installation:
    """The server of this machine, or Absent."""
    programs = programs_folder()
    if os.geteuid() != 0:
        return Installation(programs, None)
    try:
        return Installation(programs, pwd.getpwnam("postgres"))
    except KeyError:
        raise Absent("root can't run a server, and there is no user postgres") from None


def programs_folder() -> str:
    config, initdb = shutil.which("pg_config"), shutil.which("initdb")
    if config is not None:
        folder = subprocess.run([config, "--bindir"], capture_output=True, text=True).stdout.strip()
        if os.access(os.path.join(folder, "initdb"), os.X_OK):
            return folder
    if initdb is not None:
        return os.path.dirname(os.path.realpath(initdb))
    raise Absent("no PostgreSQL server: neither pg_config nor the PATH leads to an initdb")


class Cluster:
    """A cluster in a folder, with its socket and its log beside the data."""

    def __init__(
        self, installed: Installation, folder: str, settings: Mapping[str, str] = SETTINGS
    ):
        self.installed = installed
        self.folder = folder
        self.data = os.path.join(folder, "data")
        self.settings = settings

    def create(self) -> None:
        """Makes the cluster, without checksums, in its folder, which is empty or absent."""
        self.make_folder()
        self.control("initdb", *INITDB, self.data)
        self.have_checksums(False)

    def have_checksums(self, wanted: bool) -> None:
        """Gives the stopped cluster checksums or takes them. PostgreSQL 18 begins with them."""
        told = self.control("pg_controldata", "-D", self.data)
        has = re.search(r"^Data page checksum version: +0$", told, re.MULTILINE) is None
        if has != wanted:
            self.control("pg_checksums", "--enable" if wanted else "--disable", "-D", self.data)

    def make_folder(self) -> None:
        os.makedirs(self.folder, exist_ok=True)
        self.installed.give(self.folder)

    def control(self, name: str, *words: str) -> str:
        return self.installed.run(self.installed.command(name, *words), self.folder)

    @contextlib.contextmanager
    def running(self) -> Iterator[Cluster]:
        """Starts the server, and stops it at the end, which writes all that it has to the disk."""
        settings = {**self.settings, "unix_socket_directories": self.folder}
        options = " ".join(f"-c {name}='{value}'" for name, value in settings.items())
        log = os.path.join(self.folder, "log")
        self.control("pg_ctl", "start", "--wait", "-D", self.data, "-l", log, "-o", options)
        try:
            yield self
        finally:
            self.control("pg_ctl", "stop", "--wait", "-D", self.data, "-m", "fast")

    def copied_to(self, folder: str) -> Cluster:
        """A copy of the cluster, which is stopped, in another folder."""
        copy = Cluster(self.installed, folder, self.settings)
        copy.make_folder()
        self.installed.run(["cp", "-a", self.data, copy.data], self.folder)
        return copy

    def sql(self, statements: str) -> str:
        """Runs statements in a session of their own, and answers what psql printed.

        Each is committed by itself, unless they say BEGIN. The first that is refused ends all.
        """
        options = ["-X", "-q", "-A", "-t", "-F", SEPARATOR, "-v", "ON_ERROR_STOP=1"]
        place = ["-h", self.folder, "-U", "postgres", "-d", "postgres", "-f", "-"]
        command = self.installed.command("psql", *options, *place)
        return self.installed.run(command, self.folder, statements)

    def value(self, query: str) -> str:
        """The one value of a query."""
        return self.sql(query).removesuffix("\n")

    def path_of(self, relation: str) -> str:
        """The path of a table's or an index's first file within a cluster's data."""
        return self.value(f"SELECT pg_relation_filepath('{relation}')")

    def has_extension(self, name: str) -> bool:
        """Whether an extension can be created."""
        query = f"SELECT count(*) FROM pg_available_extensions WHERE name = '{name}'"
        return self.value(query) == "1"

    def version(self) -> str:
        return self.value("SHOW server_version")


@contextlib.contextmanager
def work_folder(installed: Installation, kept: str | None = None) -> Iterator[str]:
    """A folder that the server's user may work in.

    One that is given stays. Another is made under TMPDIR or /tmp and removed again. A script that
    is ended by a signal stops its server and removes the folder too.
    """
    signal.signal(signal.SIGTERM, signal.default_int_handler)
    if kept is not None:
        folder = os.path.abspath(kept)
        os.makedirs(folder, exist_ok=True)
        installed.give(folder)
        yield folder
        return
    with tempfile.TemporaryDirectory(prefix="pg_index_server.") as folder:
        installed.give(folder)
        yield folder


def copy_relation(path: str, copy: str) -> None:
    """Copies a relation's segments, of 1 GiB each: the file of its name, then those with .1, .2."""
    segment = ""
    while os.path.exists(path + segment):
        shutil.copyfile(path + segment, copy + segment)
        segment = f".{int(segment[1:] or 0) + 1}"
