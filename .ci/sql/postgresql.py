"""A PostgreSQL server of one's own: in a folder of its own, over a socket there, which is stopped at the end."""

import contextlib
import os
import shutil
import subprocess
import tempfile


def programs():
    """The folder of PostgreSQL's programs, if it is installed."""
    config = shutil.which("pg_config")
    found = subprocess.run([config, "--bindir"], capture_output=True, text=True, check=True).stdout.strip() if config else ""
    server = shutil.which("postgres", path=f"{found}:{os.environ['PATH']}")
    folder = os.path.dirname(os.path.realpath(server)) if server else ""
    return folder if all(os.path.exists(f"{folder}/{name}") for name in ("initdb", "pg_ctl", "psql")) else None


class Unstarted(Exception):
    """The server can't be started on this machine."""


class Server:
    """A server that isn't started yet. It doesn't run as root; what runs it can write to the room."""

    def __init__(self, folder, room, settings=()):
        self.folder, self.room, self.data = folder, room, f"{room}/data"
        self.user = ["runuser", "-u", "nobody", "--"] if os.geteuid() == 0 else []
        self._run("initdb", "-D", self.data, "-A", "trust", "-U", "hlc", "--no-sync", fault=Unstarted)
        with open(f"{self.data}/postgresql.conf", encoding="utf-8") as conf:
            self.plain = conf.read()
        self.configure(*settings)

    def _run(self, program, *words, given=None, fault=RuntimeError):
        ran = subprocess.run([*self.user, f"{self.folder}/{program}", *words], cwd=self.room, input=given, capture_output=True, text=True, timeout=300)
        if ran.returncode:
            raise fault(f"{program}: {ran.stdout}{ran.stderr}")
        return ran.stdout

    def configure(self, *settings):
        """Lines of its configuration, from when it is started next."""
        with open(f"{self.data}/postgresql.conf", "w", encoding="utf-8") as conf:
            print(self.plain, f"unix_socket_directories = '{self.room}'", "listen_addresses = ''", "fsync = off", *settings, sep="\n", file=conf)

    def start(self):
        self._run("pg_ctl", "-D", self.data, "-w", "-l", f"{self.room}/log", "start", fault=Unstarted)

    def stop(self, mode="immediate"):
        self._run("pg_ctl", "-D", self.data, "-w", "-m", mode, "stop")

    def psql(self, *words, given=None):
        return self._run("psql", "-h", self.room, "-U", "hlc", "-d", "postgres", *words, given=given)


@contextlib.contextmanager
def started(folder, *settings):
    """A server that runs, in a room of its own, and is stopped when the block ends."""
    with tempfile.TemporaryDirectory() as room:
        os.chmod(room, 0o777)
        server = Server(folder, room, settings)
        server.start()
        try:
            yield server
        finally:
            if os.path.exists(f"{server.data}/postmaster.pid"):
                server.stop()
