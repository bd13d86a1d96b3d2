"""The engines: how each is started in a folder of its own, by a user that isn't root, and which clients run on it."""
import os
import pwd
import shutil
import signal
import socket
import subprocess
import threading
import time
from pathlib import Path

import packages

PYTHON = "/usr/bin/python3"  # Debian's own, which has the package of LMDB
LONGEST = 1500  # seconds after which a server ends by itself
PATIENCE = 300  # seconds for a command, or until a server answers: a machine that is full takes ten times as long as a free one


class Missed(Exception):
    """Something of an engine went wrong."""


class Started:
    """All that was started: each in a process group of its own."""

    def __init__(self):
        self.groups, self.is_over, self.guard = set(), False, threading.Lock()

    def start(self, words, **how):
        self.go_on()
        with self.guard:
            process = subprocess.Popen([str(it) for it in words], stdin=subprocess.DEVNULL, start_new_session=True, **how)
            self.groups.add(process.pid)
            return process

    def go_on(self):
        """Nothing begins once all was ended."""
        if self.is_over:
            raise Missed("ended before its time")

    def kill(self, process):
        """Ends the process with all that it has begun. Of one that has ended its group alone is left: its number may be given again."""
        with self.guard:
            if process.pid in self.groups:
                self.groups.discard(process.pid)
                kill_all([] if process.poll() is not None else families([process.pid]), [process.pid])

    def end(self):
        """Ends all that was started."""
        self.is_over = True
        with self.guard:
            kill_all(families(self.groups), self.groups)
            self.groups.clear()


def families(parents):
    """The processes and their children, as far as they live: a server may leave the group in which it was started."""
    children = {}
    for path in Path("/proc").glob("[0-9]*/stat"):
        try:
            words = path.read_text().rpartition(")")[2].split()
        except (OSError, UnicodeDecodeError):
            continue
        children.setdefault(int(words[1]), []).append(int(path.parent.name))
    found, left = [], list(parents)
    while left:
        found.append(left.pop())
        left += children.get(found[-1], [])
    return found


def kill_all(processes, groups):
    for kill, numbers in ((os.kill, processes), (os.killpg, groups)):
        for number in numbers:
            try:
                kill(number, signal.SIGKILL)
            except (ProcessLookupError, PermissionError):
                pass


STARTED = Started()


class Engine:
    """An engine without a server."""

    name, packages, user = "", (), "nobody"
    late = {"stale"}  # what starts that are asked for too late come to
    is_piped = False  # whether one run is judged behind a pipe
    clients = ()  # of each: its name, its words below examples/, and what it can do wrong

    def __init__(self, room, tree):
        self.room, self.tree, self.servers = Path(room), Path(tree), []
        self.room.mkdir()
        self.variables = {"PATH": "/usr/sbin:/usr/bin:/sbin:/bin", "HOME": str(self.room), "TMPDIR": str(self.room), "LC_ALL": "C.UTF-8",
                          "PYTHONDONTWRITEBYTECODE": "1"}
        self.own(self.room)

    def version(self):
        return f"{self.packages[0]} {packages.version_of(self.packages[0])}"

    def as_user(self):
        """What makes a process the user's, where we are root."""
        if os.getuid() != 0:
            return {}
        who = pwd.getpwnam(self.user)
        return {"user": who.pw_uid, "group": who.pw_gid, "extra_groups": []}

    def own(self, path):
        if os.getuid() == 0:
            who = pwd.getpwnam(self.user)
            os.chown(path, who.pw_uid, who.pw_gid)

    def run(self, *words, text=None, **more):
        """A command of the user's, which has to end well."""
        STARTED.go_on()
        done = subprocess.run([str(it) for it in words], env={**self.variables, **more}, cwd=self.room, input=text, capture_output=True, text=True,
                              timeout=PATIENCE, check=False, **self.as_user())
        if done.returncode != 0:
            raise Missed(f"{words[0]} ended with {done.returncode}: {(done.stdout + done.stderr)[-600:]}")
        return done.stdout

    def serve(self, *words):
        """A server of the user's, which ends by itself after a while."""
        said = open(self.room / "server.txt", "ab")
        with said:
            self.servers.append(STARTED.start(["timeout", "-k", "5", LONGEST, *words], env=self.variables, cwd=self.room, stdout=said, stderr=said,
                                              **self.as_user()))

    def await_it(self, is_there):
        """Waits until the server answers."""
        until = time.monotonic() + PATIENCE
        while not is_there():
            if time.monotonic() > until or self.servers[-1].poll() is not None:
                raise Missed("the server doesn't answer: " + (self.room / "server.txt").read_text(errors="replace")[-600:])
            time.sleep(0.1)

    def begin(self):
        """Makes the engine ready."""

    def end(self):
        for server in self.servers:
            if server.poll() is None:
                server.terminate()
                try:
                    server.wait(15)
                except subprocess.TimeoutExpired:
                    pass
            STARTED.kill(server)
            server.wait()


def answers(port):
    """Whether somebody listens to the port."""
    with socket.socket() as asked:
        return asked.connect_ex(("127.0.0.1", port)) == 0


def python(path, *words):
    return [PYTHON, path, *words]


SNAPSHOTS = ("cache", "outside", "unchecked", "outcome")


class Sqlite(Engine):
    """Python has it."""
    name = "SQLite"
    clients = (("", python("sqlite/client.py"), SNAPSHOTS),)

    def version(self):
        return self.run(PYTHON, "-c", "import sqlite3; print(sqlite3.sqlite_version)").strip()


class Lmdb(Engine):
    name, packages = "LMDB", ("liblmdb0", "python3-lmdb")
    is_piped = True
    clients = (("", python("lmdb/client.py"), SNAPSHOTS),)


class Postgresql(Engine):
    name, packages = "PostgreSQL", ("postgresql-15",)
    clients = (("", python("postgresql/client.py", "--transactions", "200"), SNAPSHOTS),)

    def begin(self):
        programs = sorted(Path("/usr/lib/postgresql").glob("*/bin"))[-1]
        self.variables.update(PGHOST=str(self.room), PGUSER="postgres", PGDATABASE="postgres")
        self.run(programs / "initdb", "-D", "data", "-U", "postgres", "-A", "trust", "--no-sync")
        self.serve(programs / "postgres", "-D", "data", "-k", self.room, "-c", "listen_addresses=", "-c", "fsync=off", "-c", "deadlock_timeout=50ms")
        self.await_it(lambda: shutil.which("psql") and self.responds("psql", "-c", "select 1"))

    def responds(self, *words):
        try:
            self.run(*words)
        except Missed:
            return False
        return True


class Mariadb(Postgresql):
    name, packages = "MariaDB", ("mariadb-server-core", "mariadb-client-core")
    clients = (("by snapshots", python("mariadb/snapshots.py"), SNAPSHOTS),
               ("in commit order", python("mariadb/client.py"), ("cache", "unlocked", "outcome")))

    def begin(self):
        place = self.room / "socket"
        (self.room / ".my.cnf").write_text(f"[client]\nuser=root\nsocket={place}\n", encoding="utf-8")
        self.run("mariadb-install-db", "--no-defaults", f"--datadir={self.room}/data", "--auth-root-authentication-method=normal", "--skip-test-db")
        self.serve("mariadbd", "--no-defaults", f"--datadir={self.room}/data", f"--socket={place}", f"--pid-file={self.room}/pid",
                   "--skip-networking", "--log-bin=bin", "--binlog-format=ROW", "--server-id=1", "--innodb-flush-log-at-trx-commit=0")
        self.await_it(lambda: self.responds("mariadb", "-e", "CREATE DATABASE IF NOT EXISTS test"))


class Etcd(Engine):
    name, packages = "etcd", ("etcd-server",)
    PORT = 23790
    clients = (("", python("etcd/client.py", "--address", f"127.0.0.1:{PORT}"), SNAPSHOTS),)

    def begin(self):
        client, peer = f"http://127.0.0.1:{self.PORT}", f"http://127.0.0.1:{self.PORT + 1}"
        self.serve("etcd", "--data-dir", self.room / "data", "--listen-client-urls", client, "--advertise-client-urls", client,
                   "--listen-peer-urls", peer, "--initial-advertise-peer-urls", peer, "--initial-cluster", f"default={peer}")
        self.await_it(lambda: answers(self.PORT))


class Firebird(Engine):
    """Its configuration and its users stand where the package has put them, for the package's own user alone."""
    name, packages, user = "Firebird", ("firebird3.0-server", "firebird3.0-utils"), "firebird"
    PORT = 30500

    @property
    def clients(self):
        return (("", python("firebird/client.py", "--database", f"localhost/{self.PORT}:{self.room}/test.fdb"), SNAPSHOTS),)

    def begin(self):
        with open("/etc/firebird/3.0/SYSDBA.password", encoding="utf-8") as file:
            words = dict(line.strip().split("=", 1) for line in file if line.startswith("ISC_"))
        self.variables.update({name: word.strip('"') for name, word in words.items()}, FIREBIRD_LOCK=str(self.room), FIREBIRD_TMP=str(self.room))
        self.serve("firebird", "-p", self.PORT)
        self.await_it(lambda: answers(self.PORT))
        self.run("isql-fb", "-q", "-b", text=f"CREATE DATABASE 'localhost/{self.PORT}:{self.room}/test.fdb';\n")
        self.run("gfix", "-write", "async", f"localhost/{self.PORT}:{self.room}/test.fdb")


class Compiled(Engine):
    """An engine in a client that has to be compiled first: its sources, and the compiler's words for a program in the room."""
    compiler = ()

    def begin(self):
        self.run(*[word.format(examples=self.tree / "examples", room=self.room) for word in self.compiler])

    @property
    def clients(self):
        return (("", [self.room / "client"], self.faults),)


class Rocksdb(Compiled):
    name, packages, faults = "RocksDB", ("librocksdb-dev", "g++"), SNAPSHOTS
    compiler = ("g++", "-std=c++17", "-O0", "-Wall", "-Wextra", "-Werror", "-o", "{room}/client", "{examples}/rocksdb/client.cc", "-lrocksdb",
                "-lpthread")


class Bdb(Compiled):
    name, packages, faults = "Berkeley DB", ("libdb5.3-dev", "gcc"), ("cache", "unlocked", "outcome")
    late = {"stale", "future"}
    compiler = ("cc", "-O1", "-Wall", "-Wextra", "-Werror", "-o", "{room}/client", "{examples}/bdb/client.c", "-ldb-5.3", "-lpthread")


class H2(Compiled):
    """Its client writes raw lines, which the package numbers."""
    name, packages, faults = "H2", ("libh2-java", "openjdk-17-jdk-headless"), SNAPSHOTS
    compiler = ("javac", "-J-XX:-UsePerfData", "-Xlint:all", "-Werror", "-d", "{room}", "{examples}/h2/Lines.java", "{examples}/h2/Trial.java",
                "{examples}/h2/Session.java", "{examples}/h2/Client.java")
    JAVA = "java -XX:-UsePerfData -XX:TieredStopAtLevel=1 -XX:+UseSerialGC -Djava.io.tmpdir={room} -cp {room}:/usr/share/java/h2.jar"

    @property
    def clients(self):
        self.variables["PYTHONPATH"] = str(self.tree / "python")
        line = f'set -o pipefail; {self.JAVA.format(room=self.room)} Client "$@" | {PYTHON} -m sicheck number'
        return (("", ["bash", "-c", line, "h2"], self.faults),)


ALL = (Mariadb, Firebird, H2, Etcd, Sqlite, Lmdb, Postgresql, Rocksdb, Bdb)  # the slowest first
