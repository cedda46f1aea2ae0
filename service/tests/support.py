"""What the tests share: services and databases that they start themselves, on free ports of this machine alone."""

import asyncio
import atexit
import json
import logging
import os
import pwd
import shutil
import signal
import socket
import subprocess
import sys
import tempfile
import time
import urllib.error
import urllib.request
import uuid

TOP = os.path.dirname(os.path.dirname(os.path.dirname(os.path.abspath(__file__))))
sys.path[:0] = [os.path.join(TOP, "service", "src"), os.path.join(TOP, "python", "src")]

from realm_service.tokens import Tokens  # noqa: E402

signal.signal(signal.SIGTERM, lambda *_: sys.exit("terminated"))  # so that what is to be done at the end is done
logging.getLogger("asyncio").setLevel(logging.ERROR)  # (it tells each step of a test that takes its time)
SECRET = "a secret of the tests alone, which nobody else has"
START_SECONDS, STOP_SECONDS, PATIENCE = 180, 120, 120  # (of a machine that is busy otherwise)
PLAIN = os.path.join(os.path.dirname(os.path.abspath(__file__)), "plain")  # has no uvloop, whatever the system has
LOCAL = urllib.request.build_opener(urllib.request.ProxyHandler({}))  # whatever the environment says


def free_port():
    with socket.socket() as it:
        it.bind(("127.0.0.1", 0))
        return it.getsockname()[1]


def token(user, realm, seconds=3600, device=None):
    return Tokens(SECRET).made(user, realm, seconds, device)


def authorized(user, realm, **more):
    return {"Authorization": "Bearer " + token(user, realm, **more)}


async def until(is_so, seconds=PATIENCE):
    """Waits until something is so, which it is at last if nothing is wrong. Whether it is."""
    ends = time.monotonic() + seconds
    while time.monotonic() < ends:
        if is_so():
            return True
        await asyncio.sleep(0.05)
    return is_so()


def folder():
    """A folder that is gone when the tests end."""
    path = tempfile.mkdtemp(prefix="realm-service-")
    atexit.register(shutil.rmtree, path, ignore_errors=True)
    return path


def get(url, headers=None, seconds=30):
    """The status and the text of an answer."""
    try:
        with LOCAL.open(urllib.request.Request(url, headers=headers or {}), timeout=seconds) as answer:
            return answer.status, answer.read().decode()
    except urllib.error.HTTPError as error:
        return error.code, error.read().decode()


def processor(pid):
    """The processor time that a process took, in seconds."""
    with open(f"/proc/{pid}/stat", encoding="ascii") as file:
        fields = file.read().rpartition(")")[2].split()
    return (int(fields[11]) + int(fields[12])) / os.sysconf("SC_CLK_TCK")


class Service:
    """One worker, with its configuration as sections of keys. Over files it runs without uvloop, over the other stores with it."""

    def __init__(self, store, at=None, **sections):
        self.at = at or folder()
        self.port = free_port()
        self.base = f"http://127.0.0.1:{self.port}"
        secret = os.path.join(self.at, "secret")
        with open(secret, "w", encoding="ascii") as file:
            file.write(SECRET)
        sections = {"service": {"listen": f"127.0.0.1:{self.port}"}, "store": store, "tokens": {"secret_file": secret}, **sections}
        self.config = os.path.join(self.at, f"{self.port}.toml")
        with open(self.config, "w", encoding="utf-8") as file:
            for name, keys in sections.items():
                file.write(f"[{name}]\n" + "".join(f"{key} = {json.dumps(value)}\n" for key, value in keys.items()))
        self.log = os.path.join(self.at, f"{self.port}.log")
        self.profile = os.path.join(self.at, f"{self.port}.profile")
        self.process = None
        path = [os.path.join(TOP, "service", "src"), *([PLAIN] if store["kind"] == "files" else [])]
        self.env = {**os.environ, "PYTHONPATH": os.pathsep.join(path)}

    def start(self, program=("-m", "realm_service")):
        with open(self.log, "ab") as log:
            words = [sys.executable, *program, "--config", self.config]
            self.process = subprocess.Popen(words, stdout=log, stderr=log, stdin=subprocess.DEVNULL, env=self.env)
        atexit.register(self.kill)
        return self

    def ready(self):
        """Waits until it takes work."""
        ends = time.monotonic() + START_SECONDS
        while time.monotonic() < ends and self.process.poll() is None:
            try:
                if get(self.base + "/readyz", seconds=2)[0] == 200:
                    return self
            except OSError:
                pass
            time.sleep(0.05)
        raise RuntimeError("the service doesn't start: " + self.said())

    def said(self):
        with open(self.log, encoding="utf-8") as file:
            return file.read()[-3000:]

    def kill(self):
        if self.process is not None and self.process.poll() is None:
            self.process.send_signal(signal.SIGCONT)
            self.process.kill()
            self.process.wait()

    def stop(self):
        """As an operator stops it: answers what is under way. The exit status."""
        self.process.terminate()
        return self.process.wait(STOP_SECONDS)

    def command(self, *words):
        """An operator's command with this configuration: its status and what it says."""
        given = [sys.executable, "-m", "realm_service", "--config", self.config, *words]
        done = subprocess.run(given, env=self.env, stdout=subprocess.PIPE, stderr=subprocess.STDOUT, text=True, check=False)
        return done.returncode, done.stdout

    def metric(self, name, seconds=30):
        """The sum over the labels, or None where the service doesn't answer in time."""
        try:
            text = get(self.base + "/metrics", seconds=seconds)[1]
        except OSError:
            return None
        return sum(float(line.split()[-1]) for line in text.splitlines() if line.split("{")[0].split(" ")[0] == name)

    def memory(self):
        """Its resident memory in megabytes."""
        with open(f"/proc/{self.process.pid}/statm", encoding="ascii") as file:
            return int(file.read().split()[1]) * os.sysconf("SC_PAGE_SIZE") / 1e6


class Cluster:
    """A private cluster of PostgreSQL, which an ordinary user runs: `postgres` or `nobody` where the tests are root's."""

    def __init__(self):
        self.at = folder()
        self.port = free_port()
        self.as_user = []
        if os.getuid() == 0:
            user = "postgres" if "postgres" in (it.pw_name for it in pwd.getpwall()) else "nobody"
            shutil.chown(self.at, user)
            self.as_user = ["runuser", "-u", user, "--"]
        self._run("initdb", "-D", self.data, "-U", "realm", "-A", "trust", "-E", "UTF8", "--locale", "C")
        settings = f"port = {self.port}\nlisten_addresses = '127.0.0.1'\nunix_socket_directories = '{self.at}'\nmax_connections = 200\n"
        self._run("sh", "-c", 'cat >> "$0"/postgresql.conf', self.data, given=settings)
        self.start()
        atexit.register(self.stop, "immediate")

    @property
    def data(self):
        return os.path.join(self.at, "data")

    @staticmethod
    def tools():
        """The folder of the newest server's programs, or None."""
        beside = "/usr/lib/postgresql"
        versions = sorted(os.listdir(beside), key=float) if os.path.isdir(beside) else []
        found = [os.path.join(beside, it, "bin") for it in versions if os.path.exists(os.path.join(beside, it, "bin", "initdb"))]
        return found[-1] if found else (os.path.dirname(shutil.which("initdb")) if shutil.which("initdb") else None)

    def _run(self, program, *words, given=None):
        path = program if program == "sh" else os.path.join(self.tools(), program)
        done = subprocess.run([*self.as_user, path, *words], input=given, cwd=self.at, text=True, check=False,
                              stdout=subprocess.PIPE, stderr=subprocess.STDOUT)
        if done.returncode:
            raise RuntimeError(f"{program}: {done.stdout}")
        return done.stdout

    def start(self):
        # (its output goes to a file: the server would hold a pipe open)
        words = " ".join([*self.as_user, os.path.join(self.tools(), "pg_ctl"), "-D", self.data, "-l", os.path.join(self.at, "log"), "-w", "start"])
        subprocess.run(["sh", "-c", words + " > /dev/null 2>&1"], cwd=self.at, check=True)

    def stop(self, mode="fast"):
        if os.path.exists(os.path.join(self.data, "postmaster.pid")):
            self._run("pg_ctl", "-D", self.data, "-m", mode, "-w", "stop")

    def dsn(self, database):
        return f"postgresql://realm@127.0.0.1:{self.port}/{database}"

    def sql(self, text, database="postgres"):
        return self._run("psql", "-h", "127.0.0.1", "-p", str(self.port), "-U", "realm", "-d", database, "-Atqc", text)

    def database(self):
        """The name of a new database."""
        name = "realm_" + uuid.uuid4().hex[:8]
        self.sql(f"CREATE DATABASE {name}")
        return name

    def run(self, program, *words):
        """One of its tools, such as pg_dump."""
        return self._run(program, "-h", "127.0.0.1", "-p", str(self.port), "-U", "realm", *words)


_clusters = []


def cluster():
    """One for all tests of a process."""
    if not _clusters:
        _clusters.append(Cluster())
    return _clusters[0]


def stores(kind):
    """The section of a configuration for a new store of that kind."""
    if kind == "files":
        return {"kind": kind, "folder": os.path.join(folder(), "histories")}
    if kind == "sqlite":
        return {"kind": kind, "path": os.path.join(folder(), "realm.db")}
    shared = cluster()
    return {"kind": kind, "dsn": shared.dsn(shared.database()), "lease_seconds": 3.0}
