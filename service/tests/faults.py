#!/usr/bin/python3
"""Faults under load, of workers that it starts itself: nothing acknowledged is lost, and all clients agree.

usage: faults.py [--store postgres|sqlite|files] [--rounds N] [--kinds KIND,KIND..] [--seed N] [--clients N] [--histories N]

Of two workers over PostgreSQL:
  kill      kill -9 of a worker, which is started again
  pause     a worker stands still for longer than its lease, and goes on
  database  PostgreSQL is stopped, at once or in order, and started
  cut       the connections that append are cut, again and again, and some in the middle of an append
  force     histories are taken from their owner while it lives and works
  rolling   a worker is stopped in order and started
Of the one process over files or SQLite: kill and rolling."""

import argparse
import os
import random
import signal
import subprocess
import sys
import time

from support import Service, cluster, stores

HERE = os.path.dirname(os.path.abspath(__file__))
KINDS = {"postgres": ("kill", "pause", "database", "cut", "force", "rolling"), "sqlite": ("kill", "rolling"), "files": ("kill", "rolling")}
LIMITS = {"requests_per_second": 1e9, "user_connections": 10_000}
CUT = "SELECT count(pg_terminate_backend(pid)) FROM pg_stat_activity WHERE pid <> pg_backend_pid() AND query LIKE '%claimed AS%'"
# Appends wait for the lock within their statement, and are cut there.
CUT_WITHIN = f"BEGIN; LOCK TABLE history IN EXCLUSIVE MODE; SELECT pg_sleep(0.3); {CUT} AND state = 'active'; COMMIT"
FORCE = ("UPDATE history SET owner = (SELECT id FROM worker w WHERE w.id <> history.owner LIMIT 1), epoch = epoch + 1"
         " WHERE random() < 0.5 AND owner IS NOT NULL AND (SELECT count(*) FROM worker) > 1")


class Faults:
    def __init__(self, given):
        self.given, self.drawn = given, random.Random(given.seed)
        self.store = stores(given.store)
        count = 2 if given.store == "postgres" else 1
        self.workers = [Service(self.store, limits=LIMITS, histories={"idle_seconds": 5.0}).start() for _ in range(count)]
        for it in self.workers:
            it.ready()
        self.fenced = self.failed = 0.0
        self.cut_within = 0  # appends

    def noted(self, worker):
        """What a worker counted so far is kept, since it is about to end."""
        self.fenced += worker.metric("realm_histories_fenced_total", 2) or 0
        self.failed += worker.metric("realm_batches_failed_total", 2) or 0

    def database_name(self):
        return self.store["dsn"].rpartition("/")[2]

    def kill(self, worker):
        time.sleep(self.drawn.uniform(0.3, 1.0))
        self.noted(worker)
        worker.kill()
        time.sleep(self.drawn.uniform(0.0, 0.5))
        worker.start().ready()

    def pause(self, worker):
        worker.process.send_signal(signal.SIGSTOP)
        time.sleep(self.store["lease_seconds"] + self.drawn.uniform(0.6, 2.0))
        worker.process.send_signal(signal.SIGCONT)
        time.sleep(1)

    def database(self, _):
        mode = self.drawn.choice(("immediate", "fast"))
        cluster().stop(mode)
        time.sleep(self.drawn.uniform(0.2, 1.5))
        cluster().start()
        time.sleep(1)

    def cut(self, _):
        for _ in range(10):
            cluster().sql(CUT)
            time.sleep(self.drawn.uniform(0.0, 0.1))
        for _ in range(3):
            self.cut_within += int(cluster().sql(CUT_WITHIN, self.database_name()).split()[-1])

    def force(self, _):
        cluster().sql(FORCE, self.database_name())
        time.sleep(self.drawn.uniform(0.5, 1.0))

    def rolling(self, worker):
        self.noted(worker)
        status = worker.stop()
        if status:
            raise RuntimeError(f"a worker ended with status {status}: {worker.said()}")
        worker.start().ready()
        time.sleep(0.3)

    def rounds(self, load):
        kinds = self.given.kinds or KINDS[self.given.store]
        for number in range(self.given.rounds):
            kind = kinds[number % len(kinds)]
            began = time.monotonic()
            getattr(self, kind)(self.drawn.choice(self.workers))
            if load.poll() is not None:
                raise RuntimeError(f"the load ended in round {number} ({kind})")
            print(f"round {number + 1}: {kind}, {time.monotonic() - began:.1f} s", flush=True)
            time.sleep(self.drawn.uniform(0.2, 0.6))

    def run(self):
        bases = ",".join(it.base for it in self.workers)
        words = [sys.executable, os.path.join(HERE, "load.py"), bases, "--until-eof", "--patience", "2", "--commits", "3", "--think", "0.1",
                 "--clients", str(self.given.clients), "--histories", str(self.given.histories)]
        load = subprocess.Popen(words, stdin=subprocess.PIPE, stdout=subprocess.PIPE, text=True)
        try:
            if load.stdout.readline() != "begun\n":
                raise RuntimeError("the load doesn't begin")
            self.rounds(load)
            said, _ = load.communicate("", timeout=300)
        finally:
            load.terminate()
            load.wait()
        for it in self.workers:
            self.noted(it)
        print(said + f"    {self.fenced:.0f} times a history was fenced, {self.failed:.0f} batches failed, {self.cut_within} appends were cut within"
              " their statement")
        statuses = [it.stop() for it in self.workers]
        return load.returncode == 0 and statuses == [0] * len(statuses)


def words():
    it = argparse.ArgumentParser(description=__doc__, formatter_class=argparse.RawDescriptionHelpFormatter)
    it.add_argument("--store", choices=KINDS, default="postgres")
    it.add_argument("--rounds", type=int, default=100)
    it.add_argument("--kinds", type=lambda text: text.split(","))
    it.add_argument("--seed", type=int, default=5)
    it.add_argument("--clients", type=int, default=40)
    it.add_argument("--histories", type=int, default=10)
    return it


if __name__ == "__main__":
    sys.exit(0 if Faults(words().parse_args()).run() else 1)
