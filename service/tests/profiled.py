"""Runs the service and notes where its loop's processor time goes: profiled.py FILE [WORD..], as bench.py --profile does."""

import cProfile
import sys
import time

import uvloop  # noqa: F401  (all that it imports comes before the profile begins)

import realm_service.stores.postgres  # noqa: F401
from realm_service.__main__ import main

if __name__ == "__main__":
    path = sys.argv.pop(1)
    profile = cProfile.Profile(time.thread_time)
    try:
        profile.runcall(main)
    finally:
        profile.dump_stats(path)
