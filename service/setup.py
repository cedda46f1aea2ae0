"""The one thing that pyproject.toml can't say: the C helper that hands a batch of requests to a node."""

from setuptools import Extension, setup

setup(ext_modules=[Extension("realm_service._turns", ["src/realm_service/turns.c"])])
