"""The blocks of docs/RECIPES.md and of the package's README behind the ten minutes, each document as one program, docs/PORTING.md's calls, and the
refusals of docs/FORMATS.md."""

from __future__ import annotations

import ast
import asyncio
import inspect
import os
import re
import sys
import tempfile
import types
import unittest
from typing import Any

from realm_sync import Database, Reason
from realm_sync.query import Query
from realm_sync.transaction import Transaction

from .service import Service

CLASSES: dict[str, type[Any]] = {"db": Database, "tx": Transaction, "query": Query}
TOP = os.path.join(os.path.dirname(os.path.abspath(__file__)), "..", "..")


class Drawn(Exception):
    """A block that goes on for ever drew what was wanted."""


def text_of(path: str) -> str:
    with open(os.path.join(TOP, path), encoding="utf-8") as it:
        return it.read()


def blocks_of(path: str, kind: str) -> list[str]:
    return re.findall(rf"^```python {kind}\n(.*?)^```$", text_of(path), re.M | re.S)


class Tests(unittest.TestCase):
    def module(self, **names: Any) -> types.ModuleType:
        module = types.ModuleType("example")
        sys.modules["example"] = module  # (its classes look there for their annotations)
        self.addCleanup(sys.modules.pop, "example")
        module.__dict__.update(names)
        return module

    def test_the_recipes_run(self) -> None:
        blocks = blocks_of("docs/RECIPES.md", "recipe")
        self.assertGreater(len(blocks), 5)
        module = self.module()
        exec("\n".join(blocks), module.__dict__)
        module.__dict__["db"].close()

    def test_the_examples_of_the_readme_run(self) -> None:
        blocks = blocks_of("python/README.md", "readme")
        self.assertEqual(len(blocks), 4)
        service, shown = Service(), list[str]()
        self.addCleanup(service.close)
        drawn = list[Any]()
        with tempfile.TemporaryDirectory() as folder:
            module = self.module(
                token="good", draw=lambda items: drawn.append([(it.title, it.steps) for it in items]), show=lambda it: shown.append(it.status), tell=len
            )
            declared, *others = (it.replace("wss://example.org/v1/histories/household", service.ws) for it in blocks)
            exec(declared.replace("household.realm", f"{folder}/household.realm"), module.__dict__)
            try:
                exec("\n".join(others), module.__dict__)
            finally:
                module.__dict__["db"].close()
        self.assertEqual(drawn, [[("Oat milk", ("shake",))]])
        self.assertLessEqual({"up to date", "recovering"}, set(shown))

    def test_the_example_for_asyncio_runs(self) -> None:
        (block,) = blocks_of("python/README.md", "asyncio")
        service = Service()
        self.addCleanup(service.close)

        def draw(notes: Any) -> None:
            if [it.text for it in notes] == ["buy milk"]:
                raise Drawn

        with tempfile.TemporaryDirectory() as folder:
            module = self.module(token="good", url=service.http, draw=draw)
            exec("from uuid import UUID\nfrom realm_sync import table\n\n@table('notes')\nclass Note:\n    id: UUID\n    text: str\n", module.__dict__)
            code = compile(block.replace("notes.realm", f"{folder}/notes.realm"), "README.md", "exec", ast.PyCF_ALLOW_TOP_LEVEL_AWAIT)
            work = eval(code, module.__dict__)
            assert inspect.iscoroutine(work)
            with self.assertRaises(Drawn):
                asyncio.run(work)

    def test_the_calls_that_the_guide_to_porting_names_are_there(self) -> None:
        cells = [re.split(r"(?<!\\)\|", it)[3] for it in text_of("docs/PORTING.md").splitlines() if it.startswith("| ") and it.count("|") > 3]
        for of, name in re.findall(r"\b(db|tx|query)\.(\w+)\(", "\n".join(cells)):
            with self.subTest(f"{of}.{name}"):
                self.assertTrue(callable(getattr(CLASSES[of], name, None)))

    def test_the_refusals_are_those_of_formats(self) -> None:
        part = text_of("docs/formats/hosts.md").split("## Refusals by number")[1].split("##")[0]
        named = {int(number): re.sub("(?<!^)(?=[A-Z])", "_", name).upper() for number, name in re.findall(r"^\| (\d+) \| (\w+) \|", part, re.M)}
        self.assertEqual({it.value: it.name for it in Reason}, named)


if __name__ == "__main__":
    unittest.main()
