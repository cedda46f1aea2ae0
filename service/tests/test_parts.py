"""Parts by themselves: what is read of messages, who may say them, tokens, and the configuration."""

import base64
import contextlib
import hashlib
import hmac
import json
import os
import re
import subprocess
import sys
import time
import types
import unittest
import uuid

import jwt
from cryptography.hazmat.primitives import serialization
from cryptography.hazmat.primitives.asymmetric import ec, rsa
from support import SECRET, TOP, folder

from realm_service import config as configs
from realm_service.devices import Caller, Devices, Forbidden, Outdated
from realm_service.doors import Doors
from realm_service.heads import BadMessage, Entry, borne, entries, first_bytes, look, look_at_asked, question
from realm_service.histories import Histories
from realm_service.openapi import described
from realm_service.refusals import Refused
from realm_service.stores import Device
from realm_service.stores.files import Files, journal_end
from realm_service.tokens import BadToken, Tokens
from realm_service.visits import address_of

# docs/SERVICE.md, "Doors".
QUERIES = {"news": {"after", "wait"}, "objects": {"table", "key"}, "entries": {"from", "follow"}}
A, B, C = (bytes([number]) * 16 for number in (1, 2, 3))


def said(text):
    """What is known of a client's message, in hexadecimal digits."""
    return look_at_asked(bytes.fromhex(text))


class Messages(unittest.TestCase):
    """The bytes are the examples of docs/FORMATS.md, or written by its tables."""

    def test_heads(self):
        self.assertEqual(said("01" + A.hex()).uuid, A)
        for given, speaker, version in (("04010000", 1, 0), ("0805ac02ac02", 5, 300), ("0b020000010101" + "71", 2, 0), ("090201", 1, 0), ("030100", 1, 0),
                                        ("03ac0201" + "01ac020003010000", 300, 300)):
            self.assertEqual((said(given).speaker, said(given).version), (speaker, version), given)
        self.assertEqual((said("090201").ident, said("090201").by), (2, 1))
        self.assertEqual(said("03ac0201" + "01ac020003010000").count, 1)
        self.assertEqual((said("04010000").tables, said("0b020000020201610171").tables), (frozenset(), frozenset({"a", "q"})))

    def test_the_lowest_base_counts(self):
        """The server skips changes that it has, whatever their bases are."""
        given = said("030103" + "09ffffffff0f0000" + "0a0700026162" + "0b080000")
        self.assertEqual((given.speaker, given.version, given.count), (1, 7, 3))

    def test_what_is_none(self):
        for given in ("", "63616263", "02" + "00" * 16 + "01", "01616263", "01" + "00" * 17, "03", "04" + "ff" * 20, "04810000" + "00", "05010000",
                      "09", "0901", "0701" + "01", "0b02000001", "0b020000010161", "0b0200000101ff", "03ac020201ac020003010000", "03010101000002ff",
                      "03018120" + "01000000" * 4097, "0b0200000141" + "0161" * 65):  # more than a message has
            with self.assertRaises(BadMessage, msg=given):
                said(given)

    def test_replies(self):
        told = look(bytes([2]) + A + bytes.fromhex("ac02"))
        self.assertEqual((told.tag, told.uuid, told.ident), (2, A, 300))
        told = look(bytes.fromhex("0601004709"))
        self.assertEqual((told.tag, told.second, told.third), (6, 71, 9))

    def test_entries(self):
        given = bytes.fromhex("050107" + "02" + "01010003010000" + "02ac020501ff")
        self.assertEqual(list(entries(look(given).first, borne(given))),
                         [Entry(7, 1, 1, 0, bytes.fromhex("010000")), Entry(8, 2, 300, 5, b"\xff")])
        self.assertEqual(list(entries(2, borne(bytes.fromhex("05010200")))), [])

    def test_a_page_ends_by_its_bytes(self):
        found = [Entry(version, 1, 1 + version, 0, b"0123456789") for version in range(5)]
        for size, count in ((0, 1), (9, 1), (10, 2), (25, 3), (50, 5)):
            self.assertEqual(first_bytes(size, iter(found)), found[:count])

    def test_the_largest_head_has_room(self):
        names = frozenset(f"{number:063d}" for number in range(64))
        self.assertEqual(look(question((1 << 32) - 1, 0, names)).tables, names)

    def test_questions(self):
        self.assertEqual(question(1, 0, frozenset({"q", "a"})), bytes.fromhex("0b0100000202016101") + b"q")
        self.assertEqual(look(question(300, 300, frozenset({"q"}))).version, 300)

    def test_the_end_of_a_journal(self):
        made = bytes.fromhex("5253594e434a303101000000110100000000000040008000000000000001")
        self.assertEqual(journal_end(made + b"\0" + b"what follows means nothing"), len(made))
        self.assertEqual(journal_end(b"RSYNCJ01\0"), 8)
        self.assertEqual(journal_end(b""), 0)


class Admission(unittest.TestCase):
    def setUp(self):
        self.devices = Devices({A: Device("ann", 1), B: Device("bob", 1)}, 1, 3)
        self.devices.uuids = {1: A, 2: B}

    def passes(self, caller, given):
        self.assertIsNone(self.devices.admit(caller, said(given)))

    def refused(self, caller, given, kind=Forbidden):
        with self.assertRaises(kind):
            self.devices.admit(caller, said(given))

    def test_own_idents_alone(self):
        ann, bob = Caller("ann", True), Caller("bob", True)
        for tag, rest in (("03", "00"), ("04", "0000"), ("08", "0000"), ("0b", "0000010101" + "71")):
            self.passes(ann, tag + "01" + rest)
            self.refused(bob, tag + "01" + rest)
            self.refused(ann, tag + "63" + rest)

    def test_bindings(self):
        ann, bind = Caller("ann", True), [f"01{number:02x}" + f"{number:02x}" * 15 for number in range(6)]
        self.passes(ann, bind[1])
        self.refused(ann, bind[2])
        self.assertEqual(self.devices.admit(ann, said(bind[3])), C)
        self.refused(Caller("ann", True, device=A), bind[3])
        self.refused(Caller("ann", True, device=B), "04010000")
        for number in (4, 5):
            self.devices.bound(bytes([number]) * 16, "ann")
        self.refused(ann, bind[3])

    def test_readers_and_retirements(self):
        reader, ann, ruler = Caller("ann", False), Caller("ann", True), Caller("ann", True, rules=True)
        self.refused(reader, "030100")
        self.passes(reader, "04010000")
        self.refused(reader, "090101")
        self.refused(ann, "090201")
        self.refused(ann, "090102")
        self.passes(ruler, "090201")

    def test_tables(self):
        ann = Caller("ann", True, tables=frozenset({"notes", "tags"}))
        self.refused(ann, "04010000")
        self.refused(ann, "08010000")
        self.refused(ann, "0b0100000202" + "05" + b"diary".hex() + "05" + b"notes".hex())
        self.passes(ann, "0b0100000201" + "05" + b"notes".hex())
        self.passes(ann, "030100")

    def test_generations(self):
        self.devices = Devices({A: Device("ann", 1)}, 2, 3)
        self.devices.uuids = {1: A}
        self.refused(Caller("ann", True), "04010000", Outdated)
        self.refused(Caller("ann", True), "01" + A.hex(), Outdated)
        self.refused(Caller("bob", True), "01" + A.hex())
        self.devices.bound(C, "ann")
        self.assertEqual(self.devices.known[C], Device("ann", 2))


def encoded(number):
    return base64.urlsafe_b64encode(number.to_bytes(32, "big")).decode().rstrip("=")


class TokensOfKeys(unittest.TestCase):
    @classmethod
    def setUpClass(cls):
        cls.curve, cls.other = ec.generate_private_key(ec.SECP256R1()), ec.generate_private_key(ec.SECP256R1())
        cls.rsa = rsa.generate_private_key(65537, 2048)
        numbers = cls.curve.public_key().public_numbers()
        keys = [{"kty": "EC", "crv": "P-256", "x": encoded(numbers.x), "y": encoded(numbers.y), "kid": "e1"},
                {**json.loads(jwt.algorithms.RSAAlgorithm.to_jwk(cls.rsa.public_key())), "kid": "r1"}]
        cls.tokens = Tokens(jwks=json.dumps({"keys": keys}), audience="realm")
        cls.claims = {"sub": "ann", "exp": time.time() + 60, "aud": "realm", "realm": {"fam-*": "write"}}

    def test_each_algorithm(self):
        for key, algorithm, kid in ((self.curve, "ES256", "e1"), (self.rsa, "RS256", "r1")):
            given = jwt.encode(self.claims, key, algorithm, headers={"kid": kid})
            self.assertEqual(self.tokens.caller(given, "fam-1")[0], Caller("ann", True))
            self.assertIsNone(self.tokens.caller(given, "other")[0])

    def refused(self, given):
        with self.assertRaises(BadToken):
            self.tokens.caller(given, "fam-1")

    def test_what_doesnt_hold(self):
        self.refused(jwt.encode(self.claims, self.other, "ES256", headers={"kid": "e1"}))
        self.refused(jwt.encode(self.claims, self.curve, "ES256", headers={"kid": "unknown"}))
        self.refused(jwt.encode(self.claims, self.curve, "ES256"))
        for claims in ({"aud": "other"}, {"realm": ["fam-1"]}, {"realm": {"fam-1": "all"}}, {"realm": {"fam-1": {"level": "read", "tables": []}}},
                       {"device": "x"}, {"sub": "two\nlines"}, {"sub": 5}, {"exp": time.time() - 1}):
            self.refused(jwt.encode({**self.claims, **claims}, self.curve, "ES256", headers={"kid": "e1"}))

    def test_a_public_key_is_no_secret(self):
        public = self.rsa.public_key().public_bytes(serialization.Encoding.PEM, serialization.PublicFormat.SubjectPublicKeyInfo)
        parts = [base64.urlsafe_b64encode(json.dumps(it).encode()).rstrip(b"=") for it in ({"alg": "HS256", "typ": "JWT", "kid": "r1"}, self.claims)]
        signed = b".".join(parts)
        mark = base64.urlsafe_b64encode(hmac.new(public, signed, hashlib.sha256).digest()).rstrip(b"=")
        self.refused((signed + b"." + mark).decode())

    def test_grants(self):
        tokens = Tokens(SECRET)
        realm = {"a-*": {"level": "read", "tables": ["notes"]}, "a-1": "write", "*": "read"}
        given = tokens.made("ann", realm, 60, str(uuid.UUID(bytes=A)))
        self.assertEqual(tokens.caller(given, "a-1")[0], Caller("ann", True, device=A))
        self.assertEqual(tokens.caller(given, "a-2")[0], Caller("ann", False, device=A))  # the wider of two that read
        only = tokens.made("ann", {"a-*": {"level": "read", "tables": ["notes"]}}, 60)
        self.assertEqual(tokens.caller(only, "a-2")[0], Caller("ann", False, tables=frozenset({"notes"})))


class Page(unittest.IsolatedAsyncioTestCase):
    """The OpenAPI page, by the doors themselves; attacks.py has the answers."""

    async def test_it_names_each_door(self):
        store = Files(folder())
        doors = Doors(Histories(store, configs.HistoriesConfig(), 30), Tokens(SECRET), "", configs.Config())
        routes = {(it.method.lower(), it.resource.canonical) for it in doors._app().router.routes() if it.method != "HEAD"}
        paths = described()["paths"]
        self.assertEqual(routes - {("get", "/")}, {(method, path) for path, methods in paths.items() for method in methods})
        await store.stop()

    def test_it_names_what_a_call_may_say(self):
        for path, methods in described()["paths"].items():
            told = {it["name"] for given in methods.values() for it in given.get("parameters", []) if it["in"] == "query"}
            self.assertEqual(told, QUERIES.get(path.rpartition("/")[2], set()), path)
        name, *_ = described()["paths"]["/v1/histories/{history}"]["post"]["parameters"]
        for given, fits in (("family-7", True), ("f.7_@12", True), ("n" * 128, True), (".f", False), ("-f", False), ("f@", False), ("f/g", False),
                            ("n" * 129, False)):
            self.assertEqual(re.fullmatch(name["schema"]["pattern"], given) is not None, fits, given)
            at = types.SimpleNamespace(match_info={"history": given})
            with contextlib.nullcontext() if fits else self.assertRaises(Refused):
                address_of(at)


class Configuration(unittest.TestCase):
    def refused(self, given, why):
        with self.assertRaises(configs.BadConfig) as told:
            configs.parsed(given)
        self.assertIn(why, str(told.exception))

    def test_what_is_none(self):
        self.refused({"stores": {}}, "no section [stores]")
        self.refused({"store": {"kin": "files"}}, "[store] has no key kin")
        self.refused({"store": {"kind": "tape"}}, "files, sqlite or postgres")
        self.refused({"store": {"kind": "sqlite"}}, "needs path")
        self.refused({"store": {"kind": "postgres"}}, "needs dsn")
        self.refused({"limits": {"connections": "many"}}, "connections is of type int")
        self.refused({"limits": {"connections": True}}, "connections is of type int")
        self.refused({"limits": {"connections": 0}}, "connections is above 0")
        self.refused({"store": {"lease_seconds": -1.0}}, "lease_seconds is above 0")
        for listen in ("here", ":8480", "here:x", "here:0", "here:65536"):
            self.refused({"service": {"listen": listen}}, "HOST:PORT")
        self.refused({"service": {"listen": "0.0.0.0:8480"}, "store": {"kind": "postgres", "dsn": "postgresql://"}}, "address is missing")
        self.refused({"tokens": {"secret_file": "a", "jwks_file": "b"}}, "not both")

    def test_a_secret_is_made_once(self):
        config = configs.Config()
        config.store.folder = os.path.join(folder(), "histories")
        made = configs.secret(config)
        self.assertEqual((configs.secret(config), len(made) >= 32), (made, True))
        self.assertEqual(os.stat(configs.secret_path(config)).st_mode & 0o777, 0o600)
        with open(configs.secret_path(config), "w", encoding="ascii") as file:
            file.write("short")
        with self.assertRaises(configs.BadConfig):
            configs.secret(config)

    def test_commands_say_what_is_wrong(self):
        at = folder()
        env = {**os.environ, "PYTHONPATH": os.path.join(TOP, "service", "src")}

        def command(*words):
            done = subprocess.run([sys.executable, "-m", "realm_service", *words], cwd=at, env=env, check=False, text=True,
                                  stdout=subprocess.PIPE, stderr=subprocess.STDOUT)
            return done.returncode, done.stdout

        self.assertEqual(command("--config", "none.toml")[0], 1)
        status, printed = command("token", "ann", "fam-*=write", "news=read:notes,tags", "--seconds", "60")
        with open(os.path.join(at, "realm_histories", "secret"), encoding="ascii") as file:
            caller, _ = Tokens(file.read().strip()).caller(printed.strip(), "news")
        self.assertEqual((status, caller), (0, Caller("ann", False, tables=frozenset({"notes", "tags"}))))
        self.assertEqual(command("token", "ann", "fam")[0], 1)
        self.assertEqual(command("--listen", "here"), (1, "realm_service: [service] listen is HOST:PORT\n"))
        self.assertEqual(command("raise-generation", "none"), (1, "realm_service: there is no history none\n"))


if __name__ == "__main__":
    unittest.main()
