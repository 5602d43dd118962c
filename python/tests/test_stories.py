"""Stories: what they are opened from, what they say, and their listings."""

from __future__ import annotations

import pickle
import signal
import struct
import subprocess
import threading
import time
import unittest

from helping import EXAMPLES, PROGRAM, TOP, example
from zkit import LISTINGS, Game, ListingError, Story, StoryError

LIGHTHOUSE = (EXAMPLES / "lighthouse.z5").read_bytes()


def blorb(kind: bytes, content: bytes) -> bytes:
    """A Blorb file with one executable."""
    index = b"RIdx" + struct.pack(">II4sII", 16, 1, b"Exec", 0, 36)
    chunk = kind + struct.pack(">I", len(content)) + content + bytes(len(content) % 2)
    body = b"IFRS" + index + chunk
    return b"FORM" + struct.pack(">I", len(body)) + body


class Opening(unittest.TestCase):
    """Stories come from paths and bytes."""

    def refused(self, source: bytes, words: str) -> None:
        with self.assertRaises(StoryError) as raised:
            Story(source)
        self.assertIn(words, str(raised.exception))

    def test_sources(self) -> None:
        path = EXAMPLES / "lighthouse.z5"
        for story in (Story(path), Story(str(path)), Story(LIGHTHOUSE)):
            self.assertEqual(bytes(story), LIGHTHOUSE)

    def test_facts(self) -> None:
        for version in (3, 4, 5, 8):
            story = example(f"lighthouse.z{version}")
            self.assertEqual((story.version, story.release, story.serial), (version, 1, "261122"))
            self.assertEqual(story.checksum, int.from_bytes(bytes(story)[0x1C:0x1E], "big"))

    def test_blorb(self) -> None:
        story = Story(blorb(b"ZCOD", LIGHTHOUSE))
        self.assertEqual(bytes(story), LIGHTHOUSE)
        with Game(story) as game:
            self.assertIn("SKÄRVØ", game.reply.text)
        self.refused(blorb(b"GLUL", LIGHTHOUSE), "has no story for the Z-machine")
        self.refused(blorb(b"ZCOD", LIGHTHOUSE)[:100], "cut off")
        self.refused(blorb(b"ZCOD", b"short"), "shorter than a header")

    def test_damaged(self) -> None:
        self.refused(b"", "shorter than a header")
        self.refused(LIGHTHOUSE[:63], "shorter than a header")
        self.refused(bytes([6]) + LIGHTHOUSE[1:], "version")
        self.refused(LIGHTHOUSE + bytes(300_000), "too long")
        self.refused(LIGHTHOUSE[:0x0E] + bytes(2) + LIGHTHOUSE[0x10:], "static memory")
        self.refused(LIGHTHOUSE[:0x06] + b"\xff\xff" + LIGHTHOUSE[0x08:], "first instruction")
        self.refused(b"PK\x03\x04" + bytes(100), "zip archive")

    def test_files(self) -> None:
        with self.assertRaises(FileNotFoundError):
            Story("no such file")
        with self.assertRaises(IsADirectoryError):
            Story(EXAMPLES)

    def test_immutable(self) -> None:
        story = example("lighthouse.z5")
        for name in ("version", "other"):
            with self.assertRaises(AttributeError):
                setattr(story, name, 3)

    def test_pickled(self) -> None:
        story = pickle.loads(pickle.dumps(example("lighthouse.z5")))
        self.assertEqual((bytes(story), story.version), (LIGHTHOUSE, 5))


class Listings(unittest.TestCase):
    """Listings are those of the program."""

    def test_of_program(self) -> None:
        for name in LISTINGS:
            command = {"code": ["disasm"], "findings": ["check"]}.get(name, ["info", f"--{name}"])
            path = TOP / "examples/lighthouse.z5"
            told = subprocess.run([PROGRAM, *command, path], capture_output=True, encoding="utf-8").stdout
            if command[0] == "info":
                told = told.partition("\n")[2]
            if name != "findings":
                self.assertEqual(example("lighthouse.z5").listing(name).strip("\n"), told.strip("\n"), name)
        self.assertEqual(example("lighthouse.z5").listing("findings"), "")

    def test_finding(self) -> None:
        damaged = Story(LIGHTHOUSE[:0x1C] + bytes(2) + LIGHTHOUSE[0x1E:])
        self.assertIn("C1 0001c checksum", damaged.listing("findings"))

    def test_interrupted(self) -> None:
        def stop(*_: object) -> None:
            raise KeyboardInterrupt

        # half a million instructions of a byte
        header = bytes([8, 0, 0, 0, 0, 64, 0, 64]) + bytes(6) + bytes([0, 64]) + bytes(48)
        story = Story(header + b"\xb4" * (524_288 - 64))
        before = signal.signal(signal.SIGALRM, stop)
        try:
            signal.setitimer(signal.ITIMER_REAL, 0.05)
            begin = time.process_time()
            with self.assertRaises(KeyboardInterrupt):
                while True:
                    story.listing("code")
            self.assertLess(time.process_time() - begin, 2)
        finally:
            signal.signal(signal.SIGALRM, before)

    def test_bounds(self) -> None:
        story = example("lighthouse.z5")
        length = len(story.listing("objects").encode())
        self.assertEqual(len(story.listing("objects", most=length).encode()), length)
        for most in (0, length - 1):
            with self.assertRaises(ListingError):
                story.listing("objects", most=most)
        for most in (-1, 2**63):
            with self.assertRaises(ValueError):
                story.listing("objects", most=most)
        with self.assertRaises(ValueError) as raised:
            story.listing("rooms")
        self.assertIn("'rooms'", str(raised.exception))

    def test_in_threads(self) -> None:
        story = example("lighthouse.z5")
        wanted = {name: story.listing(name) for name in LISTINGS}
        told: list[dict[str, str]] = []
        threads = [
            threading.Thread(target=lambda: told.append({name: story.listing(name) for name in LISTINGS}))
            for _ in range(4)
        ]
        for thread in threads:
            thread.start()
        for thread in threads:
            thread.join()
        self.assertEqual(told, [wanted] * 4)
