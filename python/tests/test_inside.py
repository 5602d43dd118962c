"""Looks into games: places, open routines, memory, objects, words, coverage, and other random numbers for clones."""

from __future__ import annotations

import unittest
from collections.abc import Callable
from typing import Any

from helping import LINES, TOP, answer, example, play, small
from zkit import Game, GameObject, NotAwaited, NotChanged, NotThere, Place, Routine, Story, TooMuchText

VERSIONS = (3, 4, 5, 8)


def fnv(content: bytes) -> int:
    """FNV-1a in 64 bits."""
    value = 0xCBF29CE484222325
    for byte in content:
        value = (value ^ byte) * 0x100000001B3 % 2**64
    return value


def listed(it: GameObject) -> str:
    """An object as the listing of objects has it."""
    attributes = ",".join(map(str, sorted(it.attributes))) or "-"
    properties = ",".join(f"{number}:{len(data)}" for number, data in it.properties.items()) or "-"
    return (f'{it.number} "{it.name}" parent {it.parent} sibling {it.sibling} child {it.child} '
            f"attributes {attributes} properties {properties}")


class Steps(unittest.TestCase):
    """Single instructions."""

    def test_trace(self) -> None:
        story = example("lighthouse.z5")
        with Game(story) as game, Game(story) as other:
            before = game.place.instructions
            traced = game.trace("north")
            self.assertEqual(game.reply, other.send("north"))
            self.assertEqual(game.place, other.place)
            # the last one awaits the next line, and does not count
            self.assertEqual(len(traced), game.place.instructions - before + 1)
            self.assertEqual(traced[-1], game.instruction(game.place.address))
            self.assertEqual({line for line in traced if not line[:5].isalnum()}, set())

    def test_parts(self) -> None:
        with Game(example("lighthouse.z5"), text=1_000) as game:
            self.assertEqual(len(game.trace("look", most=5)), 5)
            with self.assertRaises(NotAwaited):
                game.trace("look")
            self.assertEqual(game.go_on().text.splitlines()[0], "Jetty")
            with self.assertRaises(NotAwaited):
                game.send_key("a")
            self.assertEqual(game.trace("look", most=0), [])
            self.assertEqual(game.go_on().text.splitlines()[0], "Jetty")
            with self.assertRaises(ValueError):
                game.trace("two\nlines")
            with self.assertRaises(TooMuchText):
                game.trace(". ".join(["look"] * 20))
            self.assertGreater(len(game.go_on().text), 1_000)

    def test_addresses(self) -> None:
        with Game(example("lighthouse.z5")) as game:
            listed = game.story.listing("code").splitlines()
            for line in listed[:200]:
                self.assertEqual(game.instruction(int(line[:5], 16)), line)
            for address in (-1, 2**32):
                with self.assertRaises(NotThere):
                    game.instruction(address)


class Changes(unittest.TestCase):
    """What a host changes."""

    def test_words(self) -> None:
        with Game(example("lighthouse.z5")) as game:
            base, before = game.word(14), game.memory
            game.set_word(base - 2, 0xABCD)
            self.assertEqual(game.memory, before[:base - 2] + b"\xab\xcd" + before[base:])
            changed = game.memory
            for address, value in ((base - 1, 7), (base, 7), (64, 65_536), (64, -1), (-2, 0), (2**32, 0)):
                with self.assertRaises(NotChanged):
                    game.set_word(address, value)
            self.assertEqual(game.memory, changed)

    def test_objects(self) -> None:
        with Game(example("lighthouse.z5")) as game:
            objects = game.objects
            letter, bag = objects.named("letter").number, objects.named("postbag").number
            game.move(bag, 0)
            self.assertEqual((objects[bag].parent, objects[bag].sibling), (0, 0))
            game.move(bag, letter)
            self.assertEqual(objects[letter].child, bag)
            for number, parent in ((5_000, 1), (1, 5_000), (1, 65_536), (-1, 1)):
                with self.assertRaises(NotChanged):
                    game.move(number, parent)

    def test_stopped(self) -> None:
        with Game(example("hello.z3")) as game:
            with self.assertRaises(NotAwaited):
                game.set_word(64, 1)
            with self.assertRaises(NotAwaited):
                game.move(1, 2)


class Places(unittest.TestCase):
    """Where a game stands."""

    def test_routines(self) -> None:
        with Game(small("inside.z5")) as game:
            self.assertEqual(game.calls[0], Routine(1, 0x48, 0x40, 0x46, (5, 0), (7,), 1))
            first = game.calls[1]
            self.assertEqual((first.number, first.address, first.call, first.locals), (0, None, None, ()))
            self.assertEqual(game.place, Place(0x4C, 1, game.place.words, 0, 2, 0, 2))
            game.send_key("a")
            self.assertEqual((game.place.reads, game.place.instructions, game.reply.stopped is None), (1, 3, False))
            self.assertEqual([it.number for it in game.calls], [0])

    def test_count(self) -> None:
        with Game(example("lighthouse.z5")) as game:
            play(game, ["undo on", "north"])
            place = game.place
            self.assertEqual((place.reads, place.routines + 1, place.states), (2, len(game.calls), 1))
            with game.clone() as other:
                self.assertEqual((other.place.reads, other.place.instructions), (2, 0))
                self.assertEqual([it.stack for it in other.calls], [it.stack for it in game.calls])
            with Game.from_snapshot(game.story, game.snapshot()) as later:
                self.assertEqual([it.locals for it in later.calls], [it.locals for it in game.calls])
                self.assertEqual({it.address for it in later.calls}, {None})

    def test_stops(self) -> None:
        with Game(example("hello.z3"), steps=1) as game:
            self.assertEqual(game.place.address, 67)
        with Game(small("fault.z5")) as game:
            self.assertEqual((game.place.address, len(game.calls)), (0x40, 1))
        with Game(small("calls.z3")) as game:
            calls = game.calls
            self.assertEqual(len(calls), game.place.routines + 1)
            self.assertGreater(len(calls), 1_000)
            self.assertEqual({(it.address, it.call) for it in calls[:-2]}, {(0x46, 0x47)})

    def test_midway(self) -> None:
        with Game(example("lighthouse.z5"), text=1_000) as game:
            before = game.place.instructions
            with self.assertRaises(TooMuchText):
                game.send(". ".join(["look"] * 20))
            self.assertGreater(game.place.instructions, before)
            self.assertEqual(game.objects.named("yourself").parent, game.objects.named("Jetty").number)
            self.assertEqual((len(game.memory), game.calls[-1].number), (len(bytes(game.story)), 0))
            game.go_on()


class Memory(unittest.TestCase):
    """Memory, words, variables and hashes."""

    def test_memory(self) -> None:
        for version in VERSIONS:
            with Game(example(f"lighthouse.z{version}"), steps=1) as game:
                memory = game.memory
                self.assertEqual(memory[0x40:], bytes(game.story)[0x40:])
                for address in (0, 1, 0x0E, len(memory) - 2):
                    self.assertEqual(game.word(address), int.from_bytes(memory[address:address + 2], "big"))
                for wrong in (len(memory) - 1, len(memory), -1, 2**32, 2**70):
                    with self.assertRaises(NotThere):
                        game.word(wrong)

    def test_variables(self) -> None:
        with Game(example("lighthouse.z3")) as game:
            self.assertEqual(game.objects[game.global_variable(16)].name, "Jetty")
            game.send("north")
            self.assertEqual(game.objects[game.global_variable(16)].name, "Shore Path")
            self.assertEqual(game.global_variable(18), 1)
            self.assertEqual(game.global_variable(255), game.word(game.word(0x0C) + 2 * 239))
            for wrong in (15, 256, -1):
                with self.assertRaises(ValueError):
                    game.global_variable(wrong)

    def test_hash(self) -> None:
        with Game(example("lighthouse.z5")) as game:
            static = game.word(0x0E)
            for address, count, content in (
                (0, None, game.memory[:static]), (64, None, game.memory[64:static]), (64, 100, game.memory[64:164]),
                (static + 5, None, b""), (0, 0, b""), (len(game.memory) - 1, 100, game.memory[-1:]),
            ):
                self.assertEqual(game.hash(address, count), fnv(content))
            for wrong in ((-1, 1), (0, -1), (2**32, 1), (0, 2**32)):
                with self.assertRaises(ValueError):
                    game.hash(*wrong)


class TheObjects(unittest.TestCase):
    """Objects are those of the listing, and move in the play."""

    def test_as_listed(self) -> None:
        for version in VERSIONS:
            story = example(f"lighthouse.z{version}")
            with Game(story, steps=1) as game:
                told = [listed(it) for it in game.objects]
                self.assertEqual(told, story.listing("objects").strip().splitlines())
                self.assertEqual(len(game.objects), len(told))
                self.assertEqual(repr(game.objects), f"<Objects 1 to {len(told)}>")

    def test_last_attribute(self) -> None:
        with Game(small("attribute.z4")) as game:
            self.assertEqual([it.attributes for it in game.objects], [{47}])

    def test_circle(self) -> None:
        with Game(small("circle.z3")) as game:
            self.assertEqual([it.number for it in game.objects.ancestors(1)], [2, 3, 4])

    def test_bytes(self) -> None:
        with Game(example("lighthouse.z5"), steps=1) as game:
            lines = [line.split() for line in game.story.listing("properties").splitlines()]
            for number, key, _, _, data in lines:
                self.assertEqual(game.objects[int(number)].properties[int(key)].hex(), data)

    def test_moves(self) -> None:
        with Game(example("lighthouse.z5")) as game:
            objects = game.objects
            letter, player = objects.named("letter").number, objects.named("yourself").number
            self.assertEqual([it.name for it in objects.ancestors(letter)], ["postbag", "yourself", "Jetty"])
            play(game, ["open bag", "take letter", "north"])
            self.assertEqual([it.name for it in objects.ancestors(letter)], ["yourself", "Shore Path"])
            self.assertEqual([it.name for it in objects.children(player)], ["letter", "postbag"])
            self.assertEqual(objects.children(letter), [])
            self.assertEqual(objects[letter], objects[letter])
            self.assertEqual(len({objects[letter], objects[letter]}), 1)

    def test_not_there(self) -> None:
        with Game(example("lighthouse.z5")) as game:
            calls: list[Callable[[], object]] = [
                lambda: game.objects[0], lambda: game.objects[len(game.objects) + 1], lambda: game.objects[-1],
                lambda: game.objects.named("nobody"), lambda: game.objects.children(0),
                lambda: game.objects.ancestors(2**40),
            ]
            for call in calls:
                with self.assertRaises(NotThere):
                    call()
            self.assertNotIn(0, game.objects)
            self.assertIn(1, game.objects)
            wrong: Any = "bag"
            with self.assertRaises(TypeError):
                game.objects[wrong]

    def test_none(self) -> None:
        with Game(example("hello.z3")) as game:
            self.assertEqual(list(game.objects), [game.objects[number + 1] for number in range(len(game.objects))])


class Words(unittest.TestCase):
    """The dictionary."""

    def test_words(self) -> None:
        for version, first, wanted in ((3, "øde", "lighth"), (5, "ødeg", "lighthous")):
            with Game(example(f"lighthouse.z{version}")) as game:
                self.assertIn(wanted, game.dictionary)
                self.assertEqual(list(game.dictionary[:2]), [first, "."])
                self.assertIs(game.dictionary, game.story.dictionary)
        self.assertEqual(Story(bytes(example("hello.z3"))).dictionary, ())


class Coverage(unittest.TestCase):
    """Marks of the instructions that were carried out."""

    def marks(self, game: Game) -> list[int]:
        return [address for address, mark in enumerate(game.coverage) if mark]

    def test_marks(self) -> None:
        with Game(small("inside.z5"), coverage=True) as game:
            self.assertEqual(len(game.coverage), len(bytes(game.story)))
            self.assertEqual(self.marks(game), [0x40, 0x49, 0x4C])
            with game.clone() as other:
                self.assertEqual(self.marks(other), [])
                other.send_key("a")
                self.assertEqual(self.marks(other), [0x46, 0x50])
            self.assertEqual(self.marks(game), [0x40, 0x49, 0x4C])
            with Game.from_snapshot(game.story, game.snapshot(), coverage=True) as later:
                self.assertEqual(self.marks(later), [])
                later.send_key("a")
                self.assertEqual(self.marks(later), [0x46, 0x50])

    def test_without(self) -> None:
        with Game(small("inside.z5")) as game:
            self.assertEqual(game.coverage, b"")

    def test_same_play(self) -> None:
        with Game(example("lighthouse.z5"), coverage=True) as game, Game(example("lighthouse.z5")) as other:
            self.assertEqual(play(game, LINES), play(other, LINES))
            self.assertEqual(game.place, other.place)
            self.assertGreater(sum(game.coverage), 500)


class Seeds(unittest.TestCase):
    """Clones with other dice."""

    def rolls(self, game: Game) -> list[str]:
        return [answer(game, "roll").text for _ in range(20)]

    def test_reseed(self) -> None:
        dice = Story(TOP / "web/page_tests/menu.z5")
        with Game(dice, seed=77) as game, Game(dice) as first:
            with first.clone() as other:
                other.reseed(77)
                self.assertEqual(self.rolls(other), self.rolls(game))
            with first.clone() as same:
                self.assertEqual(self.rolls(same), self.rolls(first))

    def test_refused(self) -> None:
        with Game(example("lighthouse.z5")) as game:
            for wrong in (-1, 2**64):
                with self.assertRaises(ValueError):
                    game.reseed(wrong)
        with Game(example("hello.z3")) as game, self.assertRaises(NotAwaited) as raised:
            game.reseed(1)
        self.assertEqual(str(raised.exception), "the story awaits nothing, not other random numbers")
