#!/usr/bin/env python3
"""Runs the program on words and files, and tells which cases come as docs/manual/playing.md says.

usage: conformance/program.py [-v] COMMAND...

COMMAND is the program with nothing after it, as `conformance/program.py crates/zkit/out/zkit`. Most cases stand in
program.cases, each with its words, what standard output and standard error show, and the status. Here are those of a
saved game's file that is there, of its owner, and of plays that wait for a line.
"""

from __future__ import annotations

import fcntl
import os
import re
from collections.abc import Iterable
from pathlib import Path
from subprocess import DEVNULL, PIPE, Popen

from case_files import Book, Written
from cases import Differs, LeftOut, compiler, preloaded, run_cases, same, shown, shown_up_to, takes_preloaded
from ending import end_with

# What the file is called that a saved game is written in.
BESIDE = re.compile(r"\.zkit-[0-9a-f]{16}")
BOOK = Book(Path(__file__).with_name("program.cases"))
OLD, GAME = BOOK.texts["old_game"], BOOK.texts["game"]
SAVE = "play --save kept saves_on.z3"
NOT_SAVED = "zkit: kept: the game was not saved: "
REFUSALS = "a save with each call of the system refused"


def rights_of(path: Path) -> tuple[int, int, int]:
    """The owner and the group of a file, and what these and others may do with it."""
    found = path.stat()
    return found.st_uid, found.st_gid, found.st_mode & 0o777


class Cases(Written):
    """The cases."""

    # ---- a file for the saved game that is there, or can't be written

    def save(self) -> bytes | None:
        """Saves into `kept`, which has to show no failure, and answers what that holds then."""
        self.check(shown(""), SAVE)
        return self.read("kept")

    def kept_before(self, mode: int = 0o644) -> Path:
        """The file `kept` with an old game in it."""
        self.write({"kept": OLD})
        (self.folder / "kept").chmod(mode)
        return self.folder / "kept"

    def check_mode(self) -> None:
        """A new game may be read by those who could read the old one."""
        kept = self.kept_before(0o600)
        same((GAME, 0o600), (self.save(), rights_of(kept)[2]))

    def check_hard_link(self) -> None:
        """Another name of the old game's file keeps the old game."""
        os.link(self.kept_before(), self.folder / "other")
        same((GAME, OLD), (self.save(), self.read("other")))

    def killed_save(self) -> list[Path]:
        """Has a save into `kept` killed while it writes, and answers what it leaves beside that."""
        self.run(SAVE, preexec_fn=self.within(10)["preexec_fn"])
        return [self.folder / name for name in self.new() if name.startswith(".zkit-")]

    def check_killed(self) -> None:
        """What a killed save leaves is its owner's alone, has a name of its form, and goes with the next save."""
        self.kept_before()
        formed = [(BESIDE.fullmatch(path.name) is not None, rights_of(path)[2]) for path in self.killed_save()]
        same(([(True, 0o600)], OLD), (formed, self.read("kept")))
        same((GAME, ["kept"]), (self.save(), self.new()))

    def check_link_beside(self) -> None:
        """A link that stands where a save writes is taken away, and the file behind it stays."""
        self.write({"behind": b"a note"})
        (beside,) = self.killed_save()
        beside.unlink()
        beside.symlink_to("behind")
        same(GAME, self.save())
        same((b"a note", ["behind", "kept"]), (self.read("behind"), self.new()))

    def check_busy(self) -> None:
        """A save fails while another play is saving to the same file, and leaves what that writes.

        One to another file does not.
        """
        (beside,) = self.killed_save()
        with open(beside, "rb") as held:
            fcntl.flock(held, fcntl.LOCK_EX)
            self.check((0, "", NOT_SAVED + "another play is saving to it\n"), SAVE)
            self.check(shown(""), "play --save kept2 saves_on.z3")
            same([beside.name, "kept2"], self.new())

    def check_long_name(self) -> None:
        """A file is saved to whose name is as long as may be, twice."""
        name = "k" * 255
        for _ in range(2):
            self.check(shown(""), f"play --save {name} saves_on.z3")
            same((GAME, [name]), (self.read(name), self.new()))

    def give_away(self, path: Path) -> None:
        """Gives a file away, as root can."""
        try:
            os.chown(path, 1, 2)
        except OSError as error:
            raise LeftOut("no file can be given away") from error

    def check_owner(self) -> None:
        """A new game has the owner, the group and the rights of the old one."""
        kept = self.kept_before(0o640)
        self.give_away(kept)
        self.save()
        same((1, 2, 0o640), rights_of(kept))

    def check_other_owner(self) -> None:
        """A player who may not keep the owner and the group is told so, and gives nobody rights who had none; a group
        of the player's is kept, with its rights."""
        told = "zkit: open/kept: the game was saved, but the file has another owner or group than before\n"
        words = "play --save open/kept saves_on.z3"
        for groups, mode, rights in (([], 0o756, (3, 4, 0o744)), ([2], 0o765, (3, 2, 0o765))):
            self.write({"open/kept": OLD})
            kept = self.folder / "open/kept"
            kept.chmod(mode)
            kept.parent.chmod(0o777)
            self.give_away(kept)
            if not self.without_rights:
                raise LeftOut("the user nobody can't start the program")
            self.check((0, "", told), words, user=3, group=4, extra_groups=groups)
            same(rights, rights_of(kept))

    def check_calls(self) -> None:
        """The game is on the disk, with the rights of the old one, before it takes that one's place."""
        self.kept_before()
        library = preloaded("refused_calls.c", self.folder)
        self.run(SAVE, env={**os.environ, "LD_PRELOAD": library, "CALLS": "1"})
        names = (self.read("calls") or b"").decode().split()
        (self.folder / "calls").unlink(missing_ok=True)
        same(["write", "fchown", "fchmod", "fsync", "rename"], names[-5:])

    def check_refusals(self) -> None:
        """A save in which any call of the system is refused leaves the old game or the new one, whole, and no file
        beside it, unless that one can't be taken away."""
        library = preloaded("refused_calls.c", self.folder)
        for number in range(1, 100):
            self.kept_before()
            status, _, _ = self.run(SAVE, env={**os.environ, "LD_PRELOAD": library, "REFUSED": str(number)})
            held, refused = self.read("kept"), (self.read("refused") or b"").decode().strip()
            for name in self.new():
                if name.startswith(".zkit-") and refused != "unlink":
                    raise Differs(f"call {number}, {refused}, refused: {name} is left")
                if name.startswith((".zkit-", "kept")):
                    (self.folder / name).unlink()
            if held not in (OLD, GAME):
                raise Differs(f"call {number}, {refused}, refused: {held!r}")
            if not refused:
                return same((True, 0, GAME), (number > 8, status, held), f"{number - 1} calls")
            (self.folder / "refused").unlink()
        raise Differs("a save has no end")

    def run_saves(self) -> None:
        """Runs the cases of a file for the saved game that is there."""
        for what, check in (
            ("where kept is its owner's alone", self.check_mode),
            ("where another name leads to kept", self.check_hard_link),
            ("killed while it writes", self.check_killed),
            ("where a link stands beside kept", self.check_link_beside),
            ("while another play saves", self.check_busy),
        ):
            self.case(f"{SAVE}, {what}", check)
        self.case("play --save with a name of 255 bytes", self.check_long_name)
        self.case(f"{SAVE}, where kept is another's", self.check_owner)
        self.case("play --save open/kept saves_on.z3, by who may not give it away", self.check_other_owner)
        if not compiler():
            self.left_out("there is no C compiler", REFUSALS)
        elif not takes_preloaded(self.command):
            self.left_out("nothing can be loaded before this program", REFUSALS)
        else:
            self.case(f"{SAVE}, by its calls of the system", self.check_calls)
            self.case(f"{SAVE}, with each call of the system refused", self.check_refusals)

    # ---- plays that wait for a line

    def check_prompt(self, words: str, turns: Iterable[tuple[str, str]]) -> None:
        """Looks whether the text of each turn is on the screen before its line is typed, if one is."""
        command = [*self.command, *words.split(), "reads.z5"]
        with Popen(command, cwd=self.folder, stdin=PIPE, stdout=PIPE, stderr=DEVNULL, bufsize=0) as playing:
            assert playing.stdin and playing.stdout
            for wanted, line in turns:
                came = shown_up_to(playing.stdout.fileno(), wanted)
                if came != wanted:
                    playing.kill()
                same(wanted, came, f"before {line!r}")
                playing.stdin.write(line.encode())

    def run_readers(self) -> None:
        """Runs the cases of plays that wait for a line."""
        plain, echoed = ((">", "go\n"), ("g>", "up\n"), ("u", "")), ((">", "go\n"), ("go\ng>", "up\n"), ("up\nu", ""))
        self.case("play reads.z5, line by line", self.check_prompt, "play", plain)
        self.case("play --echo reads.z5, line by line", self.check_prompt, "play --echo", echoed)

    def run_all(self) -> None:
        """Runs all cases."""
        (self.folder / "folder").mkdir()
        os.mkfifo(self.folder / "pipe")
        (self.folder / "linked.z3").symlink_to("saves.z3")
        self.known |= {"folder", "pipe", "linked.z3"}
        self.run_book(BOOK)
        self.run_saves()
        self.run_readers()


if __name__ == "__main__":
    end_with(lambda: run_cases("program", __doc__, Cases, BOOK.files))
