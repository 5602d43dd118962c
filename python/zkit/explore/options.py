"""The command line of `python3 -m zkit.explore`."""

from __future__ import annotations

import argparse
from pathlib import Path
from typing import NoReturn

from zkit.explore.plays import STEPS
from zkit.explore.walkthroughs import LARGEST_SEED

MINUTES = 1.0
MOST_JOBS = 256
DESCRIPTION = f"""\
Plays a story by itself, and tells what goes wrong: faults, limits, endless output, run-time errors that Inform's
library prints. Each find is told with the fewest lines that lead to it. A turn may run {STEPS:,} instructions."""
STATUSES = """\
exit statuses:
  0    nothing was found; goals do not count
  1    the command line is wrong, a file can't be used, or no job could go on and nothing was found
  2    something was found
  130  Ctrl-C ended it; what was found so far is told"""


class _Parser(argparse.ArgumentParser):
    def error(self, message: str) -> NoReturn:
        self.exit(1, f"zkit.explore: {message}\n{self.format_usage()}")


def _seed(word: str) -> int:
    if not (word.isascii() and word.isdigit() and int(word) <= LARGEST_SEED):
        raise argparse.ArgumentTypeError(f"{word} is no number from 0 to {LARGEST_SEED}")
    return int(word)


def _turns(word: str) -> int:
    if not (word.isascii() and word.isdigit() and len(word) < 16):
        raise argparse.ArgumentTypeError(f"{word} is no number of turns")
    return int(word)


def _jobs(word: str) -> int:
    if not (word.isascii() and word.isdigit() and len(word) < 4 and 1 <= int(word) <= MOST_JOBS):
        raise argparse.ArgumentTypeError(f"{word} is no number from 1 to {MOST_JOBS}")
    return int(word)


def _minutes(word: str) -> float:
    try:
        minutes = float(word)
    except ValueError:
        minutes = -1
    if not 0 <= minutes <= 1_000_000:
        raise argparse.ArgumentTypeError(f"{word} is no number of minutes")
    return minutes


def _shown(word: str) -> str:
    if not word.strip() or "\n" in word:
        raise argparse.ArgumentTypeError("it is one line with a character that can be seen")
    return word


def parser() -> argparse.ArgumentParser:
    """The parser of the command line."""
    made = _Parser(
        prog="python3 -m zkit.explore", description=DESCRIPTION, epilog=STATUSES, allow_abbrev=False,
        formatter_class=argparse.RawDescriptionHelpFormatter,
    )
    made.add_argument("story", metavar="STORY", type=Path, help="a story file, or a Blorb file with one")
    made.add_argument(
        "--minutes", type=_minutes, metavar="N", help=f"the most time; {MINUTES:g} if --turns is not given either"
    )
    made.add_argument("--turns", type=_turns, metavar="N", help="the most turns: the same turns give the same finds")
    made.add_argument(
        "--jobs", type=_jobs, metavar="N", default=1, help="how many processes explore at once; 1 if not given"
    )
    made.add_argument("--seed", type=_seed, metavar="N", default=1, help="of all that is random; 1 if not given")
    made.add_argument(
        "--from", dest="walkthroughs", action="append", default=[], metavar="WALKTHROUGH",
        help="a walkthrough to begin with, or a folder of some; may be given several times",
    )
    made.add_argument("--into", type=Path, metavar="FOLDER", help="where each find is written, for zkit test")
    made.add_argument(
        "--alarm", dest="alarms", action="append", type=_shown, default=[], metavar="TEXT",
        help="a text that must never be shown; may be given several times",
    )
    made.add_argument(
        "--goal", dest="goals", action="append", type=_shown, default=[], metavar="TEXT",
        help="a text to look for, such as that of an end; may be given several times",
    )
    made.add_argument(
        "--cluster", metavar="ADDRESS",
        help="explores on the cluster of Dask at the address of this scheduler; local makes one of --jobs processes"
    )
    made.add_argument(
        "--names", type=Path, metavar="FILE",
        help="the debugging file of inform6 -k: tells the source's lines of faults and limits"
    )
    made.add_argument(
        "--cover", type=Path, metavar="FILE",
        help="adds the addresses of executed instructions to this coverage file, for zkit cover"
    )
    made.add_argument(
        "--program", type=Path, metavar="PATH",
        help="the program zkit, which is asked for these lines, and how much of the story was run"
    )
    made.add_argument("--json", type=Path, metavar="FILE", help="where a report in JSON goes")
    made.add_argument("--quiet", action="store_true", help="shows neither progress nor a report")
    return made
