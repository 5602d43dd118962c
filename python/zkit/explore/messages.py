"""What processes tell each other about an exploration, in a form for JSON: leads, finds, and figures."""

from __future__ import annotations

from itertools import islice

from zkit.explore.causes import Cause, Kind, Sign
from zkit.explore.explorer import Explorer
from zkit.explore.finds import Find
from zkit.explore.leads import Lead
from zkit.explore.log import Message
from zkit.explore.plays import Trail


class Teller:
    """Tells what is new in an exploration since the last time."""

    def __init__(self) -> None:
        self._leads: list[Lead] = []
        self._finds = self._places = self._texts = self._ran = 0

    def keep(self, lead: Lead) -> None:
        """Tells of a state that was kept, the next time."""
        self._leads.append(lead)

    def skip(self, explorer: Explorer) -> None:
        """Passes over what is known so far."""
        self._places, self._texts, self._ran = len(explorer.places), explorer.texts, len(explorer.ran)

    def messages(self, explorer: Explorer) -> list[Message]:
        """All that is new: finds first, since the figures refer to them."""
        places, texts = explorer.seen.places, explorer.seen.lines
        figures = {
            "turns": explorer.turns,
            "kept": explorer.kept,
            "lost": explorer.lost,
            "places": list(islice(places, self._places, None)),
            "texts": list(islice(texts, self._texts, None)),
            "ran": list(islice(explorer.ran, self._ran, None)),
            "times": [[*_cause(cause), times] for cause, times in explorer.times],
        }
        told = [{"find": of_find(find)} for find in explorer.finds[self._finds:]]
        told += [{"lead": of_lead(lead)} for lead in self._leads]
        self._leads = []
        self._finds = len(explorer.finds)
        self.skip(explorer)
        return [*told, {"figures": figures}]


def _cause(cause: Cause) -> list[object]:
    return [cause.kind.value, cause.number, cause.place]


def of_lead(lead: Lead) -> Message:
    """A lead in a form for JSON."""
    return {
        "seed": lead.trail.seed, "lines": lead.trail.lines, "place": lead.place, "texts": lead.texts,
        "ran": lead.ran,
    }


def of_find(find: Find) -> Message:
    """A find in a form for JSON."""
    sign = find.sign
    return {
        "cause": _cause(sign.cause), "words": sign.words, "shown": sign.shown, "address": sign.address,
        "seed": find.trail.seed, "lines": find.trail.lines, "turn": find.turn, "shortest": find.is_shortest,
        "follows": find.follows_errors,
    }


def cause_in(told: list[object]) -> Cause:
    """The cause that a message tells."""
    kind, number, place = told
    return Cause(Kind(kind), int(str(number)), str(place))


def lead_in(told: Message) -> Lead:
    """The lead that is told."""
    trail = Trail(told["seed"], tuple(told["lines"]))
    return Lead(trail, told["place"], tuple(told["texts"]), tuple(told["ran"]))


def find_in(told: Message) -> Find:
    """The find that is told. It was not seen here yet."""
    sign = Sign(cause_in(told["cause"]), told["words"], told["shown"], told["address"])
    trail = Trail(told["seed"], tuple(told["lines"]))
    return Find(sign, trail, told["turn"], 0, told["shortest"], told["follows"])
