"""Ways to damage a debugging file of Inform at random, for `names.py`."""

from __future__ import annotations

import random
import re

TAG = re.compile(rb"<[^>]*>")
TEXT = re.compile(rb">([^<]+)<")
NUMBER = re.compile(rb">\s*([0-9]+)\s*<")
PREFIX = re.compile(rb"<story-file-prefix>([^<]*)</")
ELEMENTS = (
    b"routine", b"source", b"sequence-point", b"local-variable", b"story-file-prefix", b"identifier", b"line",
    b"global-variable", b"array", b"object", b"class", b"property", b"attribute", b"address", b"value", b"byte-count",
    b"bytes-per-element",
)
# What Inform does not write: parts of XML that it has no use for, and what is no XML.
ODD = (
    b"<>", b"</>", b"< a>", b"<1></1>", b"<a b></a>", b"<a b=c></a>", b"<a/>", b"<!-- a -->", b"<!-- - -- -->", b"]]>",
    b"<![CDATA[a]]>", b"<?a?>", b"<a b='<'></a>", b"<a b='1' b='2'></a>", b"<a></a >", b"<a\tb='1'></a>",
    b"<!DOCTYPE a [<!ENTITY b 'c'>]>", b"<a:b></a:b>", b"<a b = 'c'></a>", b"<a b='&lt;'></a>", b"<a b='&c;'></a>",
    b"<\xc3\xa9></\xc3\xa9>", b"<a b='>'></a>", b"<a b='1'c='2'></a>", b"<a", b"a>", b"<?xml version=\"1.0\"?>",
)
# What is no text in UTF-8, or has a character that XML does not allow.
NO_TEXT = (
    b"\xff", b"\xc3", b"\xc0\x80", b"\xed\xa0\x80", b"\xf4\x90\x80\x80", b"\xef\xbf\xbe", b"\xef\xbf\xbf",
    b"\0", b"\x01", b"\x0c", b"\x1b",
)
ENTITIES = (
    b"&amp;", b"&lt;", b"&gt;", b"&quot;", b"&apos;", b"&#65;", b"&#x41;", b"&", b"&nbsp;", b"&amp", b"&;", b"&#0;",
    b"&#xD800;", b"&#x110000;", b"&lt ;", b"& ;", b"&AMP;",
)


class Damage:
    """A debugging file, of which each method makes a damaged one."""

    def __init__(self, content: bytes, seed: int) -> None:
        self.content = content
        self.chance = random.Random(seed)

    def at(self) -> int:
        """A place."""
        return self.chance.randrange(len(self.content))

    def one_of(self, what: re.Pattern[bytes], group: int = 0) -> tuple[int, int]:
        """Where one of the things begins and ends that a pattern is for."""
        return self.chance.choice([it.span(group) for it in what.finditer(self.content)])

    def put(self, place: tuple[int, int], new: bytes) -> bytes:
        """The file with something else at a place."""
        return self.content[:place[0]] + new + self.content[place[1]:]

    def beside(self, what: re.Pattern[bytes], new: bytes) -> bytes:
        """The file with something before or behind one of the things that a pattern is for."""
        at = self.one_of(what)[self.chance.randrange(2)]
        return self.put((at, at), new)

    def end_is_missing(self) -> bytes:
        """The file is cut off."""
        return self.content[:self.at()]

    def beginning_is_missing(self) -> bytes:
        """The file begins later."""
        return self.content[self.at():]

    def byte_is_another(self) -> bytes:
        """A byte is changed."""
        at = self.at()
        return self.put((at, at + 1), bytes([self.chance.randrange(256)]))

    def bytes_are_others(self) -> bytes:
        """Some bytes are changed, to those that mean much in XML."""
        made = bytearray(self.content)
        for _ in range(self.chance.randrange(2, 9)):
            made[self.at()] = self.chance.choice(b"<>&/\"'= ;\0\n0aZ\x80\xff")
        return bytes(made)

    def bytes_are_missing(self) -> bytes:
        """Some bytes are left out."""
        at = self.at()
        return self.put((at, at + self.chance.choice((1, 2, 9, 400))), b"")

    def tag_is_missing(self) -> bytes:
        """A tag is left out."""
        return self.put(self.one_of(TAG), b"")

    def tag_is_doubled(self) -> bytes:
        """A tag stands twice."""
        place = self.one_of(TAG)
        return self.put(place, 2 * self.content[slice(*place)])

    def tag_is_another(self) -> bytes:
        """A tag stands in the place of another one."""
        return self.put(self.one_of(TAG), self.content[slice(*self.one_of(TAG))])

    def tag_is_odd(self) -> bytes:
        """Beside a tag stands what Inform does not write."""
        return self.beside(TAG, self.chance.choice(ODD))

    def entity_is_there(self) -> bytes:
        """There is an entity, or an ampersand that begins none."""
        entity = self.chance.choice(ENTITIES)
        at = self.one_of(TEXT, 1)[0]
        return self.beside(TAG, entity) if self.chance.random() < 0.2 else self.put((at, at), entity)

    def number_is_none(self) -> bytes:
        """A number is a word."""
        words = (b"seven", b"", b"-1", b"1.5", b"0x10", b"7 7", b"\xd9\xa7")
        return self.put(self.one_of(NUMBER, 1), self.chance.choice(words))

    def number_is_another(self) -> bytes:
        """A number is another one, or a huge one."""
        numbers = (0, 1, 65536, 2 ** 31, 2 ** 32 - 1, 2 ** 32, 2 ** 64 - 1, 2 ** 64, 10 ** 40, 10 ** 4000)
        return self.put(self.one_of(NUMBER, 1), str(self.chance.choice(numbers)).encode())

    def prefix_is_another(self) -> bytes:
        """The first bytes of the story are changed, or their number is."""
        place = self.one_of(PREFIX, 1)
        made = bytearray(self.content[slice(*place)])
        made[self.chance.randrange(len(made))] = self.chance.choice(b"AZaz09+/=-_ ")
        shorter = made[:self.chance.randrange(len(made))]
        return self.put(place, bytes(self.chance.choice((made, made, shorter, b"", 3 * made))))

    def elements_are_nested(self) -> bytes:
        """There are elements in elements, and sometimes one is not closed."""
        count = self.chance.choice((1, 10, 1_000, 100_000))
        closed = count - (self.chance.random() < 0.3)
        return self.beside(TAG, count * b"<a>" + closed * b"</a>")

    def text_is_none(self) -> bytes:
        """A text has bytes that no text has."""
        at = self.one_of(TEXT, 1)[0]
        return self.put((at, at + self.chance.randrange(2)), self.chance.choice(NO_TEXT))

    def text_is_long(self) -> bytes:
        """A text is long."""
        at = self.one_of(TEXT, 1)[0]
        return self.put((at, at), self.chance.choice((b"a", b" ", b"&amp;", b"\n", b"7")) * 1_000_000)

    def element_is_moved(self) -> bytes:
        """An element is missing, stands twice or in the place of another one."""
        name = self.chance.choice([it for it in ELEMENTS if b"</%s>" % it in self.content])
        element = re.compile(rb"<%s[ >].*?</%s>" % (name, name), re.DOTALL)
        place, other = self.one_of(element), self.one_of(element)
        parts = (b"", self.content[slice(*other)], 2 * self.content[slice(*place)])
        return self.put(place, self.chance.choice(parts))


WAYS = (
    Damage.end_is_missing, Damage.beginning_is_missing, Damage.byte_is_another, Damage.bytes_are_others,
    Damage.bytes_are_missing, Damage.tag_is_missing, Damage.tag_is_doubled, Damage.tag_is_another, Damage.tag_is_odd,
    Damage.entity_is_there, Damage.number_is_none, Damage.number_is_another, Damage.prefix_is_another,
    Damage.elements_are_nested, Damage.text_is_none, Damage.text_is_long, Damage.element_is_moved,
)
