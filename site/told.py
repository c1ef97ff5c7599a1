"""What is told of texts, by file and line, and the lines of texts that are made of words."""
import re
from pathlib import Path
from typing import NamedTuple

from common import say


class Place(NamedTuple):
    """Where something stands: a file and its line. Line 0 is the whole of a file, no file what was asked for."""
    file: str = ""
    line: int = 0

    def __str__(self):
        return f"{self.file}:{self.line}" if self.line else self.file


NOWHERE = Place()


class Told:
    """What is told, each once: faults, warnings and what is left out."""

    def __init__(self):
        self.lines, self.faults = set(), 0

    def fault(self, place, text):
        self.faults += (place, text) not in self.lines
        self.lines.add((place, text))

    def warn(self, place, text):
        self.lines.add((place, "warning: " + text))

    def left_out(self, place, text):
        self.lines.add((place, "left out: " + text))

    def write(self):
        for place, text in sorted(self.lines):
            say(f"{place}: {text}" if place.file else text, "stderr")
        if self.faults:
            say(f"{self.faults} fault{'s' * (self.faults > 1)}: nothing is written", "stderr")


def text_in(path, told):
    """The text of a file, each line ended by \\n. What isn't UTF-8 is a fault."""
    written = Path(path).read_bytes()
    try:
        text = written.decode("utf-8-sig")
    except UnicodeDecodeError as fault:
        line = written.count(b"\n", 0, fault.start) + 1
        told.fault(Place(str(path), line), f"byte {written[fault.start]:02X} isn't UTF-8; where the file is LATIN1, "
                   "`iconv -f LATIN1 -t UTF-8` makes it so")
        text = written.decode("latin1")
    return text.replace("\r\n", "\n")


def lines_of(path, told):
    """Each line of a text that has words, as its place and them. A remark is # and a blank, up to the end of its line."""
    for number, line in enumerate(text_in(path, told).split("\n"), 1):
        words = re.sub(r"(^|\s)#(\s.*|$)", "", line).split()
        if words:
            yield Place(str(path), number), words
