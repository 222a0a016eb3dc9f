"""The TOML of a configuration: read as sigaudit reads it, and where its tables and keys stand.

sigaudit reads TOML 1.1, Python's tomllib TOML 1.0; and sigaudit's reader has limits of its own.
"""

from __future__ import annotations

import bisect
import re
import tomllib

Entry = dict[str, object]
# A place: the table, the entry's number in it, and a key where one is meant. The top is the table `top`.
Place = tuple[str, int] | tuple[str, int, str]
Lines = dict[Place, int]

DEEPEST = 80
_TOKEN = re.compile(r"""\"{3}(?:\\.|[^\\])*?\"{3,5}|'{3}.*?'{3,5}|"(?:\\.|[^"\\\n])*"|'[^'\n]*'|"""
                    r"""\#[^\n]*|[^"'#\n,{}\[\]]+|.""", re.S)
_ESCAPE = re.compile(r"(\\\\)|\\e|\\x([0-9A-Fa-f]{2})")
# A line without anything, the head of a table, or a key up to its =.
_STATEMENT = re.compile(r"[ \t\r\n]*(?:#[^\n]*)?(?:\n|$)|[ \t]*(\[\[?)([^\n]*?)\]|"
                        r"[ \t]*((?:\"(?:\\.|[^\"\\\n])*\"|'[^'\n]*'|[^=\"'\n])+)=")


class NotToml(ValueError):
    """A text isn't TOML as sigaudit reads it: in words, and the line where it is known."""

    def __init__(self, words: str, line: int | None) -> None:
        super().__init__(words)
        self.words, self.line = words, line


# ---- values


def parse(text: bytes) -> Entry:
    """The document of a configuration's bytes.

    Raises:
        NotToml: sigaudit's reader doesn't take it.
    """
    try:
        decoded = text.decode("utf-8")
    except UnicodeDecodeError as error:
        line = text[:error.start].count(b"\n") + 1
        raise NotToml("a byte that isn't UTF-8: save the file as UTF-8", line) from error
    document = _loaded(decoded)
    for key, value in document.items():
        wrong = _too_much(value)
        if wrong:
            raise NotToml(f"{key}: {wrong}", lines_of(text).get(("top", 0, key)))
    return document


def _loaded(decoded: str) -> Entry:
    try:
        return tomllib.loads(decoded, parse_float=_finite)
    except (ValueError, RecursionError) as error:
        try:
            return tomllib.loads(_older(decoded), parse_float=_finite)
        except (ValueError, RecursionError):
            found = re.search(r"\(at line (\d+)", str(error))
            line = int(found[1]) if found else decoded.count("\n") + 1
            raise NotToml("not TOML: " + str(error).split(" (at ")[0].lower(), line) from error


def _finite(text: str) -> float:
    """A number with a point, as sigaudit's reader takes it: none so great that it would be infinite."""
    value = float(text)
    if value in (float("inf"), -float("inf")) and "inf" not in text:
        raise ValueError("a number that is too great")
    return value


def _too_much(value: object, depth: int = 0) -> str | None:
    """What sigaudit's reader doesn't take in a document that is TOML, in words, or None."""
    if isinstance(value, int) and not -2 ** 63 <= value < 2 ** 63:
        return "a number that doesn't fit 64 bits"
    if isinstance(value, (dict, list)):
        if depth >= DEEPEST:
            return "brackets too deep in one another"
        inner = value.values() if isinstance(value, dict) else value
        return next(filter(None, (_too_much(one, depth + 1) for one in inner)), None)
    return None


def _older(text: str) -> str:
    """The text in TOML 1.0, where it is in 1.1: escapes, times without seconds, inline tables over several lines."""
    found: list[str] = []
    brackets: list[str] = []
    for token in _TOKEN.findall(text.removeprefix("\ufeff")):
        if token[0] == '"':
            token = _ESCAPE.sub(lambda part: part[1] or "\\u00" + (part[2] or "1b"), token)
        elif token in "[{":
            brackets.append(token)
        elif token in "]}" and brackets:
            brackets.pop()
            if token == "}":
                _drop_last_comma(found)
        elif brackets[-1:] == ["{"] and (token == "\n" or token[0] == "#"):
            token = " "
        elif token[0] not in "'#":
            token = re.sub(r"(?<![\d:])(\d\d:\d\d)(?![\d:])", r"\1:00", token).replace(":60", ":59")
            token = re.sub(r"(?<!\d)0000-", "0004-", token)
        found.append(token)
    return "".join(found)


def _drop_last_comma(found: list[str]) -> None:
    """Takes the comma away that an inline table of TOML 1.1 may have after its last entry."""
    last = len(found) - 1
    while last > 1 and found[last].isspace():
        last -= 1
    if found[last:last + 1] == [","] and "".join(found[:last]).rstrip()[-1:] not in "{,":
        found[last] = " "


# ---- where things stand in the text


def lines_of(text: bytes) -> Lines:
    """The line of each key of the top, of each entry of a table and of each of its keys, in a text that is TOML."""
    return _Places(text.decode("utf-8").removeprefix("\ufeff")).found


class _Places:
    """Goes through a text, and notes the lines of its tables and keys."""

    def __init__(self, text: str) -> None:
        self.text = text
        self.found: Lines = {}
        self.counts: dict[str, int] = {}
        self.here: tuple[str, int] = ("top", 0)
        self.ends = [end.start() for end in re.finditer("\n", text)]
        at = 0
        while at < len(text):
            at = self.statement(at)

    def line(self, place: int) -> int:
        return 1 + bisect.bisect_left(self.ends, place)

    def statement(self, at: int) -> int:
        """Notes what stands at a place, and answers where the next begins."""
        found = _STATEMENT.match(self.text, at)
        if not found or found.end() == at:
            return at + 1
        if found[1]:
            return self.head(found[2], found.start(1), found.end())
        if found[3]:
            return self.key(found[3], found.start(3), found.end())
        return found.end()

    def head(self, name: str, start: int, end: int) -> int:
        name = _first_part(name)
        self.here = name, self.counts.get(name, 0)
        self.counts[name] = self.counts.get(name, 0) + 1
        self.found.setdefault(self.here, self.line(start))
        self.found.setdefault(("top", 0, name), self.line(start))
        return (self.text + "\n").index("\n", end)

    def key(self, key: str, start: int, end: int) -> int:
        name = _first_part(key)
        self.found.setdefault((*self.here, name), self.line(start + len(key) - len(key.lstrip())))
        end, braces = _skip_value(self.text, end)
        for place, brace in enumerate(braces) if self.here[0] == "top" else ():
            self.found.setdefault((name, place), self.line(brace))
        return end


def _first_part(key: str) -> str:
    """The first part of a key as it stands in a text."""
    if key.isascii() and key.strip().replace("_", "").isalnum():
        return key.strip()
    try:
        return next(iter(tomllib.loads(_older(key + " = 0"))))
    except ValueError:
        return key.strip()


def _skip_value(text: str, at: int) -> tuple[int, list[int]]:
    """The end of the value at a place, and the places of the braces of an array's own inline tables."""
    depth = 0
    braces: list[int] = []
    while at < len(text):
        char = text[at]
        if text.startswith(('"""', "'''"), at):
            at = _end_of_long_text(text, at)
        elif char in "\"'":
            at = _end_of_text(text, at)
        elif char == "#":
            at = (text + "\n").index("\n", at)
        elif char == "\n" and depth == 0:
            break
        else:
            if char == "{" and depth == 1:
                braces.append(at)
            depth += (char in "[{") - (char in "]}")
            at += 1
    return at, braces


def _end_of_long_text(text: str, at: int) -> int:
    mark, end = text[at:at + 3], at + 3
    while end < len(text) and not text.startswith(mark, end):
        end += 2 if text[end] == "\\" and mark[0] == '"' else 1
    return end + 3


def _end_of_text(text: str, at: int) -> int:
    mark, end = text[at], at + 1
    while end < len(text) and text[end] not in (mark, "\n"):
        end += 2 if text[end] == "\\" and mark == '"' else 1
    return end + 1


# ---- values of a document without a mistake


def entries(top: Entry, name: str) -> list[Entry]:
    """The entries of a table, none where it isn't there."""
    found = top.get(name, [])
    return [one for one in found if isinstance(one, dict)] if isinstance(found, list) else []


def text_at(entry: Entry, key: str) -> str:
    """The text at a key."""
    value = entry[key]
    if not isinstance(value, str):
        raise TypeError(f"{key} is no text")
    return value


def optional_at(entry: Entry, key: str) -> int | None:
    """The whole number at a key, None where there is none."""
    value = entry.get(key)
    if value is not None and not isinstance(value, int):
        raise TypeError(f"{key} is no whole number")
    return value


def number_at(entry: Entry, key: str, otherwise: int | None = None) -> int:
    """The whole number at a key, or another where there is none."""
    value = optional_at(entry, key)
    value = otherwise if value is None else value
    if value is None:
        raise KeyError(key)
    return value


def numbers_at(entry: Entry, *keys: str) -> list[int]:
    """The whole numbers at some keys."""
    return [number_at(entry, key) for key in keys]


def list_at(entry: Entry, key: str) -> tuple[int, ...]:
    """The whole numbers of an array at a key."""
    value = entry[key]
    if not isinstance(value, list):
        raise TypeError(f"{key} is no array")
    return tuple(one for one in value if isinstance(one, int))
