"""A file of settings: a text with one load, as fitters write it for a block of an image. Reads it, with its errors, and writes it."""

from typing import List, NamedTuple, Optional, Sequence, Tuple

from .record_form import LOAD, LOAD_WITH_SENSORS, Kind
from .records_text import Error, is_load, is_setting, lines_of, read_text

ONE_LOAD = "a file of settings has one load and nothing else"
# "24 or 25 numbers"
KIND_OF_COUNT = {len(kind.fields): kind for kind in (LOAD, LOAD_WITH_SENSORS)}


class Settings(NamedTuple):
    """The numbers of a load, 24 or 25."""

    kind: Kind
    values: Tuple[int, ...]

    @property
    def body(self) -> bytes:
        """As a block of an image holds them: as the record does, behind its letter."""
        return self.kind.packed(*self.values)[1:]


def settings_of(numbers: Sequence[int]) -> Settings:
    """Settings of 24 or 25 numbers of 16 bits, whichever way the signed ones are told."""
    kind = KIND_OF_COUNT[len(numbers)]
    least = (one.held[0] for one in kind.fields)
    return Settings(kind, tuple((number - low) % 65536 + low for number, low in zip(numbers, least)))


def read_settings(text: str) -> Tuple[Optional[Settings], List[Error]]:
    """The settings of a text, or its errors."""
    whole, errors = read_text(text)
    firsts = [(number, words[0]) for number, words in lines_of(text)]
    loads = [(number, word) for number, word in firsts if is_load(word)]
    others = [(number, word) for number, word in firsts if not (is_load(word) or is_setting(word) or "=" in word.text)]
    # What is no load is not judged as the record that it is.
    told = {number: (number, column, message) for number, column, message in errors}
    told.update({number: (number, word.column, f"'{word.text}': {ONE_LOAD}") for number, word in others})
    told.update({number: (number, word.column, f"a second load: {ONE_LOAD}") for number, word in loads[1:]})
    if not loads and not others:
        first = firsts[0][0] if firsts else 1
        told = {first: (first, 1, f"there is no load before it: {ONE_LOAD}" if firsts else f"there is no load: {ONE_LOAD}")}
    if told:
        return None, [told[number] for number in sorted(told)]
    (load,) = whole.body
    values = load.kind.defaults
    for place, value in load.given.items():
        values[place] = value
    return Settings(load.kind, tuple(values)), []


def written(settings: Settings) -> List[str]:
    """The lines of a load that names every setting, each with its rule."""
    named = [(f"{one.name}={value}", one.rule) for one, value in zip(settings.kind.fields, settings.values)]
    return [LOAD.word, *(f"  {setting:<24}  # {rule}" for setting, rule in named)]
