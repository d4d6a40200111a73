"""The words of a station's operation: the first one that is wrong, and what was expected there."""

import re

from commands import OPERATIONS, PLAN_KINDS
from texts import Mistake, UNUSABLE_WORDS, shown


def wrong(sentence):
    """Returns the mistake of wrong words."""
    return Mistake(UNUSABLE_WORDS, sentence)


def among(texts):
    """Returns texts as a list for a sentence."""
    *first, last = texts
    return f"{', '.join(first)} or {last}" if first else last


def is_number(word, low, high):
    return bool(re.fullmatch("0|[1-9][0-9]{0,19}", word)) and low <= int(word) <= high


def operation_of(plain):
    """Returns the operation of a station's plain words, its first words, or None."""
    return next((key for key in OPERATIONS if plain[4:4 + len(key)] == [*key]), None)


def check_operand(form, word, before):
    """Checks a word of an operation, behind the words before it."""
    kinds = [*PLAN_KINDS, "all"] if form == "plan kind or all" else PLAN_KINDS
    expected = {
        "plan kind": among(kinds), "plan kind or all": among(kinds),
        "word": "eight hexadecimal digits", "parameter": "the name of a parameter, 1 to 16 letters",
    }.get(form, f"a number from 0 to {form}")
    is_right = form == "any" or form.startswith("plan kind") and word in kinds \
        or form == "word" and re.fullmatch("[0-9A-Fa-f]{8}", word) \
        or form == "parameter" and re.fullmatch("[!-~]{1,16}", word) \
        or form.isdecimal() and is_number(word, 0, int(form))
    if not is_right:
        raise wrong(f"expected {expected} after {before}, not {shown(word)}")


def check_operation(plain):
    """Checks the operation of a station, of which there is a word, as far as it goes."""
    words, key = plain[4:], operation_of(plain)
    if key is None:
        firsts = {each[0] for each in OPERATIONS}
        seconds = [each[1] for each in OPERATIONS if each[:1] == (words[0],)]
        if words[0] not in firsts:
            raise wrong(f"{shown(words[0])} is nothing that a station does: expected "
                        f"{among(sorted(firsts))}")
        if len(words) > 1:
            raise wrong(f"expected {among(seconds)} after {words[0]}, not {shown(words[1])}")
        return
    forms, operands = OPERATIONS[key], words[len(key):]
    for at, word in enumerate(operands):
        if at >= len(forms):
            raise wrong(f"{shown(word)} is one word too many after {' '.join(words[:-1])}")
        check_operand(forms[at], word, " ".join([*key, *operands[:at]]))
