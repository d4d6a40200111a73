"""What the tools share: words, mistakes, files, numbers as text, and the program's output."""

import functools
import html
import json
import os
import re
import struct
import subprocess
import sys
from decimal import ROUND_HALF_EVEN, Context, Decimal
from fractions import Fraction

TOP = os.path.dirname(os.path.dirname(os.path.realpath(__file__)))
COMMON = os.path.join(TOP, "defs", "common.json")
NUMBER = re.compile(r"[+-]?(?:[0-9]+(?:\.[0-9]*)?|\.[0-9]+)(?:[eE][+-]?[0-9]{1,4})?")
LONGEST_NUMBER = 400
LARGEST_TEXT = 1 << 24
NAN, INFINITY = 0x7FC00000, 0x7F800000
EXACT = Context(prec=LONGEST_NUMBER + 10, Emin=-99999, Emax=99999)
UNUSABLE_WORDS, WRONG_FORM, UNREADABLE, UNWRITABLE = 2, 3, 4, 5


class Mistake(Exception):
    """Ends a tool with a status and one sentence on standard error."""

    def __init__(self, status, sentence):
        super().__init__(sentence)
        self.status = status


def wrong_form(place, expected):
    """Returns the mistake of a file of the wrong form."""
    return Mistake(WRONG_FORM, f"{place}: {expected}")


def shown(text):
    """Returns a text for a sentence: printable, in quotes, and not long."""
    text = str(text)
    return ascii(text if len(text) <= 40 else text[:37] + "..")


def run_tool(main):
    """Calls a tool's `main` with its words, and exits with its status."""
    sys.stdout.reconfigure(encoding="utf-8")
    try:
        status = main(sys.argv[1:])
        sys.stdout.flush()
    except Mistake as mistake:
        print("bevuntri: " + str(mistake).replace("\n", "\\n"), file=sys.stderr)
        status = mistake.status
    except OSError as error:
        os.dup2(os.open(os.devnull, os.O_WRONLY), sys.stdout.fileno())
        if not isinstance(error, BrokenPipeError):
            print(f"bevuntri: standard output can't be written: {error.strerror}", file=sys.stderr)
        status = UNWRITABLE
    except KeyboardInterrupt:
        status = 130
    sys.exit(status)


def words_of(page, words, valued=(), flags=(), plain=(1, 1)):
    """Returns the options and the plain words of a tool; prints its page and exits at `--help`.

    Options are a dictionary by name, with values for those in `valued`, True for those in `flags`.
    """
    options, rest, words = {}, [], list(words)
    usage = page.split("\n", 1)[0]
    while words:
        word = words.pop(0)
        name, is_pair, value = word.partition("=")
        if word == "--help":
            print(page.strip())
            sys.exit(0)
        elif word == "--":
            rest += words
            break
        elif not word.startswith("-") or word == "-":
            rest.append(word)
        elif name in options or name not in (*valued, *flags) or is_pair and name in flags:
            raise Mistake(UNUSABLE_WORDS, f"{shown(word)} isn't expected here: {usage}")
        elif name in valued and not is_pair and (not words or re.match("-.", words[0])):
            raise Mistake(UNUSABLE_WORDS, f"{word} expects a value after it: {usage}")
        else:
            options[name] = value if is_pair else words.pop(0) if name in valued else True
            if not options[name]:
                raise Mistake(UNUSABLE_WORDS, f"{name} expects a value that isn't empty: {usage}")
    if not plain[0] <= len(rest) <= plain[1]:
        wrong = "one is missing"
        if len(rest) > plain[1]:
            wrong = f"{shown(rest[plain[1]])} is one too many"
        raise Mistake(UNUSABLE_WORDS, f"of the words {wrong}: {usage}")
    return options, rest


def read_text(path):
    """Returns the text of a file, `-` being standard input."""
    try:
        with open(0 if path == "-" else path, "rb", closefd=path != "-") as file:
            data = file.read(LARGEST_TEXT + 1)
    except (OSError, ValueError) as error:
        reason = getattr(error, "strerror", error)
        raise Mistake(UNREADABLE, f"{shown(path)} can't be read: {reason}") from None
    if len(data) > LARGEST_TEXT:
        raise wrong_form(path, f"expected a text of at most {LARGEST_TEXT} bytes")
    try:
        return data.decode("utf-8-sig")
    except UnicodeDecodeError as error:
        raise wrong_form(path, f"byte {error.start}: expected text in UTF-8") from None


def json_of(path, text):
    """Returns the value of a file's JSON, in which each number is a Decimal."""
    def refuse(name):
        raise ValueError(f"{name} isn't JSON")
    try:
        return json.loads(text, parse_float=decimal_of, parse_int=decimal_of,
                          parse_constant=refuse)
    except json.JSONDecodeError as error:
        raise wrong_form(path, f"line {error.lineno}: expected JSON: {error.msg}") from None
    except (ValueError, RecursionError) as error:
        reason = error if isinstance(error, ValueError) else "it is nested too deep"
        raise wrong_form(path, f"expected JSON: {reason}") from None


def decimal_of(text):
    """Returns a decimal text's exact value."""
    if len(text) > LONGEST_NUMBER or not NUMBER.fullmatch(text):
        raise ValueError(f"{shown(text)} isn't a decimal number")
    return EXACT.create_decimal(text)


def scaled(degrees):
    """Returns degrees as a whole number of units of 1e-7 degrees, rounded half to even."""
    return int(EXACT.scaleb(degrees, 7).to_integral_value(ROUND_HALF_EVEN))


def degrees_text(units):
    """Returns units of 1e-7 degrees as exact decimal text."""
    text = f"{abs(units) // 10**7}.{abs(units) % 10**7:07d}".rstrip("0").rstrip(".")
    return "-" + text if units < 0 else text


def word_of(number):
    """Returns the bits of the 32-bit float that is nearest to a Decimal, the even one of two."""
    sign = 0x80000000 if number.is_signed() else 0
    if not number or number.adjusted() < -60:
        return sign
    if number.adjusted() > 40:
        return sign | INFINITY
    exact = abs(Fraction(number))  # That of a Decimal is rounded to 28 digits.
    guess = struct.unpack("<I", struct.pack("<f", min(float(exact), 3.4028234e38)))[0]
    near = [word for word in (guess - 1, guess, guess + 1) if word >= 0]
    return sign | min(near, key=lambda word: (abs(float_value(word) - exact), word & 1))


def float_value(word):
    """Returns the exact value of a finite float's bits; 2^128 stands in for infinity."""
    if word == INFINITY:
        return Fraction(2**128)
    return Fraction(struct.unpack("<f", struct.pack("<I", word))[0])


@functools.lru_cache(maxsize=65536)
def float_text(word):
    """Returns the shortest text that reads as the float of these bits; `nan`, `inf`, `-inf`."""
    value = struct.unpack("<f", struct.pack("<I", word))[0]
    if value != value or value in (float("inf"), float("-inf")):
        return str(value).replace("-nan", "nan")
    near = max(abs(value) * 1.2e-7, 1.5e-45)
    texts = (f"{value:.{digits}g}" for digits in range(1, 10))
    text = next(text for text in texts
                if abs(float(text) - value) <= near and word_of(Decimal(text)) == word)
    return format(Decimal(text), "f") if 1e-5 <= abs(value) < 1e16 else text


def program_words(words):
    """Returns the words that run the program: BEVUNTRI_PROGRAM, or the launcher."""
    return [os.environ.get("BEVUNTRI_PROGRAM") or os.path.join(TOP, "bin", "bevuntri"), *words]


def start_program(words, **pipes):
    # What is wrong is said by the tool, so the launcher doesn't.
    env = {**os.environ, "BEVUNTRI_OF_TOOL": "1"}
    try:
        return subprocess.Popen(program_words(words), stdout=subprocess.PIPE, env=env, **pipes)
    except OSError as error:
        raise Mistake(1, f"{program_words([])[0]} can't be run: {error.strerror}") from None


def output_of(words, place="", stdin=b""):
    """Returns the lines that the program prints; another status than 0 is a mistake at a place."""
    process = start_program(words, stdin=subprocess.PIPE)
    lines = process.communicate(stdin)[0].decode("utf-8", "replace").split("\n")
    if process.returncode:
        last = next((line for line in reversed(lines) if line), "no text")
        place = place or " ".join(words[1:])
        raise Mistake(process.returncode, f"{place}: {words[0]} ends with {shown(last)}")
    return lines[:-1]


def types_of(definitions):
    """Returns the types of all fields that `dialect` prints, by message and field."""
    words = ["dialect", "--defs=" + definitions] if definitions else ["dialect"]
    types, fields = {}, {}
    for line in output_of(words):
        if line.startswith(" "):
            _, kind, name = line.split()
            fields[name] = kind
        elif " len " in line:
            fields = types.setdefault(line.split()[1], {})
    return types


def escaped(text):
    """Returns a text for XML and HTML, in elements and in quotes."""
    return html.escape("".join(char if char.isprintable() else "\ufffd" for char in str(text)))


VALUE = r'"[^"]*"|\[[^\]]*\]|[^ ]+'
FIELD = re.compile(f" ([A-Za-z0-9_]+)=({VALUE})")
FRAME = re.compile(
    r"([0-9]+) (?:([0-9]+) )?([A-Z0-9_]+) ([0-9]+)\.([0-9]+) #([0-9]+)( v1)?"
    rf"((?: [A-Za-z0-9_]+=(?:{VALUE}))*)(?: signed ([0-9]+) ([0-9]+)(?: (good|bad))?)?")


def svg(width, height, title, elements):
    """Returns a picture that stands alone, on white, so that it prints."""
    head = (f'<svg xmlns="http://www.w3.org/2000/svg" width="{width}" height="{height}"'
            f' viewBox="0 0 {width} {height}" font-family="sans-serif" font-size="12">'
            f'<title>{escaped(title)}</title><rect width="100%" height="100%" fill="#ffffff"/>')
    return "\n".join([head, *elements, "</svg>\n"])


def label(x, y, text, **attributes):
    """Returns a text of a picture."""
    more = "".join(f' {name.replace("_", "-")}="{value}"' for name, value in attributes.items())
    return f'<text x="{x:.1f}" y="{y:.1f}"{more}>{escaped(text)}</text>'
