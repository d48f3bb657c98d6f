"""Numbers, and what is wrong with a word that is none."""
import re

from .limits import NUMBERS
from .lines import refuse

SUFFIXES = {"k": 2**10, "m": 2**20, "g": 2**30}


def value_of(digits):
    """The value of decimal digits. One of more than forty digits is past every limit, and stands as 10^40."""
    digits = digits.lstrip("0")
    return 10**40 if len(digits) > 40 else int(digits or "0")


def suggestion(text, hexadecimal):
    """What was probably meant by a word that is no number."""
    if re.fullmatch(r"[-+].*", text):
        return "numbers have no sign"
    if size := re.fullmatch(r"([0-9]+)([kKmMgG])i?[bB]?", text):
        return f"there are no suffixes: {int(size[1]) * SUFFIXES[size[2].lower()]}"
    if re.fullmatch(r"[0-9a-fA-F]+,([a-z_0-9]+=.*)?", text) or re.fullmatch(r"[0-9]+(,[0-9]+)+", text):
        return "words are separated by blanks, and digits by nothing"
    if re.fullmatch(r"[0-9a-fA-F_']+", text) and re.search(r"[_']", text):
        return "digits stand without separators"
    if re.fullmatch(r"[0-9]+\.[0-9]*|[0-9.]+[eE][0-9]+", text):
        return "numbers are whole, and without an exponent"
    return hexadecimal_suggestion(text, hexadecimal)


def hexadecimal_suggestion(text, hexadecimal):
    """What was probably meant by a word that looks like a hexadecimal number."""
    digits = re.fullmatch(r"(0[xX])?([0-9a-fA-F]+)[hH]?", text)
    if re.fullmatch(r"0[xX]", text):
        return "digits follow after 0x"
    if digits and hexadecimal:
        return f"hexadecimal needs 0x: 0x{digits[2]}"
    if digits:
        return f"this number is decimal: {int(digits[2][:32], 16)}"
    if wrong := re.match(r"0[xX][0-9a-fA-F]*(.)", text):
        return f"{wrong[1]} is not a hexadecimal digit"
    return ""


def decimal(what, word, name):
    """The value of decimal digits, which may be of any size."""
    if not re.fullmatch(r"[0-9]+", word.text):
        refuse(what, word, f"{name} `{word.text}` is not a decimal number", suggestion(word.text, False))
    return value_of(word.text)


def number(what, word, name):
    """The value of decimal digits, or of hexadecimal ones after 0x, below 2^64."""
    if re.fullmatch(r"[0-9]+", word.text):
        value = value_of(word.text)
    elif re.fullmatch(r"0[xX][0-9a-fA-F]+", word.text):
        value = int(word.text, 16)
    else:
        refuse(what, word, f"{name} `{word.text}` is not a number", suggestion(word.text, True))
    if value >= NUMBERS:
        refuse(what, word, f"{name} `{word.text}` is 2^64 or more")
    return value
