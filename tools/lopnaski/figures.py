"""Figures as bits and as decimals."""

import math
import re
import struct

DECIMAL = re.compile(r"[+-]?([0-9]+\.?[0-9]*|\.[0-9]+)([eE][+-]?[0-9]+)?\Z")
INFINITE = re.compile(r"[+-]?inf(inity)?\Z", re.IGNORECASE)
BITS = re.compile(r"0[xX][0-9A-Fa-f]{16}\Z")
NAN_BITS = 0x7FF8000000000000


def bits_of(figure):
    """The 64 bits of a figure as a whole number."""
    return struct.unpack("<Q", struct.pack("<d", figure))[0]


def of_bits(bits):
    """The figure that has these bits."""
    return struct.unpack("<d", struct.pack("<Q", bits))[0]


def shortest(figure):
    """The shortest decimal that is read back as `figure`: 138, not 138.0."""
    text = repr(figure)
    return text[:-2] if text.endswith(".0") else text


def text_of_bits(bits):
    """The shortest decimal with these bits; the bits themselves where no decimal says them (a NaN's payload)."""
    figure = of_bits(bits)
    if math.isnan(figure):
        return "NaN" if bits == NAN_BITS else "0x%016X" % bits
    return shortest(figure)


def bits_of_text(text):
    """The bits that a text says. ValueError, with a reason for a person, where it says none."""
    if BITS.match(text):
        return int(text, 16)
    if text.lower() == "nan":
        return NAN_BITS
    if INFINITE.match(text):
        return bits_of(float(text))
    if not DECIMAL.match(text):
        raise ValueError(reason(text))
    figure = float(text)
    if math.isinf(figure):
        raise ValueError("'%s' is too large: a figure is at most 1.7976931348623157e308" % text)
    return bits_of(figure)


def reason(text):
    """Why `text` is no decimal."""
    if not text:
        return "there is no number"
    if "," in text and DECIMAL.match(text.replace(",", ".", 1)):
        return "'%s' is no number: write a decimal point, not a comma" % text
    if DECIMAL.match(text.replace(",", "").replace(" ", "").replace("'", "")):
        return "'%s' is no number: write it without marks between the thousands" % text
    return "'%s' is no number" % text


def rounded(figure, places):
    """`figure` with so many decimals; a zero without a sign."""
    text = "%.*f" % (places, figure)
    return text[1:] if text.startswith("-") and not text.strip("-0.") else text
