"""What the words of a tool's command line name: bytes by a file's name, by hex digits or by '-', and a type's number. A word that names nothing is told in one
sentence, with status 2."""
import os
import sys

# A book and a message have at most 65,536 bytes each; more than this is no mistake by a few bytes.
MOST = 1 << 20


def stop(me, why, status=2):
    print(f"{me}: {why} ({me} --help)", file=sys.stderr)
    sys.exit(status)


def read_whole(me, stream, what):
    data = stream.read(MOST + 1)
    if len(data) > MOST:
        stop(me, f"{what} has more than {MOST} bytes, and at most 65536 are read")
    return data


def shown(word):
    return word if len(word) < 60 else word[:57] + "..."


def bytes_of(me, word, what):
    """The bytes of a file, of standard input for '-', or of hex digits, with blanks between them."""
    if word == "-":
        return read_whole(me, sys.stdin.buffer, what)
    if os.path.isdir(word):
        stop(me, f"{what}: '{word}' is a folder")
    if os.path.exists(word):
        try:
            with open(word, "rb") as f:
                return read_whole(me, f, what)
        except OSError as e:
            stop(me, f"{what}: '{word}' cannot be read: {e.strerror}")
    digits = "".join(word.split())
    if digits.lower().startswith("0x"):
        stop(me, f"{what}: hex digits stand without 0x before them")
    if not digits or any(c not in "0123456789abcdefABCDEF" for c in digits):
        stop(me, f"{what}: '{shown(word)}' is no file that is there, and no hex digits")
    if len(digits) % 2:
        stop(me, f"{what}: {len(digits)} hex digits are no whole bytes")
    return bytes.fromhex(digits)


def number_of(me, word, what):
    """A type's number: 0 to 65,535, in decimal."""
    if not (word.isascii() and word.isdigit()):
        stop(me, f"{what} is a decimal number, and '{shown(word)}' is none")
    if int(word) > 65535:
        stop(me, f"{what} is at most 65535, and not {word}")
    return int(word)
