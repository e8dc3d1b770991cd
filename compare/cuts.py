"""Asks the port's program of every cut of the messages, and holds what it tells to the whole message's length: compare/cuts runs this."""
import json
import struct
import subprocess
import sys

MODES = ("crate", "standard")
ROWS = 2048
# The words of a row.
ROW = 5
# What port.c puts before the rows: the answer, the position and the need, its marks, the book's fault.
REPLY = struct.Struct("<QQQBI")
SHOWN = 5


def ask(port, folder, book, cases):
    """The answers to (root, mode, message), each as number, position, need."""
    batch = b"\x01" + struct.pack("<I", len(book)) + book
    for root, mode, message in cases:
        batch += b"\x02" + struct.pack("<HBII", root, mode, ROWS * ROW, len(message)) + message
    path = folder + "/cuts.bin"
    with open(path, "wb") as f:
        f.write(batch)
    with open(path, "rb") as f:
        said = subprocess.run(port, stdin=f, stdout=subprocess.PIPE, check=True).stdout
    at, all_ = 0, []
    for _ in cases:
        word, position, need, marks, _ = REPLY.unpack_from(said, at)
        at += REPLY.size + (word >> 8) * ROW * 8
        all_.append((word & 255, position, need, marks))
    assert at == len(said), "the port's program said more than it was asked"
    return all_


def wrong(whole, cut, answer):
    """What is wrong with the answer to data cut at so many bytes, if anything."""
    number, position, need, marks = answer
    if marks != 3:
        return "the table or the prepared reading differs"
    if number != 1:
        return None if (position, need) == (0, 0) else "told of another number"
    if need == 0:
        return "a need of 0"
    return None if cut + need <= whole else "more needed than the whole message has"


def main():
    words = sys.argv[1:]
    split = words.index("--")
    folder, files, port = words[0], words[1:split], words[split + 1:]
    messages, cuts, short, differences = 0, 0, 0, 0
    for name in files:
        with open(name, encoding="utf-8") as f:
            lines = [json.loads(line) for line in f]
        for m in lines:
            book, message = bytes.fromhex(m["book"]), bytes.fromhex(m["message"])
            modes = [MODES.index(k) for k in m["modes"]]
            cases = [(m["root"], k, message[:4 + n]) for k in modes for n in range(len(message) - 3)]
            if not cases:
                continue
            answers = ask(port, folder, book, cases)
            for k in modes:
                own = [(c, a) for c, a in zip(cases, answers) if c[1] == k]
                # read to its end: whole it is read, and its last byte is asked for
                if own[-1][1][0] != 0 or len(own) > 1 and own[-2][1][0] == 0:
                    continue
                messages += 1
                for (root, mode, part), answer in own[:-1]:
                    cuts += 1
                    short += answer[0] == 1
                    why = wrong(len(message) - 4, len(part) - 4, answer)
                    if why:
                        differences += 1
                        if differences <= SHOWN:
                            print("DIFFERENCE: %s: %s\n  book %s\n  root %d\n  message %s\n  %s mode" % (why, answer, book.hex(), root, part.hex(), MODES[mode]))
    print("%d cuts have too few bytes" % short)
    print("%d messages in a mode, %d cuts: %d differences" % (messages, cuts, differences))
    return differences > 0


if __name__ == "__main__":
    sys.exit(main())
