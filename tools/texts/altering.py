"""Texts that are altered at random."""
NUMBERS = [b"0", b"1", b"2", b"15", b"16", b"17", b"00", b"01", b"512", b"513", b"2147483647",
           b"2147483648", b"4294967295", b"4294967296", b"10000000", b"18446744073709551616"]
WORDS = [b";", b"#", b"end", b"script", b"stop", b"turns", b"evict", b"limit", b"callers",
         b"blocks", b"cell", b"onefile", b"plan", b"image", b"report", b"count", b"put", b"need",
         b"run", b"read", b"done", b"stopped", b"spent", b"none", b"abort", b"entry", b"caller",
         b"seq", b"register", b"key", b"queue", b"\t", b"x", b"-1", b"+1", b"", b" "]
BYTES = b" ;#0159ax\t\r\0\x1b\x7f\xff"


def with_word(rng, line):
    """The line with a word changed, left out, doubled or put in."""
    words = line.split(b" ")
    at, other = rng.randrange(len(words)), rng.choice(NUMBERS + WORDS)
    kind = rng.randrange(6)
    if kind == 0:
        del words[at]
    elif kind == 1:
        words.insert(at, words[at])
    elif kind == 2:
        words.insert(rng.randint(0, len(words)), other)
    elif kind == 3 and words[at].isdigit():
        words[at] = b"%d" % max(0, int(words[at]) + rng.choice([-2, -1, 1, 2]))
    else:
        words[at] = other
    return b" ".join(words)


def with_byte(rng, text):
    """The text with a byte changed, left out or put in."""
    at = rng.randrange(len(text) + 1)
    new = bytes([rng.choice(BYTES)]) if rng.random() < 0.8 else b""
    return text[:at] + new + text[at + rng.randrange(2) :]


def with_lines(rng, lines):
    """The lines with one left out, doubled, moved, exchanged or ended otherwise."""
    lines = lines[:]
    at, other = rng.randrange(len(lines)), rng.randrange(len(lines))
    kind = rng.randrange(7)
    if kind == 0:
        del lines[at]
    elif kind == 1:
        lines.insert(other, lines[at])
    elif kind == 2:
        lines.insert(other, lines.pop(at))
    elif kind == 3:
        lines[at], lines[other] = lines[other], lines[at]
    elif kind == 4:
        lines.insert(at, rng.choice([b"", b"# a\tb", b"  ", b"#\r", b";", b"\t"]))
    elif kind == 5:
        lines[at] += rng.choice([b"\r", b"\t", b" ", b" # x", b";", b" ; count"])
    else:
        lines[at] = rng.choice([b" ", b"  ", b"\xef\xbb\xbf", b"#", b"\t"]) + lines[at]
    return lines


def altered_once(rng, text):
    kind = rng.randrange(10)
    if kind == 0:
        return text[: rng.randint(0, len(text))]
    if kind <= 2:
        return with_byte(rng, text)
    lines = text.split(b"\n")
    if kind <= 5:
        return b"\n".join(with_lines(rng, lines))
    at = rng.randrange(len(lines))
    # Most mistakes of a heading are made in its few lines.
    at = min(at, rng.choice([at, at, at, 3]))
    lines[at] = with_word(rng, lines[at])
    return b"\n".join(lines)


def altered(rng, text):
    """The text altered up to three times, mostly once."""
    for _ in range(rng.choice([1, 1, 1, 2, 2, 3])):
        text = altered_once(rng, text)
    return text
