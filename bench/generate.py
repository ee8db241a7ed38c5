#!/usr/bin/env python3
"""Makes sessions for the settlement book, on standard output; the same arguments always make the same bytes.

    bench/generate.py SEED good               a plausible session of some years
    bench/generate.py SEED limits             the same, with sums near every limit
    bench/generate.py SEED thirty [--assets N]    thirty years, 360 closes, close to 65,536 bytes (N: 1 to 64)
    bench/generate.py SEED damaged            good lines mixed with damaged ones
    bench/generate.py SEED single [--line LINE]   the byte at place SEED of LINE (from 0) changed to every other byte,
                                              left out, and every byte put before it, each as a line
"""

import argparse
import random
import re
import sys

LONGEST_INPUT = 65_536
LONGEST_LINE = 300
LONGEST_ENTRY = 64  # of those made here, byte 10 counted
MOST_ASSETS = 64
CLASSES = (b"delivery", b"availability")
FORMS = (b"list", b"term", b"over", b"under", b"uplift", b"payin", b"ready", b"close")
WORDS = FORMS + CLASSES + (b"asset", b"holder", b"award", b"kw", b"class", b"cents", b"resolve", b"row", b"a",
                           b"availabilities", b"abcdefghijkl", b"abcdefghijklm")
NUMBERS = (b"0", b"1", b"2", b"-1", b"7", b"999", b"1000", b"9999", b"10000", b"1000000", b"1000001", b"1000000000",
           b"1000000001", b"-1000000000", b"-1000000001", b"2000000000", b"999999999999999", b"-999999999999999",
           b"1000000000000000", b"-1000000000000000", b"01", b"-0", b"00", b"-", b"--1", b"1-", b"1a", b"a1", b"a-b")
EDGE_BYTES = bytes(range(0x20, 0x30)) + b"\0\t\n\r09:;@AZ[`az{|~\x7f\x80\xc3\xff"
TOKEN = re.compile(rb"[()]|[a-z0-9-]+")

# A line of each form, for changes of single bytes.
LINES = (
    b"(list (asset 8) (holder 12))",
    b"(term (asset 8) (award -1000) (kw 500) (ready 0))",
    b"(over (class delivery) (asset 7) (cents 120))",
    b"(under (class availability) (asset 7) (cents 1000000000))",
    b"(uplift (asset 7) (cents 99))",
    b"(payin (asset 7) (cents 10))",
    b"(ready (asset 8))",
    b"(close)",
)


def form(word, *fields):
    """The bytes of a form, spelled as the rows are: one blank between fields."""
    parts = [b"(" + word]
    parts += [b"(" + name + b" " + (value if isinstance(value, bytes) else b"%d" % value) + b")"
              for name, value in fields]
    return b" ".join(parts) + b")"


def respelled(rng, line):
    """The same tokens with other blanks between them, kept to the longest line."""
    out = b" " * rng.choice((0, 0, 1, 5))
    last = b"("
    for token in TOKEN.findall(line):
        runs = last not in b"()" and token not in b"()"
        out += b" " * (rng.choice((1, 1, 2, 4)) if runs else rng.choice((0, 0, 0, 1, 3))) + token
        last = token
    out += b" " * rng.choice((0, 0, 2))
    return out if len(out) <= LONGEST_LINE else line


class Asset:
    """What the generator remembers of an asset: roughly what it carries, so that most payins are taken."""

    def __init__(self, number, unders):
        self.number = number
        self.unders = unders  # how many of its adjustments are unders, from 0 to 1
        self.award = 0
        self.year = -1
        self.committed = False
        self.marked = False
        self.carried = 0


class Market:
    """Plausible entries, one after the other, on a calendar of closes."""

    def __init__(self, rng, assets, scale):
        self.rng = rng
        self.scale = scale
        self.closes = 0
        self.assets = []
        self.to_list = rng.sample(range(1, 10_000), assets)

    def list(self):
        asset = Asset(self.to_list.pop(), self.rng.uniform(0.3, 0.9))
        self.assets.append(asset)
        return form(b"list", (b"asset", asset.number), (b"holder", self.rng.randint(1, 999)))

    def sum(self, most):
        """A sum of 1 to most cents, small ones as likely as large ones."""
        rng = self.rng
        most = max(1, min(most, 1_000_000_000))
        return rng.choice((rng.randint(1, most), rng.randint(1, max(1, most // 20)), most))

    def term(self, asset):
        rng = self.rng
        last = asset.award if asset.award > 0 else self.scale
        award = rng.choice((
            rng.randint(0, self.scale), rng.randint(self.scale // 2, self.scale), self.scale, last, last * 2 // 3,
            last // 3))
        if rng.random() < 0.08:
            award = rng.choice((0, -rng.randint(0, self.scale // 4), -self.scale))
        kw = 0 if rng.random() < 0.04 else rng.choice((1, 1_000_000, rng.randint(1, 5000), rng.randint(1, 5000)))
        ready = rng.choice((0, 1, 1, 1))
        asset.award, asset.committed, asset.year = award, kw > 0, self.closes // 12
        asset.marked = asset.marked or ready == 1
        return form(b"term", (b"asset", asset.number), (b"award", award), (b"kw", kw), (b"ready", ready))

    def adjustment(self, asset):
        rng = self.rng
        month_12 = self.closes % 12 == 11
        kind = rng.choice(CLASSES) if month_12 or rng.random() < 0.03 else CLASSES[0]
        under = rng.random() < asset.unders
        cents = self.sum(2 * self.scale)
        asset.carried += -cents if under else cents
        word = b"under" if under else b"over"
        return form(word, (b"class", kind), (b"asset", asset.number), (b"cents", cents))

    def payin(self, asset):
        cents = self.sum(-asset.carried if asset.carried < 0 else self.scale // 10)
        asset.carried += cents
        return form(b"payin", (b"asset", asset.number), (b"cents", cents))

    def entry(self):
        """Some entry of the month, mostly one that is taken."""
        rng = self.rng
        committed = [asset for asset in self.assets if asset.committed]
        asset = rng.choice(committed if committed and rng.random() < 0.97 else self.assets)
        waiting = [asset for asset in self.assets if not asset.marked]
        owing = [asset for asset in self.assets if asset.carried < 0]
        if waiting and rng.random() < 0.1:
            asset = rng.choice(waiting)
            asset.marked = True
            return form(b"ready", (b"asset", asset.number))
        if owing and rng.random() < 0.1:
            return self.payin(rng.choice(owing))
        if rng.random() < 0.01:
            return rng.choice((self.payin(asset), form(b"ready", (b"asset", asset.number))))
        if rng.random() < 0.15:
            return form(b"uplift", (b"asset", asset.number), (b"cents", self.sum(self.scale)))
        return self.adjustment(asset)

    def close(self):
        for asset in self.assets:
            if asset.carried < 0 and asset.year == self.closes // 12:
                asset.carried = 0 if asset.award < 0 else min(0, asset.carried + asset.award)
            if self.closes % 12 == 11:
                asset.committed = False
        self.closes += 1
        return form(b"close")

    def month(self, entries):
        """The lines of a month: listings, terms where it is the first of a year, entries, the close."""
        rng = self.rng
        lines = []
        while self.to_list and (not self.assets or rng.random() < 0.6):
            lines.append(self.list())
        if self.closes % 12 == 0:
            for asset in self.assets:
                if rng.random() < 0.9:
                    lines.append(self.term(asset))
                    if rng.random() < 0.02:
                        lines.append(self.term(asset))
        lines += [self.entry() for _ in range(rng.randint(0, entries))]
        return lines + [self.close()]


def joined(lines, most=LONGEST_INPUT):
    """As many of the lines as fit."""
    out = b""
    for line in lines:
        if len(out) + len(line) + 1 > most:
            break
        out += line + b"\n"
    return out


def plausible(rng, scales, most):
    market = Market(rng, rng.choice((1, 2, 3, 4, 6, 10, 20, 40, 63, 64)), rng.choice(scales))
    entries = rng.choice((2, 6, 15, 60))
    lines = []
    size = 0
    while size <= most and market.closes < 365:
        month = market.month(entries)
        if rng.random() < 0.2:
            month = [respelled(rng, line) for line in month]
        lines += month
        size += sum(len(line) + 1 for line in month)
    out = joined(lines, most)
    return out[:-1] if rng.random() < 0.2 else out


def good(rng):
    return plausible(rng, (10, 1_000, 100_000, 5_000_000), rng.choice((2_000, 8_000, 30_000, LONGEST_INPUT)))


def limits(rng):
    return plausible(rng, (300_000_000, 900_000_000, 1_000_000_000), rng.choice((4_000, 16_000, LONGEST_INPUT)))


def thirty(rng, assets):
    market = Market(rng, assets, 200_000)
    out = b"".join(market.list() + b"\n" for _ in range(assets))
    close = len(form(b"close")) + 1
    begin = len(out)
    for year in range(30):
        # Bytes are given out evenly over the years, and behind the terms, for which half may go, over the months.
        until = begin + (LONGEST_INPUT - begin) * (year + 1) // 30
        terms_until = len(out) + (until - len(out) - 12 * close) // 2
        for asset in rng.sample(market.assets, assets):
            if len(out) + LONGEST_ENTRY <= terms_until:
                out += market.term(asset) + b"\n"
        terms_end = len(out)
        for month in range(12):
            month_until = terms_end + (until - terms_end) * (month + 1) // 12
            while len(out) + LONGEST_ENTRY + close <= month_until:
                out += market.entry() + b"\n"
            out += market.close() + b"\n"
    return out


def damaged_line(rng, line):
    tokens = TOKEN.findall(line)
    at = rng.randrange(len(line)) if line else 0
    place = rng.randrange(len(tokens)) if tokens else 0
    numbers = [match.span() for match in re.finditer(rb"-?[0-9]+", line)]
    words = [match.span() for match in re.finditer(rb"[a-z]+", line)]

    def swapped(spans, others):
        if not spans:
            return line
        begin, end = rng.choice(spans)
        return line[:begin] + rng.choice(others) + line[end:]

    def retold(tokens):
        return respelled(rng, b" ".join(tokens))

    anything = bytes((rng.randrange(256),))
    edge = bytes((rng.choice(EDGE_BYTES),))
    ways = (
        lambda: line[:at] + anything + line[at + 1:],
        lambda: line[:at] + edge + line[at + 1:],
        lambda: line[:at] + line[at + 1:],
        lambda: line[:at] + edge + line[at:],
        lambda: line[:at],
        lambda: line[at:],
        lambda: swapped(numbers, NUMBERS),
        lambda: swapped(numbers, NUMBERS),
        lambda: swapped(numbers, WORDS),
        lambda: swapped(words, WORDS),
        lambda: swapped(words, WORDS),
        lambda: swapped(words, NUMBERS),
        lambda: retold(tokens[:place] + tokens[place + 1:]),
        lambda: retold(tokens[:place] + tokens[place:place + 1] + tokens[place:]),
        lambda: retold(tokens + [rng.choice((b"(", b")", b"close", b"7", b"(close)"))]),
        lambda: retold(rng.sample(tokens, len(tokens))),
        lambda: retold([rng.choice((b"(", b")") + WORDS + NUMBERS) for _ in range(rng.randint(0, 12))]),
        lambda: line + b" " * rng.choice((0, 1, 298 - len(line), 299 - len(line), 300 - len(line), 301 - len(line), 900)),
        lambda: b" " * rng.choice((0, 1, 2, 299, 300, 301)),
        lambda: line + b"\r",
        lambda: line.replace(b" ", b"\t"),
        lambda: line.upper(),
        lambda: bytes(rng.randrange(256) for _ in range(rng.randint(0, 40))),
        lambda: bytes(rng.choice(b"() az09-") for _ in range(rng.randint(0, 40))),
        lambda: damaged_line(rng, damaged_line(rng, line)),
    )
    return rng.choice(ways)()


def damaged(rng):
    share = rng.choice((0.1, 0.5, 0.9))
    lines = good(rng)[:20_000].split(b"\n")
    # Listings, terms and closes are spared more often, or most other lines would be refused for want of them.
    spared = (b"(l", b"(t", b"(c")
    out = joined(damaged_line(rng, line) if rng.random() < (share / 8 if line[:2] in spared else share) else line
                 for line in lines)
    return out[:-1] if rng.random() < 0.3 else out


def single(place, line):
    """Asset 7 has a term and owes 100 cents; then every change of one byte at the place."""
    if not 0 <= place <= len(line):
        sys.exit(f"SEED names a place in the line, 0 to {len(line)}")
    lines = [form(b"list", (b"asset", 7), (b"holder", 1)),
             form(b"term", (b"asset", 7), (b"award", 1000), (b"kw", 500), (b"ready", 1)),
             form(b"under", (b"class", CLASSES[0]), (b"asset", 7), (b"cents", 100)),
             line]
    every = [bytes((byte,)) for byte in range(256)]
    if place < len(line):
        lines += [line[:place] + byte + line[place + 1:] for byte in every if byte != line[place:place + 1]]
        lines += [line[:place] + line[place + 1:]]
    lines += [line[:place] + byte + line[place:] for byte in every]
    return joined(lines)


def session(seed, kind, assets=16, line=LINES[2]):
    rng = random.Random(f"{kind} {seed} {assets}")
    if kind == "good":
        return good(rng)
    if kind == "limits":
        return limits(rng)
    if kind == "thirty":
        return thirty(rng, assets)
    if kind == "damaged":
        return damaged(rng)
    return single(seed, line)


def main():
    parser = argparse.ArgumentParser(description=__doc__, formatter_class=argparse.RawDescriptionHelpFormatter)
    parser.add_argument("seed", type=int)
    parser.add_argument("kind", choices=("good", "limits", "thirty", "damaged", "single"))
    parser.add_argument("--assets", type=int, default=16, choices=range(1, MOST_ASSETS + 1), metavar="N")
    parser.add_argument("--line", type=lambda text: text.encode(), default=LINES[2])
    asked = parser.parse_args()
    sys.stdout.buffer.write(session(asked.seed, asked.kind, asked.assets, asked.line))


if __name__ == "__main__":
    main()
