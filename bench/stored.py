#!/usr/bin/env python3
"""Writes the stored sessions that are too long to type: full-book, all-closed, too-far-below.

    bench/stored.py FOLDER        (examples, from the top of the repository)

Session and transcript are written side by side. No book is worked here: every line of a transcript is one that the
rules give by the argument in the comment above it.
"""

import pathlib
import sys


def row(asset, award, taken, share, paid, carried):
    return (f"(row (asset {asset}) (award {award}) (taken {taken}) (share {share}) (paid {paid})"
            f" (carried {carried}))")


def closed(period, delivery=0, availability=0):
    return f"(closed (period {period}) (delivery {delivery}) (availability {availability}))"


def refused(line, number):
    return f"(refused (line {line}) (byte 1) (layer book) (number {number}))"


def full_book():
    """Sixty-four assets are listed. The next is refused by 7, but one that is listed by 6, which is tested first.

    Asset 64 has a term of 1000 cents and is paid them; the others have none and are paid nothing. Asset 65 is not
    listed, so its term is refused by 8.
    """
    lines = [f"(list (asset {asset}) (holder {asset}))" for asset in range(1, 65)]
    lines += ["(list (asset 65) (holder 65))", "(list (asset 64) (holder 64))"]
    lines += ["(term (asset 64) (award 1000) (kw 500) (ready 1))", "(term (asset 65) (award 1000) (kw 500) (ready 1))"]
    lines += ["(close)", "(list (asset 9999) (holder 999))"]
    printed = [refused(65, 7), refused(66, 6), refused(68, 8)]
    printed += [row(asset, 0, 0, 0, 0, 0) for asset in range(1, 64)]
    printed += [row(64, 1000, 0, 0, 1000, 0), closed(1), refused(70, 7)]
    return lines, printed


def all_closed():
    """After 360 closes a close is refused by 5, and everything else goes on, in month 1 of year 31.

    Asset 7 has a term of 10 cents in year 1, paid at each of its twelve closes, and no term in the 29 years behind it.
    Before the term of year 31 no commitment is in force, so a charge is refused by 11. That term is taken: a second one
    is refused by 10, and the charge is taken now. It is owed, so 31 cannot be paid in (14) and 30 can, after which
    nothing is owed (14). Availability would need month 12 (9).
    """
    lines = ["(list (asset 7) (holder 1))", "(term (asset 7) (award 10) (kw 5) (ready 1))"] + ["(close)"] * 360
    printed = []
    for period in range(1, 361):
        award = 10 if period <= 12 else 0
        printed += [row(7, award, 0, 0, award, 0), closed(period)]
    behind = [
        ("(close)", 5),
        ("(under (class delivery) (asset 7) (cents 30))", 11),
        ("(term (asset 7) (award 10) (kw 5) (ready 1))", None),
        ("(term (asset 7) (award 10) (kw 5) (ready 1))", 10),
        ("(under (class delivery) (asset 7) (cents 30))", None),
        ("(under (class availability) (asset 7) (cents 30))", 9),
        ("(payin (asset 7) (cents 31))", 14),
        ("(payin (asset 7) (cents 30))", None),
        ("(payin (asset 7) (cents 1))", 14),
        ("(list (asset 8) (holder 1))", None),
        ("(ready (asset 8))", None),
        ("(ready (asset 8))", 15),
        ("(close)", 5),
    ]
    for line, number in behind:
        lines.append(line)
        if number:
            printed.append(refused(len(lines), number))
    return lines, printed


def too_far_below():
    """A term is refused by 12 where more than 2,000,000,000 cents are owed, and taken where exactly that much is.

    Asset 7 has a term of 1 cent, paid in months 1 to 11. In month 12 it is charged 2,000,000,000 for delivery and 2 for
    availability; the cent of that month goes to the delivery charge, and as nobody claims it is residue. So
    1,999,999,999 + 2 are owed, one too many for a term. The cent paid in lowers the delivery charge and joins the
    pool. Then the award falls from 1 to 0, so the invoice is all that is owed, 2,000,000,000. It clears both charges,
    1,999,999,998 and 2, and at the close both pools are residue: 1,999,999,998 + 1 and 2.
    """
    lines = ["(list (asset 7) (holder 1))", "(term (asset 7) (award 1) (kw 1) (ready 1))"] + ["(close)"] * 11
    printed = []
    for period in range(1, 12):
        printed += [row(7, 1, 0, 0, 1, 0), closed(period)]
    lines += ["(under (class delivery) (asset 7) (cents 1000000000))"] * 2
    lines += ["(under (class availability) (asset 7) (cents 2))", "(close)"]
    printed += [row(7, 1, 1, 0, 0, -2000000001), closed(12, delivery=1)]
    lines += ["(term (asset 7) (award 0) (kw 0) (ready 0))"]
    printed += [refused(len(lines), 12)]
    lines += ["(payin (asset 7) (cents 1))", "(term (asset 7) (award 0) (kw 0) (ready 0))", "(close)"]
    printed += ["(invoice (asset 7) (cents 2000000000))"]
    printed += [row(7, 0, 0, 0, 0, 0), closed(13, delivery=1999999999, availability=2)]
    return lines, printed


STORED = {"full-book": full_book, "all-closed": all_closed, "too-far-below": too_far_below}

if __name__ == "__main__":
    if len(sys.argv) != 2:
        sys.exit(__doc__)
    folder = pathlib.Path(sys.argv[1])
    for name, work in STORED.items():
        lines, printed = work()
        (folder / f"{name}.txt").write_text("".join(f"{line}\n" for line in lines))
        (folder / f"{name}.expected").write_text("".join(f"{line}\n" for line in printed))
