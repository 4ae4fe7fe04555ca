"""A stored case and its answer.

A case is a head line of 81 bytes (service letter, name, room lent, bytes of the package, bytes of the formula, budget), the package, the
formula, and one byte 10. Its answer is the first 51 bytes of the head line, the numbers of the service's answer, and the bytes written.
The services: L listing, C check, S short form, M membership, P the program overlap_list; W, no service, asks whether the package's bytes, a
word, stand in the formula's, another, at the place that the budget's field says; N, no service either, asks for the six numbers that the
package's bytes, a word, are packed into. Of an output slice of 65,536 bytes `~` the first `room` are lent; the last number of an answer of
L and S counts the bytes behind those written that were kept.
"""
ROOM = 65536
LARGEST = 4294967295
UNREADABLE = "x"
stored = []
answers = []


def store(service, name, package, printed, formula="", budget=0, room=0):
    package, formula = package.encode("latin-1"), formula.encode("latin-1")
    head = "%s %-49s %05d %05d %05d %010d\n" % (service, name, room, len(package), len(formula), budget)
    assert len(head) == 81, head
    stored.append(head.encode("ascii") + package + formula + b"\n")
    answers.append(head[:51] + printed)


def prints(name, package, answer):
    """What the program overlap_list prints."""
    store("P", name, package, " prints\n" + answer)


def stood(name, word, other, place, stands, compared):
    """Whether a word stands at a place of another, 1 or 0, and how many letters are compared."""
    shown = ["%d letters" % len(w) if len(w) > 8 else w or "-" for w in (word, other)]
    store("W", "%s: %s in %s at %d" % (name, *shown, place), word, " %d %d\n" % (stands, compared), other, place)


def packed(name, word, *numbers):
    """A word is packed into these numbers, and zeros behind them up to six."""
    shown = "%d letters" % len(word) if len(word) > 8 else word or "-"
    six = [*numbers, *[0] * (6 - len(numbers))]
    store("N", "%s: %s" % (name, shown), word, " 1 %d %d %d %d %d %d\n" % (*six,))


def unpacked(name, word):
    """Bytes that are no word of at most 72 letters are not packed."""
    store("N", name, word, " 0 0 0 0 0 0 0\n")


def listed(name, package, answer, room=ROOM):
    """Listing answers with the list; the bytes behind it are kept."""
    count = answer.count("\n") - 1
    store("L", name, package, " 0 0 %d %d %d\n" % (count, len(answer), ROOM - len(answer)) + answer, room=room)


def accepted(name, package, overlaps):
    """The check accepts and answers with the overlap count."""
    store("C", name, package, " 0 0 %d\n" % overlaps)


def refused(name, package, number, place, services="CSM", formula=UNREADABLE, budget=0, room=ROOM):
    """Each of the services refuses: counts 0, membership no, and no byte of the output slice changes. Where nothing else is said, the
    formula does not read, so a refusal of the package comes before 16."""
    counts = {"C": "0", "L": "0 0 %d" % ROOM, "S": "0 0 %d" % ROOM, "M": "0 0"}
    for service in services:
        printed = " %d %d %s\n" % (number, place, counts[service])
        given = (formula, budget) if service in "SM" else ("", 0)
        store(service, name, package, printed, *given, room=room if service in "LS" else 0)


def unread(name, package, number, place, services="LCSM"):
    """Refusals 1 to 8, which listing judges too."""
    refused(name, package, number, place, services)


def halted(name, package, formula, number, place, budget=LARGEST, room=ROOM):
    """16, 17 and 18, the refusals of both formula services."""
    refused(name, package, number, place, "SM", formula, budget, room)


def shortened(name, package, formula, steps, form, budget=None, room=None, services="SM"):
    """The short form and membership of a formula. Where nothing else is said, the budget is the number of steps and the room the bytes of
    the short form: just enough."""
    budget = steps if budget is None else budget
    room = len(form) if room is None else room
    yes = form.count("\n") == 1
    if "S" in services:
        store("S", name, package, " 0 0 %d %d %d\n" % (steps, len(form), ROOM - len(form)) + form, formula, budget, room)
    if "M" in services:
        store("M", name, package, " 0 0 %d %d\n" % (steps, yes), formula, budget)


def both_sides(name, package, formula, steps, form):
    """A formula with just enough of the budget and of the room, with one step less (18), and with one byte less (19); membership lends no
    room and gives no 19."""
    shortened(name, package, formula, steps, form)
    if steps > 0:
        halted(name + ", a step less", package, formula, 18, steps - 1, steps - 1)
    refused(name + ", a byte less", package, 19, len(form), "S", formula, steps, len(form) - 1)


def write():
    with open("crates/vectors/data/cases", "wb") as f:
        f.write(b"".join(stored))
    with open("crates/vectors/stdout", "w") as f:
        f.write("".join(answers) + "end\n")
    print(len(stored), "cases:", ", ".join("%d %s" % (sum(c[:1] == s for c in stored), s.decode()) for s in (b"L", b"C", b"S", b"M", b"P", b"W", b"N")))
