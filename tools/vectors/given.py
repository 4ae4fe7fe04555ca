"""Cases that came with request P2 of document 02, with their answers, worked out from documents 01 and 02 by an implementation that shares
nothing with this project.

given.json has their packages, and the cases: number, label, service, place of the package among those, formula, budget, room, the numbers
of the answer and the bytes written. Case 11 writes five million bytes; untrimmed.py has it under P1.7, with less room.
"""
import json
import os

from cases import ROOM, store


def cases():
    with open(os.path.join(os.path.dirname(__file__), "given.json")) as f:
        packages, given = json.load(f)
    for number, label, service, which, formula, budget, room, numbers, written in given:
        if service in "LS":
            numbers += [len(written), ROOM - len(written)]
        name = "P2 given %d: %s" % (number, label)
        store(service, name[:49], packages[which], "".join(" %d" % n for n in numbers) + "\n" + written, formula, budget, room)
