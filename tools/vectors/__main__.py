"""Writes the stored cases of the program `vectors`: crates/vectors/data/cases, and the answers it must print, crates/vectors/stdout.

Run at the top of the repository: python3 tools/vectors. Every answer stands here as documents 01 and 02 give it (rows A1 to
A45 and those of document 02's requests, docs/DECISIONS.md); none is taken from a run of the program.
"""
import basis
import cases
import formulas
import gf256
import given
import listing
import order
import packing
import places
import reading
import real
import scaled
import sums
import terms
import untrimmed

for part in (reading, basis, sums, terms, formulas, order, listing, real, gf256, places, packing, scaled, untrimmed, given):
    part.cases()
cases.write()
