#!/usr/bin/env python3
"""Makes the known queries of 01 (K1 to K12), some on which path is chosen, some with fixed numbers, one that grows, and a few at 01's bounds, with what
the three programs print.

  tests/known.py           write tests/known/, examples/, and what the programs' crates are run on
  tests/known.py --check   exit 1 where what stands there is something else

The verdict lines are typed from 01; those of the other queries follow from how they are made, as is said beside them. The
clauses are made from the literals by 01's rule, written once more here. Nothing comes from a program that checks queries.

  NAME.hex          the query
  NAME.verdict      what the verdict program prints
  NAME.clauses      what the clause program prints
  NAME.lookup-A-I   what the lookup program prints for array A and index I

In examples/ the queries stand as bytes, NAME.query, and its README has a line on each.
"""
import os
import sys

import fields
from fields import base, boolean, conditional, equality, fixed, variable

HERE = os.path.dirname(os.path.abspath(__file__))
KNOWN = os.path.join(HERE, "known")
CRATES = os.path.join(HERE, "..", "crates")
EXAMPLES = os.path.join(HERE, "..", "examples")


def write(value, index, beneath):
    """In the order of 01's words: A2 writes b3 at b0 over A0."""
    return fields.write(beneath, index, value)


def read(value, array, index):
    return fields.read(array, index, value)


def clauses(fields, literals):
    """01, The clauses: what the clause program prints for a lemma."""
    bases = sum(one[0] in (1, 6, 8) for one in fields)
    booleans = sum(one[0] in (2, 7) for one in fields)

    def bit(term, k):
        return 32 * term + k + 1

    lines, links = [], []
    fresh = 32 * bases + booleans
    first = literals[0].split()
    if first[0] == "eq":
        i, j = int(first[1]), int(first[2])
        for k in range(32):
            fresh += 1
            lines += [[bit(i, k), bit(j, k), -fresh], [-bit(i, k), -bit(j, k), -fresh]]
            links.append(fresh)
    for literal in literals:
        word, *terms = literal.split()
        if word in ("ne", "then"):
            v, w = map(int, terms)
            fresh += 1
            for k in range(32):
                lines += [[-bit(v, k), bit(w, k), -fresh], [bit(v, k), -bit(w, k), -fresh]]
            links.append(fresh)
    signs = {"true": -1, "false": 1}
    chosen = [literal.split() for literal in literals if literal.split()[0] in signs]
    lines.append([signs[word] * (32 * bases + int(m) + 1) for word, m in chosen] + links)
    head = [f"p cnf {fresh} {len(lines)}"]
    return head + [" ".join(map(str, line + [0])) for line in lines]


made = {}


def text(lines):
    return "".join(line + "\n" for line in lines).encode()


def known(name, fields, verdict, head=None, lookups=()):
    """A query, its verdict lines, the clause program's first line where 01 fixes it, and lookups (array, index, what is printed)."""
    made[f"{name}.hex"] = text([b"".join(fields).hex()])
    made[f"{name}.verdict"] = text(verdict)
    word = verdict[0].split()[0]
    if word == "conflict":
        printed = clauses(fields, verdict[1:])
        assert head is None or printed[0] == head, (name, printed[0])
    else:
        printed = ["refused 12 0"] if word == "consistent" else verdict
    made[f"{name}.clauses"] = text(printed)
    for array, index, line in lookups:
        made[f"{name}.lookup-{array}-{index}"] = text([line])


# --- the known queries, as 01 has them
def k1(first=7, second=9, indices=(base, base)):
    return [indices[0](5), indices[1](5), variable(), read(first, 0, 0), read(second, 0, 1)]


known("K1", k1(), ["conflict 2", "eq 0 1", "then 2 3"], "p cnf 161 129", [(0, 5, "refused 12 0"), (1, 5, "refused 12 0")])
assert b"".join(k1()).hex() == "010004000000050100040000000503000006000800000000000000070600080000000100000009"
known("K2", k1(7, 7), ["consistent 2", "0 5 7"], None, [(0, 5, "7"), (0, 6, "0"), (0, 4294967295, "0"), (1, 5, "refused 11 0")])
known("K3", [base(5), variable(), read(7, 0, 0), read(9, 0, 0)], ["conflict 2", "then 1 2"], "p cnf 97 65")


def k4(second, index=base):
    return [index(1), index(second), base(30), variable(), write(2, 1, 0), read(8, 1, 0), read(9, 0, 0)]


known("K4", k4(2), ["conflict 5", "ne 0 1", "then 3 4"])
known("K5", k4(1), ["conflict 3", "eq 1 0", "then 2 3"])


def k6(truth, last, number=base):
    fields = [number(value) for value in (3, 4, 5, 10, 11, 6)]
    fields += [variable(), variable(), write(3, 0, 0), write(4, 1, 1)]
    fields += [read(20, 0, 2), read(21, 1, 2), read(0, 2, 5), read(last, 3, 5)]
    return fields + [equality(2, 3, truth, 8, 9)]


K6_LINES = ["conflict 22", "ne 2 0", "true 0", "ne 2 1", "then 6 7"]
K8_CELLS = ["0 5 20", "0 6 0", "1 5 21", "1 6 1", "2 3 10", "2 5 20", "2 6 0", "3 4 11", "3 5 21", "3 6 1"]
K8_LOOKUPS = [tuple(cell.split()) for cell in K8_CELLS] + [(3, 7, "0"), (4, 7, "refused 11 0"), (0, 3, "0"), (47, 0, "refused 11 0"), (4294967295, 0, "refused 11 0")]
known("K6", k6(1, 0), K6_LINES, "p cnf 324 193", [(0, 5, "refused 12 0")])
known("K7", k6(0, 0), ["refused 9 110"], None, [(0, 5, "refused 9 110")])
known("K8", k6(0, 1), ["consistent 10"] + K8_CELLS, None, K8_LOOKUPS)
K9 = [boolean(0), base(1), variable(), variable(), conditional(0, 0, 1), read(4, 2, 0), read(5, 1, 0), read(6, 0, 0)]
known("K9", K9, ["conflict 5", "false 0", "then 1 2"])
known("K10-empty", [], ["consistent 0"], None, [(0, 0, "refused 11 0")])
known("K10-48", [variable()] * 48, ["consistent 0"], None, [(47, 0, "0"), (48, 0, "refused 11 0")])
known("K10-49", [variable()] * 49, ["refused 5 144"], None, [(0, 0, "refused 5 144")])
known("K11-tag", [bytes.fromhex("090000")], ["refused 3 0"], None, [(0, 0, "refused 3 0")])
known("K11-cut", [bytes.fromhex("0100040000")], ["refused 2 0"], None, [(0, 0, "refused 2 0")])
known("K11-length", [bytes.fromhex("030005")], ["refused 4 0"], None, [(0, 0, "refused 4 0")])
K12 = [base(0), base(4294967295), variable(), read(1, 0, 0), read(2, 0, 1)]
known("K12", K12, ["consistent 2", "0 0 1", "0 4294967295 2"], None, [(0, 0, "1"), (0, 4294967295, "2"), (0, 4294967294, "0")])

# --- every kind of literal in one lemma. The write reaches A1, A2 and A3, each of the reads all four arrays: 3 + 8 pairs.
def mixed(number=base):
    fields = [number(1), number(1), base(2), boolean(1), boolean(0), variable(), write(2, 2, 0)]
    return fields + [conditional(0, 1, 0), conditional(1, 0, 2), read(5, 0, 0), read(6, 3, 1)]


known("mixed", mixed(), ["conflict 11", "eq 0 1", "ne 0 2", "true 0", "false 1", "then 3 4"])

# --- which path (02, E6): the fewest write edges, and among those the fewest edges; at each step the lowest-numbered edge on such a path.
# All reads in these are at b0, which is 1, and no write is. So where nothing else is said every source reaches every array, a write those
# on the other side of its own edge by the equalities.

# A write and, between the same arrays, an equality of a higher number: 3 sources and 2 arrays.
BESIDE = [base(1), base(2), base(30), variable(), write(2, 1, 0), read(8, 1, 0), read(9, 0, 0), equality(1, 0, 1, 3, 4)]
known("beside-a-write", BESIDE, ["conflict 6", "true 0", "then 3 4"], "p cnf 162 65")

# Two equalities around a write: 4 sources and 3 arrays. The lemma has 17 bytes; that of the write would have 14.
def around(index=base):
    fields = [index(1), index(2), base(30), variable(), variable(), write(2, 1, 0), read(8, 2, 0), read(9, 0, 0), read(8, 1, 0)]
    return fields + [equality(2, 1, 1, 3, 5), equality(1, 0, 1, 5, 4)]


AROUND_LINES = ["conflict 12", "true 0", "true 1", "then 3 4"]
known("around-a-write", around(), AROUND_LINES, "p cnf 195 65")

# A conditional and an equality around a write: 4 sources and 3 arrays.
CHOSEN = [boolean(1), base(1), base(2), base(30), variable(), write(2, 1, 0), conditional(0, 1, 0)]
CHOSEN += [read(8, 1, 0), read(9, 0, 0), read(8, 2, 0), equality(2, 0, 1, 5, 4)]
known("conditional-around", CHOSEN, ["conflict 12", "true 0", "true 1", "then 3 4"])

# One write on either way, and on that of the lower number an equality more: 5 sources and 3 arrays.
EACH = [base(1), base(2), base(3), base(30), variable(), write(3, 1, 0), write(3, 2, 0)]
EACH += [read(8, 0, 0), read(9, 2, 0), read(9, 1, 0), equality(2, 1, 1, 5, 6)]
known("one-write-each", EACH, ["conflict 15", "ne 0 2", "then 4 5"])

# Two equalities between the same arrays: 2 sources and 2 arrays.
PARALLEL = [base(1), variable(), variable(), read(8, 0, 0), read(9, 1, 0), equality(0, 1, 1, 1, 2), equality(1, 0, 1, 2, 1)]
known("parallel", PARALLEL, ["conflict 4", "true 0", "then 1 2"])

# Two arrays, a write over each, and equalities of the two and of their writes: a write and then an equality, or an equality and then a
# write. The numbers decide at the first step: 6 sources and 4 arrays. With an array more, before them, at the second: 7 sources and 5.
SQUARE = [base(1), base(2), base(3), base(30), variable(), variable(), write(3, 1, 0), write(3, 2, 1)]
FIRST = SQUARE + [read(8, 0, 0), read(9, 3, 0), read(8, 1, 0), read(9, 2, 0), equality(0, 1, 1, 4, 6), equality(2, 3, 1, 7, 5)]
known("square-first", FIRST, ["conflict 24", "ne 0 1", "true 1", "then 4 5"])
SECOND = SQUARE + [variable(), read(8, 4, 0), read(9, 3, 0), read(8, 1, 0), read(9, 2, 0), read(8, 0, 0)]
SECOND += [equality(0, 1, 1, 8, 6), equality(2, 3, 1, 7, 5), equality(4, 0, 1, 4, 8)]
known("square-second", SECOND, ["conflict 35", "true 2", "ne 0 1", "true 1", "then 4 5"])

# Two writes at one index, which would leave one literal, and around them one write and two equalities: the edges count, not the literals.
# The first of the two writes reaches its own array alone, the second all but that one, the third and the four reads all 5: 1 + 4 + 25.
TWICE = [base(1), base(2), base(3), variable(), variable(), write(1, 1, 0), write(1, 1, 2), write(1, 2, 0)]
TWICE += [read(8, 0, 0), read(9, 3, 0), read(8, 4, 0), read(9, 1, 0), equality(4, 1, 1, 5, 6), equality(1, 3, 1, 6, 4)]
known("written-twice", TWICE, ["conflict 30", "ne 0 2", "true 0", "true 1", "then 3 4"])

# As many equalities around one write as there may be: 47, from A0 over 46 variables to the write. A read of each array and one more of the
# write at b1, also 1: 50 sources and 48 arrays.
DETOUR = [base(1), base(1), base(2)] + [variable()] * 47 + [write(2, 2, 0)] + [read(7, array, 0) for array in range(48)]
DETOUR += [equality(n, n + 1, 1, 3 + n, 4 + n) for n in range(47)] + [read(8, 47, 1)]
DETOUR_LINES = ["conflict 2400", "eq 0 1"] + [f"true {n}" for n in range(47)] + ["then 3 51"]
known("longest-detour", DETOUR, DETOUR_LINES, "p cnf 1744 129")

# --- at the bounds. A chain of 48 arrays: 47 writes at indices 100 to 146, and a read at index 1 of each end. Each read reaches all 48
# arrays; a write reaches those from itself upward, as its own edge is closed to it. The lemma has 49 literals, the clauses 12,625 numbers.
def chain(first=base, others=base):
    fields = [first(1), others(1)] + [others(100 + n) for n in range(47)] + [variable()]
    return fields + [write(2 + n, 2 + n, n) for n in range(47)] + [read(5, 0, 0), read(6, 47, 1)]


CHAIN_PAIRS = 2 * 48 + sum(range(1, 48))
CHAIN_LINES = [f"conflict {CHAIN_PAIRS}", "eq 0 1"] + [f"ne 0 {2 + n}" for n in range(47)] + ["then 49 50"]
known("longest", chain(), CHAIN_LINES, "p cnf 1712 3137")
assert len(CHAIN_LINES) == 1 + 49 and sum(len(line.split()) for line in clauses(chain(), CHAIN_LINES[1:])[1:]) == 12625


# Every source reaches every array: 47 writes and 255 reads at one index, the arrays joined by true equalities, so 48 times 302 pairs.
def all_pairs(last):
    fields = [base(1), variable(), read(7, 0, 0)]
    for array in range(1, 48):
        fields += [write(1, 0, array - 1), read(7, array, 0), equality(array - 1, array, 1, array, array + 1)]
    return fields + [read(7, 0, 0)] * 206 + [read(last, 0, 0)]


known("all-pairs", all_pairs(7), ["consistent 14496"] + [f"{array} 1 7" for array in range(48)], None, [(47, 1, "7"), (47, 7, "0")])
known("all-pairs-conflict", all_pairs(8), ["conflict 14496", "then 1 255"], None, [(0, 1, "refused 12 0")])

# As many index values in one array as there may be, 256, one for each base term. Base term n is 3^n modulo 257, a prime of which 3 is a
# primitive root: so each number from 1 to 256 is the value of one base term, and they do not rise from term to term. Each read is at the
# base term before it, and holds the next one; the write puts the first at the last. So the write holds 3i modulo 257 at each i from 1 to
# 256, and the variable beneath the same but for the written index. Each read reaches both arrays, the write itself alone: 511 pairs.
POWERS = [pow(3, n, 257) for n in range(256)]
MOST_CELLS = [base(POWERS[0]), variable()] + [read(POWERS[n], 0, n - 1) for n in range(1, 256)] + [write(0, 255, 0)]
CELLS = [f"{array} {index} {3 * index % 257}" for array in (0, 1) for index in range(1, 257) if (array, index) != (0, POWERS[255])]
CELL_LOOKUPS = [(0, 86, "0"), (1, 86, "1"), (0, 256, "254"), (1, 256, "254"), (0, 1, "3"), (1, 0, "0"), (1, 257, "0"), (2, 1, "refused 11 0")]
assert len(CELLS) == 255 + 256 and POWERS[255] == 86
known("most-cells", MOST_CELLS, ["consistent 511"] + CELLS, None, CELL_LOOKUPS)

# As many sources as there may be, 302, of which the last alone gives one of the cells, in the last of 48 arrays. 255 reads of A0 at index
# 0, and above it a chain of writes: 46 at index 0 and one at index 7, each of the value 7. An edge of the 46 is closed to index 0, so what
# they write stays there, but for that of the last of them, which passes the edge of the write at index 7: 255 + 46 + 1 + 1 pairs.
LAST_SOURCE = [base(0), variable()] + [read(7, 0, 0)] * 255 + [write(1, 0, n) for n in range(46)] + [write(1, 1, 46)]
LAST_LOOKUPS = [(0, 0, "7"), (46, 7, "0"), (47, 0, "7"), (47, 7, "7"), (47, 1, "0"), (48, 0, "refused 11 0")]
known("last-source", LAST_SOURCE, ["consistent 303"] + [f"{array} 0 7" for array in range(48)] + ["47 7 7"], None, LAST_LOOKUPS)

# --- fixed numbers (02, E1): of two fixed numbers neither "equal" nor "differ" stands in the lemma; a conclusion always does. What else is
# printed is what the query has with free terms in their place.
known("fixed-index", k1(indices=(fixed, fixed)), ["conflict 2", "then 2 3"], "p cnf 129 65", [(0, 5, "refused 12 0")])
known("fixed-and-free", k1(indices=(fixed, base)), ["conflict 2", "eq 0 1", "then 2 3"], "p cnf 161 129")
known("free-and-fixed", k1(indices=(base, fixed)), ["conflict 2", "eq 0 1", "then 2 3"], "p cnf 161 129")
known("fixed-consistent", k1(7, 7, (fixed, fixed)), ["consistent 2", "0 5 7"], None, [(0, 5, "7"), (0, 6, "0"), (1, 5, "refused 11 0")])
known("fixed-write", k4(2, fixed), ["conflict 5", "then 3 4"], "p cnf 161 65")
known("fixed-K6", k6(1, 0, fixed), ["conflict 22", "true 0", "then 6 7"], "p cnf 322 65")
known("fixed-mixed", mixed(fixed), ["conflict 11", "ne 0 2", "true 0", "false 1", "then 3 4"], "p cnf 164 129")

# Two writes of different fixed values at one fixed index, taken to be equal: the two writes and a read of each reach both of them.
VALUES = [fixed(5), fixed(7), fixed(9), variable(), write(1, 0, 0), write(2, 0, 0), read(7, 1, 0), read(9, 2, 0), equality(1, 2, 1, 3, 4)]
known("fixed-values", VALUES, ["conflict 8", "true 0", "then 1 2"], "p cnf 162 65")

# A write whose literal would be left out is a write of the path all the same, so that two equalities go around it.
known("fixed-around", around(fixed), AROUND_LINES, "p cnf 195 65")

# The longest path: of fixed numbers alone the conclusion is left; where the first source's index is free all 49 literals stay.
known("fixed-longest", chain(fixed, fixed), [CHAIN_LINES[0], CHAIN_LINES[-1]], "p cnf 1633 65")
known("fixed-but-one", chain(base, fixed), CHAIN_LINES, "p cnf 1712 3137")

# Refused as tag 01 is; and it is no read, so no witness.
known("fixed-length", [bytes.fromhex("080003000000")], ["refused 4 0"], None, [(0, 0, "refused 4 0")])
known("fixed-cut", [bytes.fromhex("08000400")], ["refused 2 0"], None, [(0, 0, "refused 2 0")])
known("fixed-256", [fixed(n) for n in range(256)], ["consistent 0"], None, [(0, 0, "refused 11 0")])
known("fixed-257", [fixed(n) for n in range(257)], ["refused 5 1792"], None, [(0, 0, "refused 5 1792")])
WITNESS = [fixed(7), variable(), variable(), read(7, 0, 0), read(7, 1, 0), equality(0, 1, 1, 0, 2)]
known("fixed-witness", WITNESS, ["refused 8 35"], None, [(0, 7, "refused 8 35")])

# --- growing a query (02, E7): the first six fields are consistent; with the seventh sources 1 and 2 conflict, and so the conflict stays with
# the eighth, by which source 0 conflicts with it: another lemma, and a longer one. All sources reach the array that they read alone.
GROWN = [base(5), base(5), variable(), variable(), read(6, 0, 0), read(7, 1, 0), read(9, 1, 0), read(8, 0, 1)]
known("front-consistent", GROWN[:6], ["consistent 2", "0 5 6", "1 5 7"], None, [(0, 5, "6"), (1, 5, "7"), (1, 6, "0")])
known("front", GROWN[:7], ["conflict 3", "then 3 4"], "p cnf 161 65", [(0, 5, "refused 12 0")])
known("grown", GROWN, ["conflict 4", "eq 0 1", "then 2 5"], "p cnf 225 129", [(0, 5, "refused 12 0")])
known("grown-refused", GROWN + [bytes.fromhex("090000")], ["refused 3 64"], None, [(0, 5, "refused 3 64")])

# --- what rt runs the programs on
RUNS = {
    "verdict/stdin": b"".join(k6(0, 1)),
    "verdict/stdout": made["K8.verdict"],
    "lookup/stdin": b"".join(k6(0, 1)),
    "lookup/stdout": b"20\n",
    "lookup/data/cell.txt": b"2\n5\n",
    "clauses/stdin": b"".join(k6(1, 0)),
    "clauses/stdout": made["K6.clauses"],
}

QUERIES = {name.replace(".hex", ".query"): bytes.fromhex(content.decode()) for name, content in made.items() if name.endswith(".hex")}


def check_examples():
    """No example but these, and each with its line in the README."""
    strays = {name for name in os.listdir(EXAMPLES) if name.endswith(".query")} - set(QUERIES)
    if strays:
        sys.exit(f"tests/known.py makes no {min(strays)}")
    with open(os.path.join(EXAMPLES, "README.md")) as file:
        lines = file.read()
    for name in QUERIES:
        if f"| `{name}` |" not in lines:
            sys.exit(f"examples/README.md has no line on {name}")


def main():
    files = {os.path.join(KNOWN, name): content for name, content in made.items()}
    files.update({os.path.join(CRATES, name): content for name, content in RUNS.items()})
    files.update({os.path.join(EXAMPLES, name): content for name, content in QUERIES.items()})
    if sys.argv[1:] == ["--check"]:
        for path, content in files.items():
            with open(path, "rb") as file:
                if file.read() != content:
                    sys.exit(f"{path} is not what tests/known.py makes")
        strays = set(os.listdir(KNOWN)) - set(made)
        if strays:
            sys.exit(f"tests/known.py makes no {min(strays)}")
        check_examples()
    else:
        for path, content in files.items():
            os.makedirs(os.path.dirname(path), exist_ok=True)
            with open(path, "wb") as file:
                file.write(content)
    print(f"{len(made)} files")


main()
