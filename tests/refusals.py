#!/usr/bin/env python3
"""Makes the queries of the crate `refusals` and the answers that 01 and 02 (E1) fix for them.

  tests/refusals.py           write crates/refusals/stdin and stdout
  tests/refusals.py --check   exit 1 where what stands there is something else

Each answer is written here by hand, or by a rule of 01 that is said beside it; none comes from a program that checks queries. A query
stands in stdin behind its length, two bytes, and has one line in stdout.
"""
import os
import sys

from fields import base, boolean, conditional, equality, fixed, read, variable, write

HERE = os.path.join(os.path.dirname(os.path.abspath(__file__)), "..", "crates", "refusals")

cases = []


def case(fields, answer):
    """A query of these fields. The answer is 'accepted', or a refusal's number: its offset is then that of the last field."""
    query = b"".join(fields)
    if answer != "accepted":
        answer = f"refused {answer} {len(query) - len(fields[-1])}"
    cases.append((query, answer))


def whole(query, answer):
    cases.append((query, answer))


# --- the order within a field: 2 for the head, 3, 4, 2 for the value, 5, 6, 7, 8, 9. Each query has a fault and later ones in one field.
ARRAYS = [variable() for _ in range(48)]
BASES = [base() for _ in range(256)]
BOOLEANS = [boolean() for _ in range(64)]

whole(b"", "accepted")
for tag in (0, 1, 3, 7, 8, 9, 255):  # one or two bytes of a head are 2, also where the tag is unknown
    whole(bytes([tag]), "refused 2 0")
    whole(bytes([tag, 0]), "refused 2 0")
for tag in (0, 9, 0x21, 0x41, 255):  # an unknown tag is 3, also where its value runs past the end
    whole(bytes([tag, 0, 0]), "refused 3 0")
    whole(bytes([tag, 0, 5]), "refused 3 0")
    whole(bytes([tag, 255, 255]), "refused 3 0")
OWN = {1: 4, 2: 1, 3: 0, 4: 6, 5: 6, 6: 8, 7: 9, 8: 4}
for tag, own in OWN.items():
    for length in (own - 1, own + 1, own + 256):  # a wrong length is 4, also where it runs past the end, or the terms are not given
        if length >= 0:
            whole(bytes([tag]) + length.to_bytes(2, "big"), "refused 4 0")
            whole(bytes([tag]) + length.to_bytes(2, "big") + bytes(length), "refused 4 0")
    for held in range(own):  # a value cut short is 2, also where what it names is not given
        whole(bytes([tag]) + own.to_bytes(2, "big") + bytes(held), "refused 2 0")

# 4 and 2 come before 5: a 49th array term, a 257th base term, a 65th Boolean
case(ARRAYS + [bytes([3, 0, 1, 0])], 4)
case(ARRAYS + [bytes([4, 0, 6, 0])], 2)
case(BASES + [bytes([1, 0, 5, 0, 0, 0, 0, 0])], 4)
case(BASES + [bytes([1, 0, 4, 0])], 2)
case(BASES + [bytes([8, 0, 5, 0, 0, 0, 0, 0])], 4)
case(BASES + [bytes([8, 0, 4, 0])], 2)
case(BOOLEANS + [bytes([2, 0, 2, 0, 0])], 4)
case(BOOLEANS + [bytes([2, 0, 1])], 2)

# 5 comes before 6, 7, 8 and 9
case(ARRAYS + [write(99, 99, 99)], 5)
case(ARRAYS + [conditional(0, 0, 0)], 5)
case(BASES + [read(0, 0)], 5)
case(BASES + [fixed()], 5)
case(BOOLEANS + [boolean(2)], 5)
case(BOOLEANS + [equality(0, 0, 2, 0, 0)], 5)
WITNESSES = [base(1), base(1), variable(), variable(), read(0, 0, 7), read(1, 0, 7), read(1, 0, 8), read(1, 1, 8), read(0, 0, 7)]
# base terms: 0 and 1 are free and equal; 2 reads A0 at 0 (7), 3 A1 at 0 (7), 4 A1 at 0 (8), 5 A1 at 1 (8), 6 A0 at 0 (7)
case(WITNESSES + BOOLEANS + [equality(0, 1, 0, 2, 3)], 5)

# 6: each number that a field names, one past what is given, and beside later faults
GIVEN = [base(), boolean(), variable()]
case(GIVEN + [write(0, 0, 0)], "accepted")
case(GIVEN + [write(1, 0, 0)], 6)
case(GIVEN + [write(0, 1, 0)], 6)
case(GIVEN + [write(0, 0, 1)], 6)
case(GIVEN + [write(256, 0, 0)], 6)
case(GIVEN + [write(0, 256, 0)], 6)
case(GIVEN + [conditional(0, 0, 0)], "accepted")
case(GIVEN + [conditional(1, 0, 0)], 6)
case(GIVEN + [conditional(0, 1, 0)], 6)
case(GIVEN + [conditional(0, 0, 1)], 6)
case(GIVEN + [conditional(256, 0, 0)], 6)
case(GIVEN + [read(0, 0)], "accepted")
case(GIVEN + [read(1, 0)], 6)
case(GIVEN + [read(0, 1)], 6)  # a read can't name the base term that it gives itself
case(GIVEN + [read(0, 65535)], 6)
for wrong in range(5):
    parts = [0, 1, 2, 2, 3]
    if wrong != 2:
        parts[wrong] = [2, 2, 0, 7, 7][wrong]
        case(WITNESSES + [equality(*parts)], 6)  # beside truth 2
        parts[2] = 0
        case(WITNESSES + [equality(*parts)], 6)  # beside truth 0
case(WITNESSES + [equality(0, 1, 1, 0, 7)], 6)  # an ungiven witness beside one that is no read

# 7: a truth of 2 or 255, beside bad witnesses and beside equal ones
case([boolean(0)], "accepted")
case([boolean(1)], "accepted")
case([boolean(2)], 7)
case([boolean(255)], 7)
case(WITNESSES + [equality(0, 1, 2, 0, 1)], 7)
case(WITNESSES + [equality(0, 1, 255, 2, 3)], 7)

# 8: a witness that is no read, that reads another array, or an index number that differs; beside equal values under truth 0
for truth in (0, 1):
    case(WITNESSES + [equality(0, 1, truth, 0, 3)], 8)
    case(WITNESSES + [equality(0, 1, truth, 2, 1)], 8)
    case(WITNESSES + [equality(0, 1, truth, 3, 3)], 8)
    case(WITNESSES + [equality(0, 1, truth, 2, 6)], 8)
    case(WITNESSES + [equality(1, 0, truth, 2, 3)], 8)
    case(WITNESSES + [equality(0, 1, truth, 2, 5)], 8)  # index terms 0 and 1 have equal values and different numbers
    case(WITNESSES + [fixed(7), equality(0, 1, truth, 7, 3)], 8)  # a fixed number is no read, also of the other witness's value
    case(WITNESSES + [fixed(8), equality(0, 1, truth, 2, 7)], 8)

# 9: equal values under truth 0, one read for both sides included; other values, or truth 1, are accepted
case(WITNESSES + [equality(0, 1, 0, 2, 3)], 9)
case(WITNESSES + [equality(0, 0, 0, 2, 2)], 9)
case(WITNESSES + [equality(0, 0, 0, 2, 6)], 9)
case(WITNESSES + [equality(0, 1, 0, 2, 4)], "accepted")
case(WITNESSES + [equality(0, 1, 1, 2, 3)], "accepted")
case(WITNESSES + [equality(0, 1, 1, 2, 4)], "accepted")
case(WITNESSES + [equality(0, 0, 1, 2, 2)], "accepted")

# --- faults in two fields: the first decides, not the smallest number
FIRST = [(5, ARRAYS + [variable()]), (6, [read(0, 0)]), (7, [boolean(2)]), (8, WITNESSES + [equality(0, 1, 1, 0, 3)]), (9, WITNESSES + [equality(0, 1, 0, 2, 3)]), (3, [bytes([9, 0, 0])]), (4, [bytes([3, 0, 1, 0])])]
for number, fields in FIRST:
    front = b"".join(fields)
    offset = len(front) - len(fields[-1])
    for later in (bytes([9]), bytes([9, 0, 0]), bytes([1, 0, 5]), boolean(3), read(9, 9)):
        whole(front + later, f"refused {number} {offset}")

# --- each limit, and one past it
case(ARRAYS, "accepted")
case(ARRAYS + [variable()], 5)
case(BASES, "accepted")
case(BASES + [base()], 5)
case([fixed()] * 256, "accepted")
case([fixed()] * 257, 5)
case([fixed()] * 128 + [base()] * 128, "accepted")
case([fixed()] * 128 + [base()] * 129, 5)
case([fixed(), variable()] + [read(0, 0) for _ in range(255)], "accepted")
case([fixed(), variable()] + [read(0, 0) for _ in range(255)] + [fixed()], 5)
case(BOOLEANS, "accepted")
case(BOOLEANS + [boolean()], 5)
case([base(), variable()] + [read(0, 0) for _ in range(255)], "accepted")
case([base(), variable()] + [read(0, 0) for _ in range(256)], 5)
case([base(), variable()] + [write(a, 0, 0) for a in range(47)], "accepted")
case([base(), variable()] + [write(a, 0, 0) for a in range(48)], 5)
case([boolean(), variable()] + [conditional(0, a, a) for a in range(47)], "accepted")
case([boolean(), variable()] + [conditional(0, a, a) for a in range(48)], 5)
LARGEST = [base(), variable()] + [write(a, 0, 0) for a in range(47)] + [read(0, 0) for _ in range(255)] + [equality(0, 0, 1, 1, 1) for _ in range(64)]
case(LARGEST, "accepted")
assert len(b"".join(LARGEST)) == 4006
whole(bytes(4096), "refused 3 0")
whole(bytes(4097), "refused 1 0")  # 1 is tried first, whatever else is wrong
whole(b"".join(LARGEST) + bytes(90), f"refused 3 4006")
whole(b"".join(LARGEST) + bytes(91), "refused 1 0")
whole(variable() + bytes(4094), "refused 1 0")

# --- K6, cut at every byte: between two fields it is accepted, inside one it is 2 at that field's first byte
K6 = [base(3), base(4), base(5), base(10), base(11), base(6), variable(), variable(), write(0, 0, 3), write(1, 1, 4)]
K6 += [read(0, 2, 20), read(1, 2, 21), read(2, 5, 0), read(3, 5, 0), equality(2, 3, 1, 8, 9)]
K6_BYTES = b"".join(K6)
starts = [len(b"".join(K6[:count])) for count in range(len(K6) + 1)]
for cut in range(len(K6_BYTES) + 1):
    start = max(place for place in starts if place <= cut)
    whole(K6_BYTES[:cut], "accepted" if start == cut else f"refused 2 {start}")


def main():
    made = {
        "stdin": b"".join(len(query).to_bytes(2, "big") + query for query, _ in cases),
        "stdout": "".join(answer + "\n" for _, answer in cases).encode(),
    }
    check = sys.argv[1:] == ["--check"]
    for name, text in made.items():
        path = os.path.join(HERE, name)
        if check:
            with open(path, "rb") as file:
                if file.read() != text:
                    sys.exit(f"{path} is not what tests/refusals.py makes")
        else:
            with open(path, "wb") as file:
                file.write(text)
    print(f"{len(cases)} queries")


main()
