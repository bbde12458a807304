#!/usr/bin/env python3
"""A second labelrun, for the rules that docs/RULES.md states.

It shares no code with the proved program. Give it records on standard input; it writes one record for each of them
to standard output:

    python3 reference/labelrun.py < examples/day.csv

It needs Python 3.7 or later and nothing else.
"""
import re
import sys
from dataclasses import dataclass, replace

OBJECTS, SESSIONS, PLACES, OCTETS = 256, 64, 1024, 256


class Refused(Exception):
    """A record or call that is turned down, with the refusal's number."""

    def __init__(self, number):
        super().__init__(number)
        self.number = number


class TagFault(Refused):
    """Refusal 8, with the first octet that breaks a rule."""

    def __init__(self, octet):
        super().__init__(8)
        self.octet = octet


# Labels of the grade order: (grade, frozenset of categories).

LOW = (0, frozenset())
HIGH = (255, frozenset(range(240)))


def above(a, b):
    """Whether a dominates b."""
    return a[0] >= b[0] and a[1] >= b[1]


def join(a, b):
    return (max(a[0], b[0]), a[1] | b[1])


def meet(a, b):
    return (min(a[0], b[0]), a[1] & b[1])


# Sessions and the six rules. Each rule answers the marks after a grant, or None for a denial.

@dataclass(frozen=True)
class Marks:
    clearance: tuple
    current: tuple
    in_low: tuple
    in_high: tuple
    out_low: tuple
    out_high: tuple


def secrecy_read(m, o):
    if above(m.current, o) or (above(m.clearance, o) and above(m.out_low, o)):
        return replace(m, current=join(m.current, o), in_high=join(m.in_high, o))


def secrecy_write(m, o):
    if above(o, m.current) or above(o, m.in_high):
        return replace(m, current=meet(m.current, o), out_low=meet(m.out_low, o))


def secrecy_both(m, o):
    if m.current == o or (above(m.clearance, o) and above(m.out_low, o) and above(o, m.in_high)):
        return replace(m, current=o, in_high=join(m.in_high, o), out_low=meet(m.out_low, o))


def integrity_read(m, o):
    if above(o, m.current) or above(o, m.out_high):
        return replace(m, current=meet(m.current, o), in_low=meet(m.in_low, o))


def integrity_write(m, o):
    if above(m.current, o) or (above(m.clearance, o) and above(m.in_low, o)):
        return replace(m, current=join(m.current, o), out_high=join(m.out_high, o))


def integrity_both(m, o):
    if m.current == o or (above(m.clearance, o) and above(m.in_low, o) and above(o, m.out_high)):
        return replace(m, current=o, in_low=meet(m.in_low, o), out_high=join(m.out_high, o))


class Secrecy:
    rules = {"read": secrecy_read, "write": secrecy_write, "both": secrecy_both}
    cleared = ("read", "both")  # the kinds for which the clearance has to dominate the object's label

    @staticmethod
    def start(clearance, label):
        return Marks(clearance, label, in_low=LOW, in_high=LOW, out_low=HIGH, out_high=HIGH)

    @staticmethod
    def in_order(m):
        return above(m.clearance, m.current) and above(m.out_low, m.current) and above(m.current, m.in_high)


class Integrity:
    rules = {"read": integrity_read, "write": integrity_write, "both": integrity_both}
    cleared = ("write", "both")

    @staticmethod
    def start(clearance, label):
        return Marks(clearance, label, in_low=HIGH, in_high=HIGH, out_low=LOW, out_high=LOW)

    @staticmethod
    def in_order(m):
        return above(m.clearance, m.current) and above(m.in_low, m.current) and above(m.current, m.out_high)


def decide(policy, marks, label, kind):
    """The verdict, and the marks after it."""
    if not policy.in_order(marks):
        raise Refused(7)
    after = policy.rules[kind](marks, label)
    if after is not None:
        return "granted", after
    if kind in policy.cleared and not above(marks.clearance, label):
        return "clearance", marks
    return "history", marks


# Tags.

def read_tag(octets):
    """The label that the octets begin with, and how many octets its tag takes."""
    if len(octets) < 1 or octets[0] not in (1, 2):
        raise TagFault(0)
    if len(octets) < 2 or not 4 <= octets[1] <= 34 or octets[1] > len(octets) or (octets[0] == 2 and octets[1] % 2):
        raise TagFault(1)
    if octets[2] != 0:
        raise TagFault(2)
    length = octets[1]
    categories = []
    if octets[0] == 1:
        body = octets[4:length]
        categories = [n for n in range(8 * len(body)) if body[n // 8] & (128 >> (n % 8))]
    else:
        for at in range(4, length, 2):
            category = 256 * octets[at] + octets[at + 1]
            if category > 239 or (categories and category <= categories[-1]):
                raise TagFault(at)
            categories.append(category)
    return (octets[3], frozenset(categories)), length


def whole_tag(octets):
    """The label of a field that holds one tag and nothing after it."""
    label, used = read_tag(octets)
    if used < len(octets):
        raise TagFault(used)
    return label


# Records and fields. What does not have the right form is refused by 10.

def field_policy(octets):
    policies = {b"confidentiality": Secrecy, b"integrity": Integrity}
    if octets not in policies:
        raise Refused(10)
    return policies[octets]


def field_label(octets):
    if not re.fullmatch(rb"(?:[0-9A-F][0-9A-F])*", octets):
        raise Refused(10)
    return bytes.fromhex(octets.decode("ascii"))


def field_number(octets):
    if not re.fullmatch(rb"0|[1-9][0-9]{0,4}", octets):
        raise Refused(10)
    return int(octets)


FORMS = {
    b"policy": [field_policy],
    b"object": [field_label],
    b"session": [field_label, field_label],
    b"read": [field_number, field_number],
    b"write": [field_number, field_number],
    b"both": [field_number, field_number],
    b"close": [field_number],
}


def split_records(octets):
    records = octets.split(b"\r\n")
    if records[-1] == b"":  # nothing stands after the last CR LF
        records.pop()
    return records


def parse(record):
    """The word of a record and the values of its other fields."""
    if len(record) > OCTETS or any(octet in b'\r\n"' for octet in record):
        raise Refused(10)
    word, *fields = record.split(b",")
    if word not in FORMS or len(fields) != len(FORMS[word]):
        raise Refused(10)
    return word.decode("ascii"), [form(field) for form, field in zip(FORMS[word], fields)]


# The run.

class Run:
    def __init__(self):
        self.policy = None
        self.objects = []   # labels
        self.rows = []      # [marks, whether the session is open]
        self.log = []       # (session, object, kind, verdict)

    def answer(self, record):
        """The word and the number that a record is answered with."""
        try:
            word, values = parse(record)
            if (word == "policy") != (self.policy is None) or (word == "object" and self.rows):
                raise Refused(11)
            if word in ("object", "session"):
                values = [whole_tag(octets) for octets in values]
            if word == "policy":
                return self.choose(*values)
            if word == "object":
                return self.add_object(*values)
            if word == "session":
                return self.enrol(*values)
            if word == "close":
                return self.close(*values)
            return self.request(word, *values)
        except Refused as refusal:
            return "refused", refusal.number

    def choose(self, policy):
        self.policy = policy
        return "policy", 0

    def add_object(self, label):
        if len(self.objects) == OBJECTS:
            raise Refused(5)
        self.objects.append(label)
        return "object", len(self.objects) - 1

    def enrol(self, clearance, label):
        if len(self.rows) == SESSIONS:
            raise Refused(5)
        if not above(clearance, label):
            raise Refused(4)
        self.rows.append([self.policy.start(clearance, label), True])
        return "session", len(self.rows) - 1

    def request(self, kind, session, object):
        self.check_open(session)
        if object >= len(self.objects):
            raise Refused(3)
        marks = self.rows[session][0]
        verdict, after = decide(self.policy, marks, self.objects[object], kind)
        if len(self.log) == PLACES:
            raise Refused(6)
        self.rows[session][0] = after
        self.log.append((session, object, kind, verdict))
        return verdict, len(self.log) - 1

    def close(self, session):
        self.check_open(session)
        self.rows[session][1] = False
        return "closed", session

    def check_open(self, session):
        if session >= len(self.rows):
            raise Refused(1)
        if not self.rows[session][1]:
            raise Refused(2)


def labelrun(octets):
    """The octets that a whole input is answered with."""
    run = Run()
    out = []
    for place, record in enumerate(split_records(octets), 1):
        word, number = run.answer(record)
        out.append(b"%d,%s,%d\r\n" % (place, word.encode("ascii"), number))
    return b"".join(out)


if __name__ == "__main__":
    sys.stdout.buffer.write(labelrun(sys.stdin.buffer.read()))
