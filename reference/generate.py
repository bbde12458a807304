#!/usr/bin/env python3
"""Makes a batch of labelrun records at random, good and damaged ones, and writes it to standard output.

    python3 reference/generate.py NUMBER > batch.csv

Equal numbers give equal batches. The counts of objects, sessions and requests are often just below, at or just above
what labelrun has room for, and so are the lengths of some records. Nothing here knows what the answers are.
"""
import random
import sys

OBJECTS, SESSIONS, PLACES = 256, 64, 1024
ODD_OCTETS = b'\r\n",  0159aAfFgG:/@-+\x00\x7f\xff'


class Generator:
    def __init__(self, number):
        self.random = random.Random(number)
        self.out = []
        self.objects = 0
        self.sessions = 0
        self.open = []
        self.damage = self.random.choice([0, 0, 0.05, 0.3, 0.8])
        self.likely = 0.97  # the share of numbers that name an open session or a known object
        self.labels = [self.new_label() for _ in range(self.random.randint(1, 9))]

    def chance(self, share):
        return self.random.random() < share

    # Labels and tags.

    def new_label(self):
        style = self.random.randrange(6)
        if style == 0:
            return self.random.choice([(0, []), (255, []), (255, list(range(240))), (0, [239]), (7, list(range(232)))])
        if style == 1:
            return self.random.randrange(256), sorted(self.random.sample(range(240), self.random.choice([1, 2, 14, 15, 16, 90])))
        grade = self.random.randrange(4)
        if style < 4:
            return grade, []
        return grade, sorted(self.random.sample([0, 7, 8, 9, 239], self.random.randrange(5)))

    def label(self):
        return self.new_label() if self.chance(0.1) else self.random.choice(self.labels)

    def below(self, label):
        """A label that the given one dominates."""
        grade, categories = label
        if self.chance(0.3):
            return label
        return self.random.randint(0, grade), [c for c in categories if self.chance(0.6)]

    def tag(self, label):
        grade, categories = label
        if len(categories) <= 15 and self.chance(0.5):
            body = b"".join(c.to_bytes(2, "big") for c in categories)
            return bytes([2, 4 + len(body), 0, grade]) + body
        body = bytearray(30)
        for c in categories:
            body[c // 8] |= 128 >> (c % 8)
        while body and body[-1] == 0 and not self.chance(0.03):
            body.pop()
        return bytes([1, 4 + len(body), 0, grade]) + bytes(body)

    def digits(self, tag):
        return tag.hex().upper().encode("ascii")

    # Records.

    def object(self):
        self.objects += 1
        return b"object," + self.digits(self.tag(self.label()))

    def session(self):
        clearance = self.label()
        self.open.append(self.sessions)
        self.sessions += 1
        return b"session,%s,%s" % (self.digits(self.tag(clearance)), self.digits(self.tag(self.below(clearance))))

    def any_session(self):
        """Two labels at random: the first may or may not dominate the second."""
        return b"session,%s,%s" % (self.digits(self.tag(self.label())), self.digits(self.tag(self.label())))

    def number(self, count, likely=()):
        if likely and self.chance(self.likely):
            return b"%d" % self.random.choice(likely)
        return b"%d" % self.random.choice([0, count // 2, max(count, 1) - 1, count, count + 1, OBJECTS, 9999, 10000, 65536, 99999])

    def request(self):
        word = self.random.choice([b"read", b"write", b"both"])
        return b"%s,%s,%s" % (word, self.number(self.sessions, self.open), self.number(self.objects, range(min(self.objects, OBJECTS))))

    def close(self):
        number = self.number(self.sessions, self.open)
        if int(number) in self.open and self.chance(0.9):
            self.open.remove(int(number))
        return b"close," + number

    def stray(self):
        """A record that may well be out of place."""
        return self.random.choice([
            lambda: b"policy,confidentiality",
            lambda: b"policy,integrity",
            lambda: b"object," + self.digits(self.tag(self.label())),
            lambda: b"object," + self.digits(self.bad_tag()),
            lambda: b"session,%s,%s" % (self.digits(self.bad_tag()), self.digits(self.tag(self.label()))),
            lambda: b"session,%s,%s" % (self.digits(self.tag(self.label())), self.digits(self.bad_tag())),
            self.any_session,
            self.request,
            lambda: b"close," + self.number(self.sessions),
        ])()

    # Damage.

    def bad_tag(self):
        tag = bytearray(self.tag(self.label()))
        way = self.random.randrange(10)
        if way == 0:
            tag[0] = self.random.choice([0, 1, 2, 3, 5, 255])
        elif way == 1:
            tag[1] = self.random.choice([0, 3, 4, 5, 33, 34, 35, 36, 255, max(tag[1] - 1, 0), tag[1] + 1])
        elif way == 2:
            tag[2] = self.random.choice([1, 128, 255])
        elif way == 3:
            tag += bytes(self.random.choice([1, 2, 3, 30, 36, 80]))
        elif way == 4:
            tag = tag[:self.random.randrange(len(tag))]
        elif way == 5:  # a long tag whose length is true
            size = self.random.choice([31, 32, 33, 34, 35, 36])
            tag = bytearray([self.random.choice([1, 2]), size, 0, 1]) + bytes(size - 4)
        elif way == 6:  # categories that need not rise
            listed = [self.random.choice([0, 1, 9, 238, 239, 240, 256, 265, 65535]) for _ in range(self.random.randint(1, 4))]
            tag = bytearray([2, 4 + 2 * len(listed), 0, 1]) + b"".join(c.to_bytes(2, "big") for c in listed)
        elif way == 7:  # fifteen, sixteen or seventeen categories
            listed = range(self.random.choice([15, 16, 17]))
            tag = bytearray([2, 4 + 2 * len(listed), 0, 1]) + b"".join(c.to_bytes(2, "big") for c in listed)
        elif way == 8:  # one octet more, and the length says so
            tag.append(self.random.choice([0, 0, 1, 240]))
            tag[1] += 1
        else:
            tag[self.random.randrange(len(tag))] = self.random.randrange(256)
        return bytes(tag)

    def damaged(self, record):
        way = self.random.randrange(14)
        at = self.random.randrange(len(record) + 1)
        odd = bytes([self.random.choice(ODD_OCTETS)])
        if way == 0:
            return record[:at] + odd + record[at + 1:]
        if way == 1:
            return record[:at] + record[at + 1:]
        if way == 2:
            return record[:at] + odd + record[at:]
        if way == 3:
            return record.lower() if self.chance(0.7) else record.upper()
        if way == 4:
            return record + self.random.choice([b",", b",0", b",01040001", b" ", b"\r", b"\n", b"\n\r", b"\r\r"])
        if way == 5:
            return record.rsplit(b",", 1)[0]
        if way == 6:
            return b""
        if way == 7:
            fields = record.split(b",")
            field = self.random.randrange(len(fields))
            fields[field] = self.random.choice([b"", b"0", b"00", b"01", b"000000", b"99999", b"100000", b"-1", b"+1", b" 0", b"0x0"])
            return b",".join(fields)
        if way == 8:  # about the greatest length
            size = self.random.choice([254, 255, 256, 257, 258, 259, 300, 600])
            return record + self.random.choice([b"0", b"F", b" "]) * max(size - len(record), 0)
        if way == 9:
            size = self.random.choice([243, 244, 245, 246, 247, 248, 249, 250, 251, 252])
            return b"object," + b"01040001".ljust(size, b"0")
        if way == 10:
            return b"session,%s,%s" % (self.digits(self.bad_tag()), self.random.choice([b"0", b"0g", b"", b"01040001", b"0104000"]))
        if way == 11:
            return record + self.random.choice([b"\n", b"\r"]) + self.stray()
        if way == 12:
            return self.random.choice([b"policy,Integrity", b"policy,secrecy", b"policy,", b"policy", b",", b",,", b"reads,0,0", b"0,read,0", b"\r", b"\n", b'"'])
        return bytes(self.random.randrange(256) for _ in range(self.random.randrange(12)))

    def put(self, record):
        if self.chance(self.damage):
            self.out.append(self.damaged(record))
        if self.chance(self.damage / 4):
            self.out.append(self.stray())
        self.out.append(record)

    # The batch.

    def near(self, limit, few):
        """A count: small, or about the limit."""
        if self.chance(0.7):
            return self.random.randint(0, few)
        return limit + self.random.choice([-1, 0, 1, 2])

    def batch(self):
        shape = self.random.randrange(50)
        if shape == 0:
            return self.random.choice([b"", b"\r\n", b"\r", b"\n", b"\r\n\r\n", b"\n\r", b"policy,integrity", b"policy,integrity\r"])
        if shape == 1:
            return bytes(self.random.choice(b'\r\n,"0a') for _ in range(self.random.randrange(400)))
        for _ in range(self.random.choice([0, 0, 1, 3])):
            self.put(self.stray())
        self.put(self.random.choice([b"policy,confidentiality", b"policy,integrity"]))
        objects = self.near(OBJECTS, 12)
        sessions = self.near(SESSIONS, 6)
        requests = self.near(PLACES, 80)
        closing = self.random.choice([0, 0.01, 0.05])
        if requests > 80:  # enough of them should find an open session and a known object to fill the log
            objects, sessions = max(objects, 2), max(sessions, 2)
            closing /= 10
            self.likely = self.random.choice([1, 1, 0.999])
        for _ in range(objects):
            self.put(self.object())
        for _ in range(self.random.choice([0, 0, 1, 3])):
            self.put(b"object," + self.digits(self.bad_tag()))
        for _ in range(self.random.randint(min(sessions, 1), sessions)):
            self.put(self.session())
        late = sessions - self.sessions
        for done in range(requests):
            if late and self.chance(late / (requests - done)):
                self.put(self.session())
                late -= 1
            if len(self.open) > 1 and self.chance(closing):
                self.put(self.close())
            self.put(self.request())
        for _ in range(late):
            self.put(self.session())
        self.likely = 0.7
        for _ in range(self.random.choice([0, 1, 6, 15])):
            self.put(self.close() if self.chance(0.2) else self.stray())
        ends = [b"\r\n", b"\r\n", b"\r\n", b"", b"\r", b"\n", b"\r\n\r\n", b"\r\n\r", b"\r\n\n"]
        return b"\r\n".join(self.out) + self.random.choice(ends)


if __name__ == "__main__":
    if len(sys.argv) != 2:
        sys.exit("usage: generate.py NUMBER")
    sys.stdout.buffer.write(Generator(int(sys.argv[1])).batch())
