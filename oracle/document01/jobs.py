"""Records, answers, jobs and listings, as document 01 lays them out."""

import struct

from document01.rules import KINDS, LARGEST_WORD, WORD, Clash, Endless, State

TAKE_BACK, CLOSE = 64, 65
FIELDS = {kind: fields for kind, (fields, _, _) in KINDS.items()} | {TAKE_BACK: 1, CLOSE: 0}

MOST_NODES = 1024
MOST_RECORDS = 4096
LONGEST_LISTING = 26727
HEADER = 16  # bytes
NO_LISTING = [0, 0, 4, 4]

# A record's kind, zero, a, b and zero; a job's format, count, offset and length.
RECORD = "<BBHHH"
NUMBERS = "<4I"


def record(kind, a=0, b=0, zero=0, last=0):
    return struct.pack(RECORD, kind, zero, a, b, last)


def header(form, count, offset, length):
    return struct.pack(NUMBERS, form, count, offset, length)


def job(records):
    return header(1, len(records), HEADER, HEADER + 8 * len(records)) + b"".join(records)


class Kept:
    """The nodes that are kept, and the listing that is shown."""

    def __init__(self):
        self.nodes = []
        self.listing = NO_LISTING
        self.afresh()

    def afresh(self):
        self.state = State()
        for kind, fields in self.nodes:
            self.state.offer(kind, fields)

    def answer(self, record_bytes):
        """Code, first and second."""
        kind, zero, a, b, last = struct.unpack(RECORD, record_bytes)
        if kind not in FIELDS:
            return 1, 0, 0
        fields, unused = (a, b)[: FIELDS[kind]], (a, b)[FIELDS[kind] :]
        malformed = any((zero, last, *unused)) or (kind == WORD and a > LARGEST_WORD)
        if kind == CLOSE:
            return self.close(malformed)
        if malformed:
            return 1, 0, 0
        if kind == TAKE_BACK:
            return self.take_back(a)
        return self.offer(kind, fields)

    def offer(self, kind, fields):
        if len(self.nodes) == MOST_NODES:
            return 3, 0, 0
        if kind != WORD and any(child >= len(self.nodes) for child in fields):
            return 2, 0, 0
        try:
            joins = self.state.offer(kind, fields)
        except Clash as clash:
            self.afresh()
            return 4, clash.args[0], 0
        self.nodes.append((kind, fields))
        return 0, len(self.nodes) - 1, joins

    def take_back(self, to):
        if to > len(self.nodes):
            return 6, len(self.nodes), 0
        del self.nodes[to:]
        self.afresh()
        return 0, to, 0

    def close(self, malformed):
        self.listing = NO_LISTING
        if malformed:
            return 1, 0, 0
        try:
            types, arrows = self.state.close()
        except Endless as endless:
            return 5, endless.args[0], 0
        self.listing = [len(arrows), len(types), 4, 4 + 3 * len(types)]
        for numbers in types + arrows:
            self.listing += numbers
        return 0, len(arrows), len(types)


def refusal(job, answers, listing):
    """The code of a job for which so many bytes of answers and numbers of a listing are lent."""
    if len(job) < HEADER:
        return 16
    form, count, offset, length = struct.unpack_from(NUMBERS, job)
    if form != 1:
        return 17
    if count > MOST_RECORDS:
        return 18
    if offset != HEADER:
        return 19
    if length != HEADER + 8 * count or len(job) != HEADER + 8 * count:
        return 20
    if answers < 8 * count:
        return 21
    if listing < LONGEST_LISTING:
        return 22
    return 0


def run(job, answers, listing):
    """The code, each record's answer, and the numbers of the listing. All that is lent beyond these stays as it was."""
    code = refusal(job, answers, listing)
    if code != 0:
        return code, [], []
    kept = Kept()
    answered = [kept.answer(job[at : at + 8]) for at in range(HEADER, len(job), 8)]
    return code, answered, kept.listing
