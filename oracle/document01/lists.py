"""The lists that the gate runs, each as a lending: a job's bytes, and how many bytes of answers and numbers of a listing are lent."""

from itertools import combinations
from typing import NamedTuple

from document01.jobs import CLOSE, FIELDS, HEADER, LONGEST_LISTING, MOST_NODES, MOST_RECORDS, TAKE_BACK, header, job, record, run

KINDS = {
    name: number
    for number, name in enumerate("iden unit injl injr take drop comp case assertl assertr pair disconnect".split(), 1)
} | {"witness": 14, "fail": 15, "word": 16, "back": TAKE_BACK, "close": CLOSE}

# One more than any job needs.
ALL_ANSWERS = 8 * MOST_RECORDS + 1
ALL_NUMBERS = LONGEST_LISTING + 1


class Lending(NamedTuple):
    name: str
    job: bytes
    answers: int = ALL_ANSWERS
    numbers: int = ALL_NUMBERS


def in_words(text):
    """The job of a list in words. A disconnect with one number is kind 13; a number too many goes into a field that must be zero."""
    records = []
    for words in filter(None, map(str.split, text.split(";"))):
        kind = 13 if words[0] == "disconnect" and len(words) == 2 else KINDS[words[0]]
        records.append(record(kind, *map(int, words[1:])))
    return job(records)


def listed(text, name=None):
    return Lending(name or text.strip() or "no record", in_words(text))


def times(count, text):
    """A list over and over. In it N is the number of the turn, from 0."""
    return "; ".join(text.replace("N", str(turn)) for turn in range(count))


# Document 01's "Lists to try". What it says of an answer stands after '=', what it says of types as the listing after '|'.
LISTS_TO_TRY = """
close = 0 0 0 | 0 0 4 4
iden; close | 1 1 4 7 0 0 0 0 0
witness; close | 1 1 4 7 0 0 0 0 0
unit; injl 0; close | 2 2 4 10 0 0 0 1 0 0 0 0 0 1
unit; comp 0 0 = 0 1 1; close
unit; pair 0 0 = 0 1 0; close
unit; case 0 0 = 0 1 4; close | 2 4 4 16 0 0 0 2 0 0 1 0 0 2 2 0 1 0 3 0
word 0; comp 0 0 = 4 1 0; close
iden; take 0; pair 0 1; close = 5 0 0 | 0 0 4 4
iden; take 0; pair 0 1; close = 5 0 0; unit; injl 3; comp 4 0 = 4 1 0; close
iden; disconnect 0; close | 2 11 4 37 0 0 0 1 0 0 2 1 1 2 2 2 2 3 3 2 4 4 2 5 5 2 6 6 2 7 7 2 8 8 2 9 0 10 10 0 10
unit; unit; disconnect 0 1 = 4 7 0; close
word 8; disconnect 0 = 4 6 0; close
word 0; assertl 0 = 4 3 0; assertr 0 = 4 4 0; close
word 0; take 0; word 1; take 2; case 1 3 = 4 5 0; close
word 0; take 0; pair 0 1 = 4 2 0; close
word 31 = 0 0 0; word 32 = 1 0 0; close
unit; back 1 = 0 1 0; back 2 = 6 1 0; back 0; close
"""


def tried(line, name=None):
    """A list to try. Ends the script if the model answers something else than the document says."""
    text, _, listing = line.partition("|")
    said = [part.partition("=")[::2] for part in text.split(";")]
    lending = listed("; ".join(words.strip() for words, _ in said), name)
    _, answers, numbers = run(*lending[1:])
    for (words, answer), given in zip(said, answers, strict=True):
        assert answer == "" or tuple(map(int, answer.split())) == given, (line, words, given)
    assert listing == "" or list(map(int, listing.split())) == numbers, (line, numbers)
    return lending


def to_try():
    yield from map(tried, LISTS_TO_TRY.strip().splitlines())
    kept, refused = "injl 1022 = 0 1023 0", "injl 1023 = 3 0 0"
    back = "back 1025 = 6 1024 0; back 1024 = 0 1024 0"
    yield tried(f"unit; {times(1022, 'injl N')}; {kept}; {refused}; close; {back}", "1,024 nodes and one more")


def closings():
    """Which of several listings is handed over, and what a closing leaves."""
    yield listed("unit; close; injl 0; close")  # the later
    yield listed("word 31; close; back 0; unit; close")  # the later, which is shorter
    yield listed("unit; close; injl 0")  # not what came after it
    yield listed("unit; close; close 1")  # none: the last is malformed
    yield listed("iden; close; take 0; pair 0 1; close")  # none: the last is endless
    yield listed("unit; injl 0")  # none
    yield listed("")  # none
    yield listed("iden; close; close; word 0; comp 1 0; close")  # what was free is free afterwards
    yield listed("unit; injl 0; word 0; close")  # 1 + A, with A free, and 1 + 1 are one type


def cycles():
    yield listed("iden; take 0; take 1; pair 0 2; close")  # through two products
    yield listed("unit; unit; iden; take 2; drop 3; pair 2 4; close")  # nodes 0 and 1 have types
    yield listed(f"iden; {times(40, 'take N')}; pair 0 40; close", "through forty products")
    yield listed("iden; disconnect 0 0; close; back 1; close")  # none once the node is taken back


def refused_nodes():
    """A clash leaves nothing of the rules before it, nor does a take-back."""
    yield listed("iden; word 0; case 0 1; comp 1 0; close")  # rule 4, after rule 3 made the iden's source a product
    yield listed("unit; disconnect 0 0; word 0; comp 1 0; close")  # rule 7, after rule 6
    yield listed("iden; word 0; comp 1 0; back 2; word 1; comp 2 0; close")


def towers():
    """Types that are shared at each level: written out, they are trees of 2^31 leaves and more."""
    yield listed(f"witness; {times(40, 'pair N N')}; close", "forty pairs of the last node with itself")
    yield listed(f"witness; {times(31, 'pair N N')}; comp 31 0; word 31; comp 33 0; close", "31 pairs, joined to a word")
    other = "; ".join(f"pair {62 + level} {62 + level}" for level in range(60))
    yield listed(f"witness; {times(60, 'pair N N')}; comp 60 0; unit; {other}; comp 122 0; close", "60 pairs, joined to 60 others")


def long():
    """Jobs of thousands of records. A client's nodes are taken back, whether they are sound, clash or are endless."""
    yield listed(f"unit; {times(MOST_NODES - 1, 'case 0 0')}; close", "1,023 times case of one node, eight entries each")

    nodes = "; ".join(f"unit; case {n} {n}; unit; comp {n + 2} {n + 2}" for n in range(0, MOST_NODES, 4))
    yield listed(f"{nodes}; close", "1,024 nodes of four types")
    clients = times(333, "unit; case 0 0; back 0; word 0; comp 0 0; back 0; iden; disconnect 0 0; back 0")
    rest = times(MOST_RECORDS - 9 * 333 - MOST_NODES - 1, "unit")
    yield listed(f"{clients}; {nodes}; close; {rest}", "the same from the thousandth client; 4,096 records")

    nodes = "iden; unit; case 1 1; disconnect 0; comp 2 1; close"
    yield listed(nodes)
    sound, clashing, endless = "unit; case 0 0; close; back 0", "word 0; comp 0 0; back 0", "iden; take 0; pair 0 1; close; back 0"
    clients = times(333, f"{sound}; {clashing}; {endless}")
    yield listed(f"{clients}; {sound}; {nodes}", "the same after a thousand clients who closed theirs")


def units(form=1, count=2, offset=HEADER, length=None, lent=32):
    """A job of two units, of which the header's numbers and the length can be others than they ought to be."""
    whole = HEADER + 8 * count if length is None else length
    return (header(form, count, offset, whole) + 3 * record(KINDS["unit"]))[:lent]


def refusals():
    """Each refusal at its boundary, and past it."""
    for lent in (0, 15, 16):
        yield Lending(f"{lent} bytes", units(count=0, lent=lent))
    for form in (0, 2, 257, 65537):
        yield Lending(f"format {form}", units(form=form))
    for count in (4096, 4097, 65538, 2**29, 2**32 - 1):
        yield Lending(f"{count} records, of which two are lent", units(count=count, length=32))
    for offset in (0, 15, 17, 65552):
        yield Lending(f"offset {offset}", units(offset=offset))
    for length in (0, 31, 33, 40, 65568):
        yield Lending(f"length field {length}", units(length=length))
    for lent in (24, 31, 32, 33, 40):
        yield Lending(f"{lent} bytes lent", units(lent=lent))
    yield Lending("length field and lent bytes 40", units(length=40, lent=40))
    for answers in (0, 8, 15, 16, 17, 24):
        yield Lending(f"answers of {answers} bytes", units(), answers)
    for numbers in (0, 4, LONGEST_LISTING - 1, LONGEST_LISTING, LONGEST_LISTING + 1):
        yield Lending(f"listing of {numbers} numbers", units(), 16, numbers)
    yield Lending("no records, no answers", units(count=0, lent=HEADER), 0)
    yield Lending("no records, no answers, no listing", units(count=0, lent=HEADER), 0, 0)


def refusals_at_once():
    """Every set of the seven faults: the answer is the lowest."""
    faults = {16: {"lent": 15}, 17: {"form": 2}, 18: {"count": 4097}, 19: {"offset": 15}, 20: {"length": 31}}
    for size in range(1, 8):
        for codes in combinations(range(16, 23), size):
            answers = 15 if 21 in codes else ALL_ANSWERS
            numbers = LONGEST_LISTING - 1 if 22 in codes else ALL_NUMBERS
            damage = {field: value for code in codes for field, value in faults.get(code, {}).items()}
            lending = Lending(" ".join(map(str, codes)) + " at once", units(**damage), answers, numbers)
            assert run(*lending[1:])[0] == min(codes)
            yield lending


class Numbers:
    """Park and Miller's generator: the same numbers on every machine."""

    def __init__(self, seed):
        self.seed = seed

    def below(self, end):
        self.seed = self.seed * 48271 % 2147483647
        return self.seed // 512 % end


def random_record(numbers):
    """Mostly a node, those with no child more often; at times a take-back or a closing; now and then any kind or a field too many."""
    which = numbers.below(40)
    if which == 0:
        kind = numbers.below(256)
    elif which < 3:
        kind = TAKE_BACK
    elif which < 5:
        kind = CLOSE
    elif which < 12:
        kind = 1 + numbers.below(2)
    else:
        kind = 1 + numbers.below(16)
    used = FIELDS.get(kind, 2)
    a, b = (numbers.below(9) if field < used else numbers.below(30) // 29 for field in range(2))
    return record(kind, a, b, last=numbers.below(100) // 99)


def random():
    """Jobs of up to 80 random records, with buffers that just suffice."""
    for seed in range(1, 101):
        numbers = Numbers(1000003 * seed)
        records = [random_record(numbers) for _ in range(numbers.below(81))]
        yield Lending(f"random {seed}", job(records), 8 * len(records), LONGEST_LISTING)


def damaged():
    """A sound job with each byte changed, and cut at each length."""
    sound = in_words("unit; case 0 0; injl 1; iden; take 3; word 1; close")
    for more in (1, 64, 255):
        for at, byte in enumerate(sound):
            yield Lending(f"{more} added at {at}", sound[:at] + bytes([(byte + more) % 256]) + sound[at + 1 :])
    for length in range(len(sound) + 1):
        yield Lending(f"cut at {length}", sound[:length])


def everything():
    for lists in (to_try, closings, cycles, refused_nodes, towers, long, refusals, refusals_at_once, random, damaged):
        yield from lists()
