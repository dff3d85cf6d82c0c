"""Requests: a base message, the recorded header and the recorded OPT record; what carries one, and its key."""

from collections import namedtuple
from functools import cached_property

from . import messages as dns
from .messages import Entry, Known, OptFields, UNREAD

Contents = namedtuple("Contents", "questions answer authority additional")
Key = namedtuple("Key", "name rtype class_ flags cd rd")
EMPTY_OPT = OptFields(0, 0, 0, 0, b"")
DO, AD, PLAIN = "Do", "Ad", "Plain"


class Request:
    def __init__(self, base, header, opt):
        self.base, self.header, self.opt = base, header, opt

    def __eq__(self, other):
        return (self.base, self.header, self.opt) == (other.base, other.header, other.opt)

    def __hash__(self):
        return hash((self.base, self.header))

    def with_id(self, id_):
        return Request(self.base, id_.to_bytes(2, "big") + self.header[2:], self.opt)

    def with_payload_size(self, size):
        return Request(self.base, self.header, (self.opt or EMPTY_OPT)._replace(udp_payload_size=size))

    def with_option(self, code, octets):
        opt = self.opt or EMPTY_OPT
        added = code.to_bytes(2, "big") + len(octets).to_bytes(2, "big") + octets
        return Request(self.base, self.header, opt._replace(options=opt.options + added))

    @cached_property
    def base_is_read(self):
        return dns.reads(self.base) is not None

    @cached_property
    def question(self):
        return dns.sole_question(self.base) or dns.Asked((), 0, 0)

    @cached_property
    def is_cacheable(self):
        sole = dns.sole_question(self.base)
        return self.base_is_read and dns.opcode_of(self.header) == 0 and sole is not None and sole.class_ == 1

    @cached_property
    def key(self):
        is_do = self.opt is not None and bool(self.opt.flags & 0x8000)
        flags = DO if is_do else AD if dns.ad_of(self.header) else PLAIN
        q = self.question
        return Key(dns.lowered(q.name), q.rtype, q.class_, flags, dns.cd_of(self.header), dns.rd_of(self.header))

    @cached_property
    def passes_count(self):
        contents = contents_of(self.with_payload_size(1232))
        return contents is not None and has_too_many(contents)

    @cached_property
    def fits(self):
        contents = contents_of(self.with_option(11, b""))
        return contents is not None and size_of(contents) <= 65535

    @cached_property
    def is_valid(self):
        return not is_misformed(self.base) and self.base_is_read and not self.passes_count and self.fits

    @cached_property
    def is_composed(self):
        contents = contents_of(self)
        return contents is not None and not has_too_many(contents)


def is_misformed(base):
    """No question, one that can't be read, or one for a whole zone."""
    first = dns.first_question(base)
    return dns.opcode_of(base) == 0 and (first is None or first.rtype == 252)


def written_from(known):
    return known.entry, ("Other", known.entry.octets) if known.says is None else known.says


def opt_written(opt):
    ttl = opt.ext_rcode << 24 | opt.version << 16 | opt.flags
    return Entry((), 41, opt.udp_payload_size, ttl, opt.options), ("Opt", opt.options)


def contents_of(request):
    """What the message of a request says, if its base is read."""
    sections = dns.sections_of(request.base)
    if not dns.is_all_read(sections[3]):
        return None
    questions, answer, authority, additional = sections
    sent = [written_from(known) for known in additional if known.entry.rtype != 41]
    opts = [] if request.opt is None else [opt_written(request.opt)]
    return Contents(questions, [written_from(x) for x in answer], [written_from(x) for x in authority], sent + opts)


def has_too_many(contents):
    return any(len(section) > 65535 for section in contents)


def size_of(contents):
    """How many octets a message of these contents has, without compression."""
    questions = sum(dns.octet_count(q.name) + 4 for q in contents.questions)
    records = contents.answer + contents.authority + contents.additional
    return 12 + questions + sum(dns.octet_count(entry.owner) + 10 + dns.data_size(data) for entry, data in records)


def data_reads_as(known, content):
    if content[0] in ("Txt", "Opt", "Other"):
        return known.entry.octets == content[1]
    return known.says is not None and dns.lowered_data(known.says) == dns.lowered_data(content)


def reads_as(known, written):
    entry, content = written
    mine = known.entry
    return (dns.lowered(mine.owner) == dns.lowered(entry.owner) and mine[1:4] == entry[1:4]
            and data_reads_as(known, content))


def agree(reading, contents):
    pairs = list(zip(reading[1:], contents))
    if any(len(found) != len(said) for found, said in pairs):
        return False
    questions = all(dns.lowered(a.name) == dns.lowered(b.name) and a[1:] == b[1:] for a, b in zip(*pairs[0]))
    return questions and all(reads_as(known, said) for pair in pairs[1:] for known, said in zip(*pair))


def says_request(octets, request):
    contents, reading = contents_of(request), dns.reads(octets)
    return (contents is not None and reading is not None and reading.header == request.header
            and agree(reading, contents))


def carries(octets, request, id_, size):
    """As it is composed for a datagram: a payload size is announced, if one is set."""
    named = request.with_id(id_)
    return says_request(octets, named if size is None else named.with_payload_size(size))


def carries_in_frame(octets, request, id_):
    rest = octets[2:]
    if len(rest) > 65535 or octets[:2] != len(rest).to_bytes(2, "big") or dns.id_of(rest) != id_:
        return False
    named = request.with_id(id_)
    return says_request(rest, named) or says_request(rest, named.with_option(11, b""))


def carries_by(via, octets, request, id_, size):
    if via == "dgram":
        return carries(octets, request, id_, size) and dns.id_of(octets) == id_
    return carries_in_frame(octets, request, id_)


# ---- what two requests share where one entry may serve both

def is_signing(rtype):
    """RRSIG, NSEC and NSEC3."""
    return rtype in (46, 47, 50)


def flags_cover(first, later):
    return first == DO or (later != DO if first == AD else later == PLAIN)


def keys_cover(q, r):
    return (q.name == r.name and q.rtype == r.rtype and q.class_ == r.class_ and q.cd == r.cd
            and (q.rd or not r.rd) and flags_cover(q.flags, r.flags)
            and (not (q.flags == DO and is_signing(q.rtype)) or r.flags == DO))


def covers(q, r):
    """An answer to q may serve r."""
    return q.is_cacheable and r.is_cacheable and keys_cover(q.key, r.key)
