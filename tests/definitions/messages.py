"""Messages as RFC 1035 4.1 has them: a header of twelve octets, questions, and three lists of records."""

from collections import namedtuple
from functools import lru_cache

Found = namedtuple("Found", "labels end")
Asked = namedtuple("Asked", "name rtype class_")
Entry = namedtuple("Entry", "owner rtype class_ ttl octets")
Known = namedtuple("Known", "entry says")
Reading = namedtuple("Reading", "header questions answer authority additional")
OptFields = namedtuple("OptFields", "udp_payload_size ext_rcode version flags options")

ONE_NAME = frozenset((2, 3, 4, 5, 7, 8, 9, 12, 39))
# Seven types more have names that may be compressed (RFC 3597 4): how many octets and counted strings stand before them, how many names, and
# whether other octets may stand behind. RP, AFSDB, RT, SIG, PX, NXT, NAPTR.
FORMS = {17: (0, 0, 2, False), 18: (2, 0, 1, False), 21: (2, 0, 1, False), 24: (18, 0, 1, True), 26: (2, 0, 2, False), 30: (0, 0, 1, True),
         35: (4, 3, 1, False)}
UNREAD = object()


def number_at(octets, at, count):
    return int.from_bytes(octets[at:at + count], "big")


def u16_at(octets, at):
    return number_at(octets, at, 2)


def u32_at(octets, at):
    return number_at(octets, at, 4)


# ---- the header (RFC 1035 4.1.1)

def id_of(octets):
    return u16_at(octets, 0)


def flag_of(place, bit, octets):
    return bool(octets[place] & bit)


def qr_of(octets):
    return flag_of(2, 0x80, octets)


def opcode_of(octets):
    return octets[2] >> 3 & 0x0F


def tc_of(octets):
    return flag_of(2, 0x02, octets)


def rd_of(octets):
    return flag_of(2, 0x01, octets)


def ad_of(octets):
    return flag_of(3, 0x20, octets)


def cd_of(octets):
    return flag_of(3, 0x10, octets)


def rcode_of(octets):
    return octets[3] & 0x0F


# ---- names (RFC 1035 4.1.4)

def octet_count(labels):
    return 1 + sum(1 + len(label) for label in labels)


def lowered(labels):
    return tuple(label.lower() for label in labels)


def name_at(octets, at):
    """The name at a place: 255 pointers, 127 labels and the root are 383 steps."""
    labels, end, pointers = [], None, 0
    for _ in range(383):
        if at >= len(octets):
            return None
        head = octets[at]
        if head == 0:
            end = at + 1 if end is None else end
            good = pointers <= 255 and octet_count(labels) <= 255
            return Found(tuple(labels), end) if good else None
        if head < 64:
            if at + 1 + head > len(octets):
                return None
            labels.append(octets[at + 1:at + 1 + head])
            at += 1 + head
        elif head < 192 or at + 1 >= len(octets):
            return None
        else:
            place = (head - 192) * 256 + octets[at + 1]
            if place >= at:
                return None
            end = at + 2 if end is None else end
            pointers += 1
            at = place
    return None


# ---- what the data of a record says by its type

def name_to(octets, at, end):
    name = name_at(octets, at)
    return name.labels if name is not None and name.end == end else None


def are_strings(octets):
    at = 0
    while at < len(octets):
        at += 1 + octets[at]
    return at == len(octets)


def are_options(octets):
    at = 0
    while at < len(octets):
        if at + 4 > len(octets):
            return False
        at += 4 + u16_at(octets, at + 2)
    return at == len(octets)


def minfo_to(octets, at, end):
    first = name_at(octets, at)
    second = None if first is None else name_to(octets, first.end, end)
    return None if second is None else ("Minfo", first.labels, second)


def soa_to(octets, at, end):
    mname = name_at(octets, at)
    rname = None if mname is None else name_at(octets, mname.end)
    if rname is None or rname.end + 20 != end:
        return None
    return ("StartOfAuthority", mname.labels, rname.labels, octets[rname.end:end])


def after_numbers(word, count, octets, at, end):
    """A name behind so many octets of numbers."""
    name = name_to(octets, at + count, end) if at + count <= end else None
    return None if name is None else (word, octets[at:at + count], name)


def named_to(form, octets, at, end):
    """Names between octets. They are no data where no record could hold it with its names spelled out."""
    count, strings, names, has_rest = form
    start, at, found = at, at + count, []
    for _ in range(strings):
        at = at + 1 + octets[at] if at < end else end + 1
    if at > end:
        return None
    before = octets[start:at]
    for _ in range(names):
        name = name_at(octets, at)
        if name is None:
            return None
        found.append(name.labels)
        at = name.end
    if at > end or (at < end and not has_rest):
        return None
    data = ("Named", before, *found, octets[at:end])
    return data if data_size(data) <= 65535 else None


def data_at(rtype, octets, at, end):
    """Data between two places, whose parts fill it exactly; nothing where it isn't read."""
    data = octets[at:end]
    if rtype == 1:
        return ("A", data) if at + 4 == end else None
    if rtype == 28:
        return ("Aaaa", data) if at + 16 == end else None
    if rtype in ONE_NAME:
        name = name_to(octets, at, end)
        return None if name is None else ("One", rtype, name)
    if rtype == 14:
        return minfo_to(octets, at, end)
    if rtype == 15:
        return after_numbers("Mx", 2, octets, at, end)
    if rtype == 6:
        return soa_to(octets, at, end)
    if rtype == 33:
        return after_numbers("Service", 6, octets, at, end)
    if rtype == 16:
        return ("Txt", data) if are_strings(data) else None
    if rtype == 41:
        return ("Opt", data) if are_options(data) else None
    return named_to(FORMS[rtype], octets, at, end) if rtype in FORMS else ("Other", data)


def lowered_data(data):
    return tuple(lowered(part) if isinstance(part, tuple) else part for part in data)


def data_size(data):
    if data[0] == "One":
        return octet_count(data[2])
    return sum(octet_count(part) if isinstance(part, tuple) else len(part) for part in data[1:])


# ---- questions, records, sections

def question_at(octets, at):
    name = name_at(octets, at)
    if name is None or name.end + 4 > len(octets):
        return None
    return Asked(name.labels, u16_at(octets, name.end), u16_at(octets, name.end + 2)), name.end + 4


def record_at(octets, at):
    owner = name_at(octets, at)
    if owner is None or owner.end + 10 > len(octets):
        return None
    rtype, start = u16_at(octets, owner.end), owner.end + 10
    end = start + u16_at(octets, owner.end + 8)
    if end > len(octets):
        return None
    entry = Entry(owner.labels, rtype, u16_at(octets, owner.end + 2), u32_at(octets, owner.end + 4), octets[start:end])
    return Known(entry, data_at(rtype, octets, start, end)), end


def items_at(one, octets, count, at):
    """What a reader meets: each item that is read, `UNREAD` for the first that isn't; and the place behind them."""
    items = []
    for _ in range(count):
        found = one(octets, at)
        if found is None:
            return items + [UNREAD], None
        items.append(found[0])
        at = found[1]
    return items, at


@lru_cache(maxsize=50000)
def sections_of(octets):
    """Four lists of items; a list is nothing where one before it isn't read to its end."""
    if len(octets) < 12:
        return (None,) * 4
    sections, at = [], 12
    for one, place in ((question_at, 4), (record_at, 6), (record_at, 8), (record_at, 10)):
        if at is None:
            sections.append(None)
        else:
            items, at = items_at(one, octets, u16_at(octets, place), at)
            sections.append(items)
    return tuple(sections)


def end_of(octets):
    """The place behind the last record; nothing where that isn't read."""
    at = 12
    for one, place in ((question_at, 4), (record_at, 6), (record_at, 8), (record_at, 10)):
        _, at = items_at(one, octets, u16_at(octets, place), at)
        if at is None:
            return None
    return at


def question_items(octets):
    return sections_of(octets)[0]


def additional_items(octets):
    return sections_of(octets)[3]


def is_all_read(items):
    return items is not None and not (items and items[-1] is UNREAD)


@lru_cache(maxsize=50000)
def reads(octets):
    sections = sections_of(octets)
    return Reading(octets[:4], *sections) if is_all_read(sections[3]) else None


def first_question(octets):
    found = question_at(octets, 12) if u16_at(octets, 4) else None
    return None if found is None else found[0]


def sole_question(octets):
    return first_question(octets) if u16_at(octets, 4) == 1 else None


# ---- the OPT record (RFC 6891 6.1)

def opt_fields(entry):
    return OptFields(entry.class_, entry.ttl >> 24, entry.ttl >> 16 & 0xFF, entry.ttl & 0xFFFF, entry.octets)


def opt_in(known):
    return opt_fields(known.entry) if known.entry.rtype == 41 and known.says is not None else None


def opt_record(octets):
    """Octets that are one OPT record of the root."""
    found = record_at(octets, 0)
    if found is None or found[0].entry.owner or found[1] != len(octets):
        return None
    return opt_in(found[0])


@lru_cache(maxsize=50000)
def opt_of(octets):
    """The first of the additional section, before the first record that can't be read."""
    for item in additional_items(octets) or ():
        if item is UNREAD:
            return None
        if opt_in(item) is not None:
            return opt_in(item)
    return None


def opt_rcode(octets):
    opt = opt_of(octets)
    return 16 * (0 if opt is None else opt.ext_rcode) + rcode_of(octets)


def keepalive_of(octets):
    """The time in the last option 11 of two octets, in microseconds (RFC 7828 3.1)."""
    opt, found, at = opt_of(octets), None, 0
    options = b"" if opt is None else opt.options
    while at + 4 <= len(options):
        code, count = u16_at(options, at), u16_at(options, at + 2)
        if code == 11 and count == 2 and at + 6 <= len(options):
            found = 100000 * u16_at(options, at + 4)
        at += 4 + count
    return found


# ---- answers (RFC 5452 4.2, 9.1)

def same_items(a, b):
    if len(a) != len(b) or not is_all_read(a) or not is_all_read(b):
        return False
    return all(lowered(x.name) == lowered(y.name) and x[1:] == y[1:] for x, y in zip(a, b))


def is_bare(octets):
    return octets[4:12] == bytes(8)


def is_answer(id_, base, octets):
    if not qr_of(octets) or id_of(octets) != id_:
        return False
    if rcode_of(octets) != 0 and is_bare(octets):
        return True
    return u16_at(octets, 4) == u16_at(base, 4) and same_items(question_items(octets), question_items(base))


def truncated(octets):
    return tc_of(octets)
