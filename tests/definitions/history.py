"""What a history tells: each definition over a history is a fold, kept as rows and outs come.

`past` is what happened before the newest row, and what is not called past is what happened up to here, the row's
event and its outs so far included. Moments are in microseconds.
"""

from collections import namedtuple

from . import messages as dns
from .requests import carries_by

BACK_OFF = 64000000
ID_COUNT = 32768

Site = namedtuple("Site", "via server")
Asking = namedtuple("Asking", "request moment")
Sent = namedtuple("Sent", "request id octets moment row")
Written = namedtuple("Written", "request octets moment")
Writing = namedtuple("Writing", "wanted taken was_free takes again")
Try = namedtuple("Try", "place moment")
Came = namedtuple("Came", "request via server place id message agrees")

TELLING = frozenset(("send-failed", "short-send", "recv-failed", "write-failed", "read-failed", "ended"))


class Fold(dict):
    """A value for each key, up to here and before the newest row."""

    def __init__(self):
        super().__init__()
        self.was = {}

    def begin(self):
        self.was.clear()

    def set(self, key, value):
        if key not in self.was:
            self.was[key] = self.get(key)
        self[key] = value

    def past(self, key):
        return self.was[key] if key in self.was else self.get(key)


def is_bad(m):
    return len(m) < 12


def brings(id_, ms):
    return any(not is_bad(m) and dns.id_of(m) == id_ for m in ms)


def first_with(id_, ms):
    """The first frame with that id, where no bad frame stands before it."""
    for m in ms:
        if is_bad(m):
            return None
        if dns.id_of(m) == id_:
            return m
    return None


def last_keepalive(ms, before):
    for m in ms:
        told = None if is_bad(m) else dns.keepalive_of(m)
        before = before if told is None else told
    return before


class History:
    def __init__(self, conf):
        self.conf = conf
        self.read_timeout = conf.transports.dgram_read_timeout
        self.response_timeout = conf.transports.stream_response_timeout
        self.stream_timeout = conf.transports.multi_stream_response_timeout
        self.now, self.row, self.newest = 0, -1, None
        self.asks = 0
        self.asking, self.replied, self.start = Fold(), Fold(), Fold()
        self.site, self.stand = Fold(), Fold()
        self.last_try, self.sends, self.sending = Fold(), Fold(), Fold()
        self.folds = [self.asking, self.replied, self.start, self.site, self.stand, self.last_try, self.sends,
                      self.sending]
        self.untold_here = {}
        self.live_places = set()
        self.waiting_requests, self.invalid = set(), set()
        self.places_of, self.starts_of = {}, {}
        self.sent, self.datagrams, self.reading = {}, {}, {}
        self.past_waiting, self.row_writes = {}, {}
        self.past_writing, self.row_writing = {}, {}
        self.past_quiet, self.opened_here = {}, set()
        self.past_idle, self.past_loose = {}, {}
        self.came_place, self.frames = None, []
        self.closed_here = set()
        self.backed_off = {}
        self.carried, self.answered = {}, {}

    # ---- rows and outs, one after the other

    def begin_row(self, moment, what):
        self.past_asks = self.asks
        for fold in self.folds:
            fold.begin()
        self.row += 1
        self.now = max(self.now, moment)
        self.newest = what
        self.closed_here, self.opened_here, self.untold_here = set(), set(), {}
        self.row_writes, self.row_writing = {}, {}
        self.came_place, self.frames = what.place, self.came(what)
        if what.kind == "ask":
            self.take_ask(what.more)
        elif what.kind in ("opened", "open-failed"):
            self.take_opening(what)
        self.note_full_places()

    def take_ask(self, request):
        k = self.asks
        self.asks += 1
        self.asking.set(k, Asking(request, self.now))
        if not self.replied.get(k):
            self.waiting_requests.add(k)
        if not request.is_valid:
            self.invalid.add(k)

    def take_opening(self, what):
        if self.stand.get(what.place) != "Opening":
            return
        if what.kind == "opened":
            self.stand.set(what.place, "Alive")
            self.opened_here.add(what.place)
        else:
            site = self.site.get(what.place)
            if site.via == "stream":
                self.breaks_off(site.server)
            self.ends(what.place)

    def ends(self, p):
        self.stand.set(p, "Gone")
        self.live_places.discard(p)

    def put(self, out):
        """An out becomes the newest item."""
        if out.kind == "start":
            self.start.set((out.request, out.server, out.via), self.now)
            self.starts_of.setdefault(out.request, set()).add((out.server, out.via))
        elif out.kind in ("open-dgram", "open-stream"):
            self.put_opening(out)
        elif out.kind == "send":
            self.put_send(out)
        elif out.kind == "write":
            self.put_write(out)
        elif out.kind == "close":
            self.put_close(out.place)
        elif out.kind == "reply":
            self.replied.set(out.request, True)
            self.waiting_requests.discard(out.request)
        self.note_full_places()

    def put_opening(self, out):
        p, via, event = out.place, out.kind[5:], self.newest
        if self.stand_untold(p) is None:
            self.untold_here[p] = "Opening"
        if self.stand.get(p) is None:
            told = event.kind if event.place == p else None
            self.stand.set(p, {"opened": "Alive", "open-failed": "Gone"}.get(told, "Opening"))
            if told != "open-failed":
                self.live_places.add(p)
            elif via == "stream":
                self.breaks_off(out.server)
            if told == "opened" and via == "stream":
                self.opened_here.add(p)
        if self.site.get(p) is None:
            self.site.set(p, Site(via, out.server))

    def put_send(self, out):
        p, k, site = out.place, out.request, self.site.get(out.place)
        self.sent.setdefault(p, []).append(Sent(k, out.id, out.octets, self.now, self.row))
        self.places_of.setdefault(k, set()).add(p)
        self.sending.set(p, Try(k, self.now))
        if site is not None and site.via == "dgram":
            self.sends.set((k, site.server), self.sends.get((k, site.server), 0) + 1)
            self.last_try.set((k, site.server), Try(p, self.now))

    def put_write(self, out):
        p, x = out.place, self.writing(out.place)
        self.row_writes.setdefault(p, []).append((out.id, Written(out.request, out.octets, self.now)))
        self.places_of.setdefault(out.request, set()).add(p)
        taken = x.takes if x.was_free and not x.again else 0
        self.row_writing[p] = Writing(len(out.octets), taken, x.was_free, x.takes, True)

    def put_close(self, p):
        site = self.site.get(p)
        if site is not None and site.via == "stream" and p in self.live_places and self.ends_badly(p):
            self.breaks_off(site.server)
        self.closed_here.add(p)
        if self.was_live(p):
            self.untold_here[p] = "Gone"
        if self.stand.get(p) in ("Opening", "Alive"):
            self.ends(p)

    def end_row(self):
        """The row is done, and all its frames count."""
        p = self.came_place
        if self.frames:
            self.past_loose[p] = self.is_loose_end(p)
            self.past_idle[p] = self.idle_with(self.frames, p)
            if self.site.past(p).via == "dgram":
                self.datagrams.setdefault(p, []).append((self.row, self.frames[0]))
        for q in set(self.row_writes) | ({p} if self.frames else set()):
            waiting = self.past_waiting.setdefault(q, {})
            for id_, written in self.row_writes.get(q, ()):
                waiting.setdefault(id_, []).insert(0, written)
            for m in self.came_here(q):
                if not is_bad(m):
                    waiting.pop(dns.id_of(m), None)
        for q in self.opened_here | ({p} if self.frames else set()):
            self.past_quiet[q] = self.now
        for q in set(self.row_writing) | ({p} if self.newest.kind == "wrote" else set()):
            self.past_writing[q] = self.writing(q)[:2]
        self.frames, self.row_writes, self.row_writing = [], {}, {}

    # ---- requests

    def waits(self, k):
        return k in self.asking and not self.replied.get(k)

    def is_asked_here(self, k):
        return self.newest.kind == "ask" and self.past_asks == k

    def started(self, k, s, via):
        return (k, s, via) in self.start

    def started_past(self, k, s, via):
        return self.start.past((k, s, via)) is not None

    def handed(self, k, s):
        return self.started(k, s, "dgram") or self.started(k, s, "stream")

    def answers(self, k, id_, m):
        key = k, id_, m
        if key not in self.answered:
            self.answered[key] = dns.is_answer(id_, self.asking[k].request.base, m)
        return self.answered[key]

    def carries(self, via, k, id_, octets):
        key = via, k, id_, octets
        if key not in self.carried:
            self.carried[key] = carries_by(
                via, octets, self.asking[k].request, id_, self.conf.transports.dgram_udp_payload_size)
        return self.carried[key]

    # ---- places

    def is_at(self, via, s, p):
        return self.site.get(p) == (via, s)

    def stand_untold(self, p):
        """How a place stands, the row's event not counted."""
        return self.untold_here[p] if p in self.untold_here else self.stand.past(p)

    def was_live(self, p):
        return self.stand_untold(p) in ("Opening", "Alive")

    def is_told(self, p):
        what = self.newest
        return what.place == p and (what.kind in TELLING or what.kind == "wrote" and what.more == 0)

    def taken_from(self, s, k):
        """How many datagram places of server s open, or were sent another request than k."""
        def is_taken(p):
            last = self.sending.get(p)
            return self.stand[p] == "Opening" or last is not None and last.place != k
        return sum(self.is_at("dgram", s, p) and is_taken(p) for p in self.live_places)

    def live(self, s):
        return sum(self.is_at("dgram", s, p) for p in self.live_places)

    def demand(self, s):
        return sum(self.started(k, s, "dgram") and not self.started(k, s, "stream") for k in self.waiting_requests)

    # ---- frames

    def came(self, what):
        """What the event brings to its place: a datagram, as far as it is read, or the frames that it completes."""
        p = what.place
        if what.kind not in ("datagram", "bytes") or self.stand.past(p) != "Alive":
            return []
        if self.site.get(p).via == "dgram":
            cut = what.more[:self.conf.transports.dgram_recv_size] if what.kind == "datagram" else b""
            return [cut] if len(cut) >= 12 else []
        if what.kind == "datagram":
            return []
        left, frames = self.reading.get(p, b"") + what.more, []
        while len(left) >= 2 and len(left) >= 2 + dns.u16_at(left, 0):
            end = 2 + dns.u16_at(left, 0)
            frames.append(left[2:end])
            left = left[end:]
        self.reading[p] = left
        return frames

    def came_here(self, p):
        return self.frames if p == self.came_place else []

    def has_bad(self, p):
        return any(is_bad(m) for m in self.came_here(p))

    # ---- writes; `ms` are the frames of the newest row that count

    def waiting_with(self, ms, p, id_):
        if brings(id_, ms):
            return []
        here = [written for i, written in reversed(self.row_writes.get(p, ())) if i == id_]
        return here + self.past_waiting.get(p, {}).get(id_, [])

    def ids_at(self, p):
        return set(self.past_waiting.get(p, ())) | {id_ for id_, _ in self.row_writes.get(p, ())}

    def is_unheld_with(self, ms, p):
        return not any(self.waiting_with(ms, p, id_) for id_ in self.ids_at(p))

    def is_full(self, p):
        """Each of its ids is held, the frames of the row not counted."""
        return len(self.past_waiting.get(p, ())) + len(self.row_writes.get(p, ())) >= ID_COUNT \
            and len(self.ids_at(p)) >= ID_COUNT

    def writing(self, p):
        if p in self.row_writing:
            return self.row_writing[p]
        wanted, taken = self.past_writing.get(p, (0, 0))
        what = self.newest
        takes = what.more if what.kind == "wrote" and what.place == p else 0
        return Writing(wanted, taken + takes, not taken < wanted, takes, False)

    def is_unwritten(self, p):
        x = self.writing(p)
        return x.taken < x.wanted

    def was_unwritten(self, p):
        wanted, taken = self.past_writing.get(p, (0, 0))
        return taken < wanted

    # ---- timers of stream places

    def quiet_with(self, ms, p):
        return self.now if p in self.opened_here or ms else self.past_quiet.get(p, 0)

    def idle_with(self, ms, p):
        return last_keepalive(ms, self.past_idle.get(p, self.conf.transports.stream_idle_timeout))

    def idle_timer_is_due(self, p):
        """Before the row's event, or after some of the frames that came, the later ones not counted."""
        if self.stand.get(p) != "Alive":
            return False
        ms = self.came_here(p)
        return any(self.is_unheld_with(ms[:n], p)
                   and self.quiet_with(ms[:n], p) + self.idle_with(ms[:n], p) <= self.now
                   for n in range(len(ms) + 1))

    def is_loose_end(self, p):
        """The last of the row's frames left the place unwritten, or had an id that nothing held."""
        *before, last = self.frames
        return self.is_unwritten(p) or not self.waiting_with(before, p, dns.id_of(last))

    def read_timer_is_due(self, p):
        """By the rows before, at the moment of this row."""
        t, site = self.now, self.site.past(p)
        if self.stand.past(p) != "Alive" or self.past_quiet.get(p, 0) + self.response_timeout >= t:
            return False
        if self.past_loose.get(p):
            return True
        if any(w.moment + self.response_timeout < t for ws in self.past_waiting.get(p, {}).values() for w in ws):
            return True
        return site.via == "stream" and any(
            self.asking.past(k) is not None and self.started_past(k, site.server, "stream") for k in self.invalid)

    # ---- why requests by stream back off

    def breaks_off(self, s):
        self.backed_off[s] = self.now

    def note_full_places(self):
        if not any(len(self.past_waiting.get(p, ())) + len(self.row_writes.get(p, ())) >= ID_COUNT
                   for p in self.live_places):
            return
        for p in self.live_places:
            if self.stand.get(p) == "Alive" and self.site[p].via == "stream" and self.is_full(p):
                self.breaks_off(self.site[p].server)

    def ends_badly(self, p):
        amid = self.was_unwritten(p) or self.is_unwritten(p)
        return (self.is_told(p) or self.has_bad(p) or self.read_timer_is_due(p)
                or self.idle_timer_is_due(p) and amid)

    # ---- exchanges

    def unanswered(self, p, k, id_, row):
        """What request k was sent as at p under this id, less than the read timeout ago, with no answer since, by rows below `row`."""
        found = []
        for x in self.sent.get(p, ()):
            if x.request != k or x.id != id_ or x.row >= row or self.now >= x.moment + self.read_timeout:
                continue
            later = [m for r, m in self.datagrams.get(p, ()) if x.row < r < row]
            if x.row < self.row < row and self.newest.kind == "datagram":
                later = later + self.came_here(p)
            if not any(self.answers(k, id_, m) for m in later):
                found.append(x.octets)
        return found

    def waited_for(self, via, s, p, k, id_, ms, row):
        """What was sent so and is still waited for."""
        if via == "dgram":
            return self.unanswered(p, k, id_, row)
        start = self.start.get((k, s, "stream"))
        if start is None or self.now >= start + self.stream_timeout:
            return []
        return [w.octets for w in self.waiting_with(ms, p, id_) if w.request == k]

    def is_open_with(self, ms, via, s, p, k, id_, row):
        """The octets that are waited for carry the request."""
        return any(self.carries(via, k, id_, octets) for octets in self.waited_for(via, s, p, k, id_, ms, row))

    def names_at(self, via, p):
        """The requests and ids of what was sent at p."""
        if via == "dgram":
            return {(x.request, x.id) for x in self.sent.get(p, ())}
        return {(w.request, id_) for id_ in self.ids_at(p) for w in self.waiting_with([], p, id_)}

    def comes(self):
        """Each message that comes for a request on its exchange in this row, up to here."""
        if not self.frames:
            return []
        p, found = self.came_place, []
        via, s = self.site.past(p)
        if s >= len(self.conf.servers):
            return []
        for k, id_ in sorted(self.names_at(via, p)):
            m = self.frames[0] if via == "dgram" else first_with(id_, self.frames)
            if m is None or self.asking.past(k) is None or self.replied.past(k):
                continue
            if self.is_open_with([], via, s, p, k, id_, self.row):
                found.append(Came(k, via, s, p, id_, m, self.answers(k, id_, m)))
        return found

    def matching(self):
        """Those that answer their request and, by datagram, have TC clear."""
        return [x for x in self.comes() if x.agrees and (x.via == "stream" or not dns.truncated(x.message))]

    def is_excused(self, p):
        """Its place, a stream place, was closed in this row, by here, and its read timer made that due."""
        return p in self.closed_here and self.read_timer_is_due(p) and self.site[p].via == "stream"

    def is_left_open(self, k, s):
        """Some exchange of request k at server s is open when the row is done."""
        if k not in self.asking or self.replied.get(k) or s >= len(self.conf.servers):
            return False
        for p in self.places_of.get(k, ()):
            site = self.site.get(p)
            if self.stand.get(p) != "Alive" or site.server != s:
                continue
            if any(j == k and self.is_open_with(self.came_here(p), site.via, s, p, k, id_, self.row + 1)
                   for j, id_ in self.names_at(site.via, p)):
                return True
        return False

    def is_owed(self, k, s):
        """Request k was sent at a place of server s, no answer came since, and it is waited for."""
        if k not in self.asking:
            return False
        for p in self.places_of.get(k, ()):
            site = self.site.get(p)
            if site is None or site.server != s:
                continue
            if self.stand.get(p) != "Alive" and (self.stand.past(p) != "Alive" or self.is_told(p)):
                continue
            if any(j == k and self.is_open_with(self.came_here(p), site.via, s, p, k, id_, self.row + 1)
                   for j, id_ in self.names_at(site.via, p)):
                return True
        return False

    def all_are_done(self, k):
        """Every server has the request, and none owes it an answer."""
        return all(self.handed(k, s) and not self.is_owed(k, s) for s in range(len(self.conf.servers)))
