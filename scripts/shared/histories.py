"""The histories of stations: folders of chapters, and what their rows say that peers were told."""

import bisect
import hashlib
import pathlib
import shutil
import typing

from shared.checks import Failed
from shared.running import run
from shared.station import (
    ACKNOWLEDGE, CLEAR, CLOSE_SHIFT, DISPENSER, FLOW, HANG_UP, LIFT, LOCK, NOTICE, OPEN, PREPAY,
    READ, RELEASE, RESULT, SIGN_OFF, SITE_ADDRESS, SUSPEND, TERMINATE, TEST_RELEASE, TILL, WRITE,
    ask_site, command_point, command_sale, decode, report, sign_on,
)  # fmt: skip

FIRST_LINES = 3  # of a chapter
NO_SEAL = "0" * 64  # what the first chapter is after
SITE_FILE, LOCK_FILE = "site.toml", "lock"  # in the folder of a history
ACCEPTED, WRONG_STATE, NO_MEMORY, DETAIL = 0, 10, 31, 2
RELEASES = (RELEASE, PREPAY, TEST_RELEASE)
MOST_ROWS = 1_000_000  # of a replay


def first_lines(site, number=1, after=NO_SEAL):
    """The first lines of a chapter of this site file, each with its line feed: of the first one,
    or of one with this number after this seal."""
    name = hashlib.sha256(site.read_bytes()).hexdigest()
    text = f"# witsomar history 1 chapter {number}\n# site {name}\n# after {after}\n"
    return text.encode()


def retitle(text, site):
    """The first chapter of a history, or all of its chapters as one text, as the first chapter of
    another site file: without seals, and without the first lines of later chapters."""
    lines = text.splitlines(keepends=True)
    kept = [line for line in lines if not line.startswith(b"#")]
    return first_lines(site) + b"".join(kept)


def count_rows(text):
    """The whole lines of chapters that are rows' requests."""
    lines = whole_lines(text).splitlines()
    return sum(not line.startswith(b"#") for line in lines)


# ---- folders


def chapter_path(folder, number=1):
    """The file of the chapter of this number."""
    return pathlib.Path(folder) / f"{number:06d}.journal"


def list_chapters(folder):
    """The files of a history's chapters, in order."""
    return sorted(pathlib.Path(folder).glob("[0-9]*.journal"))


def read_chapters(folder):
    """The texts of a history's chapters, one after the other."""
    return b"".join(path.read_bytes() for path in list_chapters(folder))


def find_last_seal(folder):
    """The last seal that a history's chapters have; without one what the first chapter is after."""
    lines = whole_lines(read_chapters(folder)).decode().splitlines()
    return [NO_SEAL, *(line[7:] for line in lines if line.startswith("# seal "))][-1]


def write_history(folder, site, *texts):
    """Makes the folder of a history of this site file, whose chapters have these texts. What was
    in the folder before is removed."""
    folder = pathlib.Path(folder)
    shutil.rmtree(folder, ignore_errors=True)
    folder.mkdir()
    shutil.copyfile(site, folder / SITE_FILE)
    for number, text in enumerate(texts, 1):
        chapter_path(folder, number).write_bytes(text)
    return folder


def seal_of(before, covered):
    """The seal after the seal `before`, in digits, that covers these octets."""
    return hashlib.sha256(before.encode() + covered).hexdigest()


def seal_line(seal):
    return f"# seal {seal}\n".encode()


def write_chapters(site, *bodies):
    """The texts of the chapters whose lines of rows are these: each one is sealed but for the last,
    and begins after the seal of the one before it."""
    texts, seal = [], NO_SEAL
    for number, body in enumerate(bodies, 1):
        covered = first_lines(site, number, seal) + body
        is_last = number == len(bodies)
        seal = seal_of(seal, covered)
        texts.append(covered if is_last else covered + seal_line(seal))
    return texts


def write_sales_form(points):
    """The rows of a sale of a litre at each of these points, with places for the meters' readings
    before and after it, and for its number in its shift."""
    before, after, number, rows = 0x1111111111111111, 0x2222222222222222, 7777, []
    for point in points:
        rows += [
            command_point(1, 0, point, RELEASE),
            report(point, 0, LIFT, before),
            report(point, 0, FLOW, after),
            report(point, 0, HANG_UP, after),
            command_sale(1, 0, point, number, LOCK),
            command_sale(1, 0, point, number, CLEAR),
        ]
    form = write_rows(*rows).replace(b"%x" % before, b"%(before)016x")
    return form.replace(b"%x" % after, b"%(after)016x").replace(b"%d" % number, b"%(number)04d")


def write_year(folder, site, days, rounds):
    """Makes the folder of a history of this site file, whose points are 1 to 5. Its chapters are
    days, of so many rounds of sales at each point, after which a shift is closed. Returns how many
    rows it has. Chapters are made one after the other, since a program's peak of memory is never
    below that of the script that starts it."""
    folder, points, seal = write_history(folder, site), range(1, 6), NO_SEAL
    form, closing = write_sales_form(points), write_rows(ask_site(1, CLOSE_SHIFT))
    opening = write_rows(sign_on(1), *(command_point(1, 0, point, OPEN) for point in points))
    for day in range(days):
        parts = [first_lines(site, day + 1, seal), b"" if day else opening]
        for number in range(1, rounds + 1):
            litres = day * rounds + number
            readings = {b"before": (litres - 1) * 1_000, b"after": litres * 1_000}
            parts.append(form % {**readings, b"number": number})
        covered = b"".join([*parts, closing])
        seal = seal_of(seal, covered)
        sealed = covered + seal_line(seal) if day + 1 < days else covered
        chapter_path(folder, day + 1).write_bytes(sealed)
    return opening.count(b"\n") + days * (rounds * form.count(b"\n") + 1)


def without_marks(text):
    """A text of chapters without the lines of times and of seals."""
    lines = text.splitlines(keepends=True)
    return b"".join(line for line in lines if not line.startswith((b"# at ", b"# seal ")))


class Seals(typing.NamedTuple):
    """What is found in sealed chapters: how many seals, and the last one."""

    count: int
    last: str


def check_chapters(site, texts):
    """The chapters go on from each other: first lines, seals, and a seal as each one's last line
    but that of the open chapter. Seals are computed here. Returns what was found."""
    seal, count = NO_SEAL, 0
    for number, text in enumerate(texts, 1):
        first = first_lines(site, number, seal)
        if not text.startswith(first):
            raise Failed(f"chapter {number} begins with {text[:200]}, wanted {first}")
        covered, is_sealed = [], False
        for line in text.splitlines(keepends=True):
            is_sealed = line.startswith(b"# seal ")
            if is_sealed:
                seal, covered, count = seal_of(seal, b"".join(covered)), [], count + 1
                if line != seal_line(seal):
                    raise Failed(f"chapter {number}: {line}, wanted the seal {seal}")
            else:
                covered.append(line)
        if number < len(texts) and not is_sealed:
            raise Failed(f"chapter {number} doesn't end with a seal")
    return Seals(count, seal)


# ---- rows

def time_line(time):
    """The line that says at what time the rows below it were."""
    return f"# at {time}\n".encode()


def write_rows(*requests):
    """The lines of a chapter for these requests, whatever their tokens are."""
    return b"".join(without_token(one).hex().encode() + b"\n" for one in requests)


def without_token(octets):
    """The octets of a message with token 0."""
    return octets[:5] + bytes([octets[5] & 0xE0]) + octets[6:]


def whole_lines(text):
    """The lines that have their line feed."""
    return text[: text.rfind(b"\n") + 1]


def split_messages(octets):
    """The whole messages that the octets begin with, each as its octets, with token 0; what is
    left of one that is cut isn't told."""
    messages = []
    while len(octets) >= 8:
        size = 8 + int.from_bytes(octets[6:8], "big")
        if len(octets) < size:
            break
        messages.append(without_token(octets[:size]))
        octets = octets[size:]
    return messages


def is_notice(octets):
    return octets[5] >> 5 == NOTICE


def is_read(octets):
    """Whether it is a request that only reads: its row isn't kept."""
    return octets[5] >> 5 == READ


def database(octets):
    """The octet that names the site, a product or a point, of which the request is."""
    return octets[9]


def read_items(octets):
    return decode(octets)[0].items


def tells_of_a_row(octets):
    """Whether it isn't the answer that there was no memory for a row."""
    return octets[5] >> 5 != ACKNOWLEDGE or read_items(octets)[RESULT][0] != NO_MEMORY


class Row(typing.NamedTuple):
    """A row of a history: its request, its reply, and the notice of its change if it is one."""

    request: bytes
    reply: bytes
    notice: bytes | None

    @property
    def node(self):
        return tuple(self.request[2:4])

    @property
    def is_accepted(self):
        return self.reply[5] >> 5 != ACKNOWLEDGE or read_items(self.reply)[RESULT][0] == ACCEPTED


def read_rows(program, site, text):
    """The rows of a history's text, as the replay makes them."""
    lines = [line for line in text.splitlines() if not line.startswith(b"#")]
    requests = [bytes.fromhex(line.decode()) for line in lines]
    end = run(program, "replay", site, "--changes", given=text)
    if (end.status, end.err) != (0, ""):
        raise Failed(f"the history isn't replayed: status {end.status}, {end.err}")
    rows = []
    for line in end.out.splitlines():
        told = bytes.fromhex(line.decode())
        if is_notice(told):
            rows[-1] = rows[-1]._replace(notice=told)
        else:
            rows.append(Row(requests[len(rows)], told, None))
    if len(rows) != len(requests):
        raise Failed(f"{len(requests)} rows have {len(rows)} replies")
    return rows


def is_sign_off(row):
    """Whether the row is that of a till that was signed on and is signed off."""
    message = decode(row.request)[0]
    return message.kind == WRITE and SIGN_OFF in message.items and row.is_accepted


# ---- who was told what


class Session(typing.NamedTuple):
    """A session of a peer: what it sent, request by request, and what came, message by message,
    all with token 0."""

    sent: list
    came: list

    @property
    def replies(self):
        return [one for one in self.came if not is_notice(one)]

    def without_reads(self):
        """The session without reads, and without what they were answered."""
        asked, came = iter(self.sent), []
        for one in self.came:
            if is_notice(one):
                came.append(one)
                continue
            request = next(asked, None)
            if request is None:
                raise Failed(f"a reply to no request: {one.hex()}")
            if not is_read(request):
                came.append(one)
        return Session([one for one in self.sent if not is_read(one)], came)

    def answered_reads(self):
        """Each read whose reply came: how many other requests were sent before it, the read, and
        its reply."""
        count, found = 0, []
        for request, reply in zip(self.sent, self.replies):
            if is_read(request):
                found.append((count, request, reply))
            else:
                count += 1
        return found


class Look(typing.NamedTuple):
    """A read, its reply, and how many rows may stand before it: the numbers from which on the
    reply may be another one, in order, and the last number."""

    request: bytes
    reply: bytes
    fronts: list
    last: int

    def next_place(self, replies, begin):
        """How many rows may stand before it at least, from so many on, if the replies are these;
        None where it would have another reply everywhere."""
        for front, end in zip(self.fronts, [*self.fronts[1:], self.last + 1]):
            if begin < end and replies[front, self.request] == self.reply:
                return max(front, begin)
        return None


class Told:
    """What peers may have been told, by a history's rows. `looks` has, of each session that was
    explained, the looks of each place at which its rows may begin."""

    def __init__(self, rows):
        self.rows, self.own, self.changes, self.addressed, self.looks = rows, {}, {}, {}, []
        for place, row in enumerate(rows):
            self.own.setdefault(row.node, []).append(place)
            self.addressed.setdefault(database(row.request), []).append(place)
            if row.notice:
                node = tuple(row.notice[:2])
                self.changes.setdefault(node, ([], []))
                self.changes[node][0].append(place)
                self.changes[node][1].append(row.notice)

    def places(self, node, begin, end):
        """The places of a node's rows from one place to another."""
        own = self.own.get(node, [])
        return own[bisect.bisect_left(own, begin) : bisect.bisect_left(own, end)]

    def notices(self, node, begin, end):
        """The changes of the dispenser's point from one place to another, with their places."""
        places, notices = self.changes.get(node, ([], []))
        span = slice(bisect.bisect_left(places, begin), bisect.bisect_left(places, end))
        return list(zip(places[span], notices[span]))

    def standing(self, node, place):
        """What stands at a dispenser's point behind the row at this place, which is its own
        Online: where that is refused, its detail is the point's state."""
        if self.rows[place].is_accepted:
            return []
        items = read_items(self.rows[place].reply)
        if items[RESULT][0] != WRONG_STATE:
            raise Failed(f"an Online is refused otherwise: {self.rows[place].reply.hex()}")
        state = int.from_bytes(items[DETAIL], "big")
        wanted = [(OPEN,)] if 3 <= state <= 9 else []
        wanted += [RELEASES] if 5 <= state <= 9 else []
        wanted += [(SUSPEND, TERMINATE)] if state in (7, 9) else []
        before = [notice for _, notice in reversed(self.notices(node, 0, place))]
        return [next((one for one in before if one[10] in kinds), b"") for kinds in wanted]

    def stream(self, node, places, end):
        """What a session is told whose rows are at these places, and which has ended before the
        row at the place `end`."""
        if not places:
            return []
        replies = [(place, self.rows[place].reply) for place in places]
        if node[0] != DISPENSER:
            return [reply for _, reply in replies]
        later = sorted(replies[1:] + self.notices(node, places[0], end))
        return [replies[0][1], *self.standing(node, places[0]), *(one for _, one in later)]

    def goes_on(self, node, session, own, begin, end):
        """Where this session's rows may end among its node's own, if they begin at one of these:
        each reply that came is that of its row, in order, and the notices come where they have
        to. Rows whose replies didn't come may follow, of what was sent behind those."""
        count = len(session.replies)
        if begin + count > len(own):
            return set()
        mine = own[begin : begin + count]
        if [self.rows[place].request for place in mine] != session.sent[:count]:
            return set()
        if self.stream(node, mine, end)[: len(session.came)] != session.came:
            return set()
        ends, at = {begin + count}, begin + count
        for request in session.sent[count:]:
            if at == len(own) or self.rows[own[at]].request != request:
                break
            at += 1
            ends.add(at)
        return ends

    def find_looks(self, session, own, at, begin, end):
        """The looks of a session whose rows begin at this one of its node's own, `own`, which are
        those from one place to another. A read stands behind the row of the request before it,
        and before its node's next row; rows of other peers may stand on either side of it. Its
        reply may change at rows of its own point, and at those of the site alone; that to a read of
        the site at any row, as it tells what was cleared."""
        looks, bounds = [], [begin - 1, *own, end]
        for count, request, reply in session.answered_reads():
            first, last = bounds[at + count] + 1, bounds[at + count + 1]
            fronts = {first}
            if database(request) == SITE_ADDRESS[0]:
                fronts.update(range(first, last + 1))
            for address in (database(request), SITE_ADDRESS[0]):
                places = self.addressed.get(address, [])
                span = slice(bisect.bisect_left(places, first), bisect.bisect_left(places, last))
                fronts.update(place + 1 for place in places[span])
            looks.append(Look(request, reply, sorted(fronts), last))
        return looks

    def leaves(self, node, own, begins):
        """Behind a session its till may have been signed off."""
        if node[0] != TILL:
            return begins
        return begins | {
            at + 1 for at in begins if at < len(own) and is_sign_off(self.rows[own[at]])
        }

    def explain(self, node, sessions, begin, end):
        """Why these sessions of a node, one after the other, can't have made just its rows from
        one place to another, if they can't: None where all is well."""
        own = self.places(node, begin, end)
        cursors = self.leaves(node, own, {0})
        for number, whole in enumerate(sessions, 1):
            session = whole.without_reads()
            ends = {at: self.goes_on(node, session, own, at, end) for at in cursors}
            before, cursors = cursors, self.leaves(node, own, set().union(*ends.values()))
            begins = [at for at, found in ends.items() if found]
            self.looks.append([self.find_looks(whole, own, at, begin, end) for at in begins])
            if not cursors:
                came = " ".join(one.hex() for one in session.came[:20])
                return (
                    f"session {number} of {len(sessions)} of node {node}: {len(session.sent)} sent,"
                    f" {len(session.replies)} replies; no row at {sorted(before)} of its"
                    f" {len(own)} goes on with {came}"
                )
        # A start that was killed may have signed the till off again.
        cursors = self.leaves(node, own, cursors)
        if len(own) not in cursors:
            return f"node {node}: {len(own)} rows, of which its sessions made {sorted(cursors)}"
        return None


def answer_reads(program, site, rows, asked):
    """What a replay of the rows answers to these reads, each where so many rows stand before it:
    the replies by (how many, read)."""
    requests, asked, replies = [row.request for row in rows], sorted(asked), {}
    room = MOST_ROWS - len(rows)
    for begin in range(0, len(asked), room):
        messages, done = [], 0
        for front, read in asked[begin : begin + room]:
            messages += [*requests[done:front], read]
            done = front
        text = b"".join(one.hex().encode() + b"\n" for one in messages)
        told = run(program, "replay", site, given=text).out.splitlines()
        if len(told) != len(messages):
            raise Failed(f"{len(messages)} rows and reads have {len(told)} replies")
        for place, one in enumerate(asked[begin : begin + room]):
            replies[one] = bytes.fromhex(told[one[0] + place].decode())
    return replies


def find_wrong(looks, replies):
    """The first of a session's looks that has no place behind the one before it."""
    place = 0
    for look in looks:
        place = look.next_place(replies, place)
        if place is None:
            return look
    return None


def expect_looks(program, site, told):
    """Each read of the sessions that were explained has the reply that a replay of the rows gives
    to it at one of the places where it may stand (find_looks), in the order in which its session
    sent them. Returns how many reads that are."""
    looks = [look for begins in told.looks for each in begins for look in each]
    asked = {(front, look.request) for look in looks for front in look.fronts}
    replies = answer_reads(program, site, told.rows, asked)
    for begins in told.looks:
        wrong = [find_wrong(each, replies) for each in begins]
        if all(wrong):
            one = wrong[0]
            raise Failed(
                f"the read {one.request.hex()} behind {one.fronts[0]} to {one.last} rows is"
                f" answered by {one.reply.hex()}, which a replay doesn't"
            )
    return sum(len(begins[0]) for begins in told.looks)


def find_untold(rows, node, came, begin=0):
    """The first message that this node, whose one session has all its rows from this place on,
    can't have been told by these rows; None where there is none. Where no memory was there for a
    row, none is told of: a dispenser whose first request has none may be told any change."""
    told = Told(rows)
    own = told.places(node, begin, len(rows))
    wanted = told.stream(node, own, len(rows)) or [
        notice for _, notice in told.notices(node, begin, len(rows))
    ]
    got = [one for one in split_messages(came) if tells_of_a_row(one)]
    for one, other in zip(got, [*wanted, *[None] * len(got)]):
        if one != other:
            return one
    return None
