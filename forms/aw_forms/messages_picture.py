"""A transcript as a sequence diagram: roles as lines, messages as arrows from where they were sent to where they were delivered."""
from __future__ import annotations

from collections import Counter
from dataclasses import dataclass, field

from .places import counted
from .specification import Specification
from .theme import attribute, shortened, style, text_in
from .transcript import Message, Row, Transcript

WIDE, HIGH, TOP, LEFT = 170, 24, 60, 20
WORDS = 74


@dataclass(slots=True)
class Shown:
    """A row of the picture: one event, or some that are folded into a band."""

    rows: list[Row]
    first: int
    quiet: bool = True

    @property
    def is_band(self) -> bool:
        """Whether events are folded."""
        return len(self.rows) > 1


@dataclass(slots=True)
class Picture:
    """The rows of the picture, and on which of them each event is."""

    shown: list[Shown] = field(default_factory=list)
    row_of: dict[int, int] = field(default_factory=dict)


def remarkable(transcript: Transcript, row: Row) -> bool:
    """Whether an event is shown by itself where there are many: choices, calls, and messages that are late or come again."""
    message = transcript.messages.get(row.message) if row.message is not None else None
    return row.kind in ("choice", "call") or row.again or (message is not None and message.overtaken)


def folded(transcript: Transcript, most: int) -> Picture:
    """The rows: all events where they are few, else asks and tells in bands, and where that is not enough the middle in one band."""
    rows = transcript.rows
    pieces = [Shown([row], at) for at, row in enumerate(rows)]
    if len(pieces) > most:
        pieces = []
        for at, row in enumerate(rows):
            quiet = not remarkable(transcript, row)
            if quiet and pieces and pieces[-1].quiet:
                pieces[-1].rows.append(row)
            else:
                pieces.append(Shown([row], at, quiet))
    if len(pieces) > most:
        head, tail = pieces[:most * 2 // 3], pieces[len(pieces) - most // 3:]
        middle = pieces[len(head):len(pieces) - len(tail)]
        pieces = [*head, Shown([row for piece in middle for row in piece.rows], middle[0].first), *tail]
    picture = Picture(pieces)
    for number, piece in enumerate(pieces):
        for at in range(piece.first, piece.first + len(piece.rows)):
            picture.row_of[at] = number
    return picture


def messages_picture(spec: Specification, transcript: Transcript, most: int, theme: str) -> str:
    """The picture as SVG."""
    picture = folded(transcript, most)
    columns = {role: LEFT + WIDE // 2 + WIDE * number for number, role in enumerate(spec.roles)}
    right = LEFT + WIDE * len(spec.roles)
    lost = [message for message in transcript.messages.values() if message.delivered is None]
    high = TOP + HIGH * (len(picture.shown) + 2) + (HIGH * 2 if lost else 0)
    wide = right + 16 + WORDS * 7
    out = ['<svg xmlns="http://www.w3.org/2000/svg" width="%d" height="%d" viewBox="0 0 %d %d" font-size="12" role="img" aria-label=%s>' % (
        wide, high, wide, high, attribute("Messages between %s" % ", ".join(spec.roles))),
        "<title>Messages between the offices</title>", style(theme), '<rect class="paper" width="%d" height="%d"/>' % (wide, high)]
    for role, x in columns.items():
        out.append('<line class="life" x1="%d" y1="%d" x2="%d" y2="%d"/>' % (x, TOP - 16, x, high - HIGH))
        out.append('<rect class="head" x="%d" y="16" width="%d" height="26" rx="5"/><text x="%d" y="33" text-anchor="middle" font-weight="bold">%s</text>' % (
            x - WIDE // 2 + 8, WIDE - 16, x, text_in(shortened(role, 20))))
    for number, piece in enumerate(picture.shown):
        out += band(picture, transcript, columns, number, right) if piece.is_band else one(picture, transcript, columns, number, right)
    out += never_delivered(picture, columns, lost, high, right)
    return "\n".join([*out, "</svg>"]) + "\n"


def height(number: int) -> int:
    """How far down a row is."""
    return TOP + HIGH * number + HIGH // 2


def one(picture: Picture, transcript: Transcript, columns: dict[str, int], number: int, right: int) -> list[str]:
    """A row with one event."""
    row = picture.shown[number].rows[0]
    y, x = height(number), columns.get(row.role, LEFT)
    words = '<text x="%d" y="%d"%s>%s<title>%s</title></text>' % (right + 16, y + 4, ' class="soft"' if row.kind == "ask" else "", text_in(shortened(row_words(transcript, row), WORDS)), text_in(row.words))
    if row.message is None:
        return ['<circle class="%s" cx="%d" cy="%d" r="5"/>' % ("lost" if row.refused else "event", x, y), words]
    message = transcript.messages[row.message]
    return [arrow(columns, message, height(picture.row_of[message.sent]) if not row.again else y, y, row.again), words]


def row_words(transcript: Transcript, row: Row) -> str:
    """What is said of an event."""
    message = transcript.messages.get(row.message) if row.message is not None else None
    late = " (late)" if message is not None and message.overtaken and not row.again else ""
    return row.words + late + (" (again)" if row.again else "")


def arrow(columns: dict[str, int], message: Message, above: int, below: int, again: bool) -> str:
    """The arrow of a message, from where it was sent to where it was delivered."""
    begin, end = columns.get(message.sender, LEFT), columns.get(message.receiver, LEFT)
    side = 1 if end > begin else -1
    kind = "late" if message.overtaken and not again else message.kind
    tip = end - side * 2
    head = "%d,%d %d,%d %d,%d" % (tip, below, tip - side * 9, below - 4, tip - side * 9, below + 4)
    dash = ' stroke-dasharray="3 4"' if again else ' stroke-dasharray="7 4"' if message.kind == "tell" else ""
    label = '<text class="number" x="%d" y="%d" text-anchor="%s" font-size="11">%d</text>' % (tip - side * 14, below - 4, "end" if side > 0 else "start", message.number)
    return '<g class="%s"><line x1="%d" y1="%d" x2="%d" y2="%d" stroke-width="1.5"%s/><polygon points="%s"/>%s<title>%s</title></g>' % (
        kind, begin, above, tip - side * 8, below, dash, head, label, text_in("%d %s %s" % (message.number, message.kind, message.words)))


def band(picture: Picture, transcript: Transcript, columns: dict[str, int], number: int, right: int) -> list[str]:
    """Events that are folded: an arrow for each pair of roles, and how many there are."""
    piece = picture.shown[number]
    y = height(number)
    kinds = Counter(row.kind for row in piece.rows)
    words = "… " + ", ".join(counted(kinds[kind], noun) for kind, noun in (("choice", "choice"), ("call", "call"), ("ask", "ask"), ("tell", "tell")) if kinds[kind])
    pairs = sorted({(message.sender, message.receiver) for row in piece.rows if row.message is not None and (message := transcript.messages.get(row.message))})
    out = ['<rect class="band" x="%d" y="%d" width="%d" height="%d" rx="4"/>' % (LEFT, y - HIGH // 2 + 2, right - LEFT, HIGH - 4)]
    for begin, end in pairs:
        left, to = columns.get(begin, LEFT), columns.get(end, LEFT)
        side = 1 if to > left else -1
        out.append('<g class="ask"><line x1="%d" y1="%d" x2="%d" y2="%d" stroke-width="3"/><polygon points="%d,%d %d,%d %d,%d"/></g>' % (
            left, y + 2 * side, to - side * 10, y + 2 * side, to - side * 2, y + 2 * side, to - side * 11, y + 2 * side - 5, to - side * 11, y + 2 * side + 5))
    out.append('<text class="soft" x="%d" y="%d">%s</text>' % (right + 16, y + 4, text_in(words)))
    return out


def never_delivered(picture: Picture, columns: dict[str, int], lost: list[Message], high: int, right: int) -> list[str]:
    """Messages that nobody delivered: arrows that end before they arrive."""
    out = []
    bottom = high - HIGH - 14
    for number, message in enumerate(lost[:40]):
        begin, end = columns.get(message.sender, LEFT), columns.get(message.receiver, LEFT)
        to = begin + (end - begin) * 3 // 4 + (number % 4 - 2) * 12
        out.append('<g class="%s"><line x1="%d" y1="%d" x2="%d" y2="%d" stroke-width="1.5"/><title>%s</title></g><path class="lost" d="M%d %d l8 8 m0 -8 l-8 8"/>' % (
            message.kind, begin, height(picture.row_of[message.sent]), to, bottom, text_in("%d %s %s" % (message.number, message.kind, message.words)), to - 4, bottom - 4))
    if lost:
        numbers = ", ".join(str(message.number) for message in lost[:12]) + (", .." if len(lost) > 12 else "")
        out.append('<text x="%d" y="%d">%s</text>' % (right + 16, bottom + 4, text_in("never delivered: %s" % numbers)))
    return out
