"""The bytes of the journal, put together from what docs/FORMATS.md says of them: sides, records and their fields."""

# What a side begins with after its gate, but for the generation.
MARK = b"WFSJNL\1"
# The signature of the demonstration's schema (docs/FORMATS.md, The schema file).
SIGNATURE = b"Mark(label:text,size:integer,place:point);Field(name:text,area:polygon);Way(course:line);"
# No type gets a number above this, and no opening has one.
LAST_OF_ALL = 1_000_000_000_000
# The greatest length of a side.
LONGEST_SIDE = 268_435_456


def number(value: int, length: int = 4) -> bytes:
    """A number as the journal has it: its bytes, the greatest first."""
    return value.to_bytes(length, "big", signed=value < 0)


def counted(items) -> bytes:
    """How many there are, and they themselves."""
    return number(len(items)) + b"".join(items)


def text(content) -> bytes:
    content = content.encode() if isinstance(content, str) else content
    return number(len(content)) + content


# ---- sides


def head(generation: int = 1, gate: bytes = b"\1") -> bytes:
    """What stands before the records."""
    return gate + MARK + number(generation, 8)


def record(body: bytes, gate: bytes = b"\1") -> bytes:
    return gate + text(body)


def side(*bodies: bytes, generation: int = 1, gate: bytes = b"\1", end: bytes = b"\0") -> bytes:
    """A side with these records, all of which count, and the gate that ends them."""
    return head(generation, gate) + b"".join(map(record, bodies)) + end


# ---- bodies


def opening(which: int, signature: bytes = SIGNATURE) -> bytes:
    return b"\1" + number(which, 8) + text(signature)


def put(*parts: bytes) -> bytes:
    """A change of features."""
    return b"\2" + counted(parts)


def created(*queries: bytes) -> bytes:
    return b"\3" + counted(queries)


def dropped(name: str) -> bytes:
    return b"\4" + text(name)


def base(which: int, *counters: int) -> bytes:
    """What a checkpoint begins with: the last opening, and the numbers given of each type."""
    return b"\5" + number(which, 8) + number(len(counters), 2) + b"".join(number(it, 8) for it in counters)


# ---- parts, values and stored queries


def part(kind: int, which: int, *values: bytes) -> bytes:
    """A feature that is put: its type, its number and its values."""
    return b"\1" + number(kind, 2) + number(which, 8) + number(len(values), 2) + b"".join(values)


def removed(kind: int, which: int) -> bytes:
    return b"\2" + number(kind, 2) + number(which, 8)


NULL, TRUE, FALSE = b"\0", b"\3\1", b"\3\0"


def words(content) -> bytes:
    return b"\1" + text(content)


def whole(value: int) -> bytes:
    return b"\2" + number(value, 8)


def position(at: tuple) -> bytes:
    return number(at[0]) + number(at[1])


def point(x: int, y: int) -> bytes:
    return b"\4" + position((x, y))


def line(*places: tuple) -> bytes:
    return b"\5" + counted([position(it) for it in places])


def polygon(*rings: list) -> bytes:
    return b"\6" + counted([counted([position(it) for it in ring]) for ring in rings])


def put_mark(which: int, label, size: bytes = NULL, place: bytes = NULL) -> bytes:
    """The part that puts a mark, where nothing else is said with a label alone."""
    return part(0, which, words(label), size, place)


def query(name: str, title: str, parameters: list, content: str) -> bytes:
    """A stored query."""
    return text(name) + text(title) + counted([text(it) for it in parameters]) + text(content)
