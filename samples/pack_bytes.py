"""Bytes of tables, packs and sheets, for the scripts that make the samples."""

KINDS = ["top", "flag", "code", "not", "and", "or", "next", "until", "always", "eventually", "in"]


def table(flags, codes, rows):
    """A table; a row is its kind's word (or number) with its halves, those left out being 0."""
    kinds, arguments = bytearray(), bytearray()
    for kind, *halves in rows:
        kinds.append(kind if isinstance(kind, int) else KINDS.index(kind) + 1)
        for half in (halves + [0, 0])[:2]:
            arguments += half.to_bytes(2, "big")
    return len(rows).to_bytes(2, "big") + bytes([flags, codes]) + bytes(kinds) + bytes(arguments)


def pack(rules):
    """A pack of pairs of a label and a table's bytes."""
    out = len(rules).to_bytes(2, "big")
    out += b"".join(label.to_bytes(2, "big") for label, _ in rules)
    out += b"".join(len(bytes_).to_bytes(2, "big") for _, bytes_ in rules)
    return out + b"".join(bytes_ for _, bytes_ in rules)


def sheet(states):
    """A sheet of pairs of a flag word and a list of codes, those left out being 0."""
    out = len(states).to_bytes(2, "big")
    out += b"".join(word.to_bytes(4, "big") for word, _ in states)
    return out + b"".join(bytes(code % 256 for code in (codes + [0, 0, 0, 0])[:4]) for _, codes in states)


def write(path, data):
    with open(path, "wb") as file:
        file.write(data)
