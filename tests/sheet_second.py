"""A second reader and writer of comma-separated text (§18), for tests/sheet.py. A line is split off first and then looked at; the
proved one goes byte by byte. Nothing of it is taken from the proved one."""
MARKS = {"BD": [2, 2, 1, 4], "ST": [1, 0, 0], "CM": [1, 0, 0], "AB": [1, 0, 0], "WT": [1, 0, 0], "SP": [1, 0, 0],
         "RD": [1, 2, 0], "WR": [1, 2, 4]}
MOST_BYTES = 60_000



def split_line(text, at):
    """The fields of the line that begins there, and where the next one begins; no fields if the line is not RFC 4180's."""
    fields = []
    while True:
        if text[at:at + 1] == b'"':
            content, at = b"", at + 1
            while True:
                end = text.find(b'"', at)
                if end < 0:
                    return None, at
                content, at = content + text[at:end], end + 1
                if text[at:at + 1] != b'"':
                    break
                content, at = content + b'"', at + 1
        else:
            end = at
            while end < len(text) and text[end] not in b'",\r\n':
                end += 1
            content, at = text[at:end], end
        fields.append(content)
        if at == len(text):
            return fields, at
        if text[at:at + 2] == b"\r\n":
            return fields, at + 2
        if text[at:at + 1] != b",":
            return None, at
        at += 1


def record(fields):
    """The number of a line, and the bytes of its record."""
    mark = fields[0].decode("latin-1")
    if mark not in MARKS:
        return 33, b""
    widths, numbers = MARKS[mark], fields[1:]
    if len(numbers) != len(widths):
        return 31, b""
    made = fields[0]
    for width, field in zip(widths, numbers):
        if width == 0:
            if field:
                return 32, b""
            continue
        if not field or any(byte not in b"0123456789" for byte in field):
            return 32, b""
        digits = field.lstrip(b"0")
        if len(digits) > 10 or int(digits or b"0") >= 256**width:
            return 32, b""
        made += int(digits or b"0").to_bytes(width, "little")
    return 0, made


def read(text, room):
    """The number, the session and the count of good lines."""
    made, lines, at = b"", 0, 0
    while at < len(text):
        fields, at = split_line(text, at)
        number, more = (30, b"") if fields is None else record(fields)
        if number == 0 and len(made) + len(more) > MOST_BYTES:
            number = 34
        if number:
            return number, b"", lines
        made, lines = made + more, lines + 1
    return (35, b"", lines) if room < len(made) else (0, made, lines)


def write(session, room):
    """The number, the text and the count of good records."""
    if len(session) > MOST_BYTES:
        return 14, b"", 0
    text, records, at = b"", 0, 0
    while at < len(session) or records == 0:
        mark = session[at:at + 2].decode("latin-1")
        if len(mark) < 2:
            return 11, b"", records
        if mark not in MARKS:
            return 10, b"", records
        if (mark == "BD") != (records == 0):
            return 12, b"", records
        at += 2
        fields = [mark]
        for width in MARKS[mark]:
            if len(session) < at + width:
                return 11, b"", records
            fields.append(str(int.from_bytes(session[at:at + width], "little")) if width else "")
            at += width
        text, records = text + ",".join(fields).encode() + b"\r\n", records + 1
    return (35, b"", records) if room < len(text) else (0, text, records)
