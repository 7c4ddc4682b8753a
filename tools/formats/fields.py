"""Bytes as hexadecimal digits, and as text where they are text."""

ROW = 16  # bytes of a row
MOST_ROWS = 8  # rows that are shown of one field

CODES = {"EBCDIC": "cp037", "ASCII": "latin-1"}


def hexadecimal(field):
    return bytes(field).hex().upper()


def text_of(field, code):
    """The bytes as text of the code; none where a byte is no letter, digit, sign or space of it."""
    text = bytes(field).decode(CODES[code])
    return text if all(" " <= character <= "~" for character in text) else None


def texts_of(field):
    """The bytes by each code in which they are text."""
    texts = [(code, text_of(field, code)) for code in CODES]
    return [f'{code} "{text}"' for code, text in texts if text is not None]


def dump(name, field):
    """A field with its name: in one line where it is short or all alike, else in rows."""
    field = bytes(field)
    if len(field) > ROW and len(set(field)) == 1:
        return [f"{name} {len(field)} bytes {field[0]:02X}"]
    if len(field) <= ROW:
        return ["  ".join([f"{name} {hexadecimal(field) or 'of no bytes'}"] + (texts_of(field) if field else []))]
    lines = [f"{name}, {len(field)} bytes:"]
    lines += dump_rows(field[: MOST_ROWS * ROW], [code for code in CODES if text_of(field, code) is not None])
    if len(field) > MOST_ROWS * ROW:
        lines.append(f"    and {len(field) - MOST_ROWS * ROW} bytes more")
    return lines


def dump_rows(field, codes):
    for at in range(0, len(field), ROW):
        row = field[at : at + ROW]
        texts = [f'{code} "{text_of(row, code)}"' for code in codes]
        yield "  ".join([f"    {at:4}  {hexadecimal(row):{2 * ROW}}"] + texts).rstrip()
