"""Channel commands, statuses and sense bytes by name, and arguments and data cut into their fields."""

from dataclasses import dataclass

from .fields import dump, hexadecimal

MULTI_TRACK = 0x80


@dataclass(frozen=True)
class Command:
    name: str
    least: int  # the least length of its argument, in bytes
    fields: str = ""  # how its argument is cut
    gives: str = ""  # how its data are cut
    has_multi_track: bool = False


COMMANDS = {
    0x03: Command("no-op", 0),
    0x04: Command("sense", 0, gives="sense"),
    0x07: Command("seek", 6, "seek"),
    0x0B: Command("seek cylinder", 6, "seek"),
    0x1B: Command("seek head", 6, "head"),
    0x13: Command("recalibrate", 0),
    0x1F: Command("set file mask", 1, "mask"),
    0x23: Command("set sector", 1, "sector"),
    0x39: Command("search home address equal", 4, "place", has_multi_track=True),
    0x31: Command("search ID equal", 5, "ID", has_multi_track=True),
    0x51: Command("search ID high", 5, "ID", has_multi_track=True),
    0x71: Command("search ID equal or high", 5, "ID", has_multi_track=True),
    0x29: Command("search key equal", 1, "key", has_multi_track=True),
    0x49: Command("search key high", 1, "key", has_multi_track=True),
    0x69: Command("search key equal or high", 1, "key", has_multi_track=True),
    0x06: Command("read data", 0, gives="data", has_multi_track=True),
    0x0E: Command("read key data", 0, gives="key and data", has_multi_track=True),
    0x1E: Command("read count key data", 0, gives="record", has_multi_track=True),
    0x12: Command("read count", 0, gives="count", has_multi_track=True),
    0x16: Command("read R0", 0, gives="record", has_multi_track=True),
    0x1A: Command("read home address", 0, gives="home address", has_multi_track=True),
    0x05: Command("write data", 0, "data"),
    0x0D: Command("write key data", 0, "key and data"),
    0x1D: Command("write count key data", 8, "record"),
}

STATUS_BITS = {
    0x40: "status modifier",
    0x08: "channel end",
    0x04: "device end",
    0x02: "unit check",
    0x01: "unit exception",
}

STATUSES = {
    0x0C: "done",
    0x4C: "done, and the search is met",
    0x0D: "done, and the record has no data (end of file); the chain ends",
    0x0E: "not done, or not to its end; the chain ends, and the sense tells why",
}

SENSES = {
    (0x80, 0x00, 0x00): "command reject",
    (0x40, 0x00, 0x00): "intervention required: no volume is mounted",
    (0x10, 0x00, 0x00): "equipment check: a device failed below the command",
    (0x00, 0x40, 0x00): "invalid track format: the track has no room for the new record",
    (0x00, 0x20, 0x00): "end of cylinder",
    (0x00, 0x08, 0x00): "no record found",
    (0x00, 0x04, 0x00): "file protected: the mask forbids the seek, or the next head",
    (0x40, 0x00, 0x01): "no space: no frame for the command's page",
    (0x00, 0x00, 0x00): "nothing to tell",
}

WRITES_BY_MASK = {
    0x00: "all writes",
    0x40: "no writes",
    0x80: "writes but for write count key data",
    0xC0: "all writes",
}

SEEKS_BY_MASK = {
    0x00: "all seeks",
    0x08: "seek cylinder and seek head alone",
    0x10: "seek head alone",
    0x18: "no seeks, and no passing to the next head",
}


# The bytes that a command's data have at least.
LEAST_DATA = {"sense": 24, "count": 8, "record": 8, "home address": 5}


def command_of(code):
    """The command of a code and whether it is multi-track; no command for a code that is none."""
    if code in COMMANDS:
        return COMMANDS[code], False
    command = COMMANDS.get(code ^ MULTI_TRACK)
    if command is not None and command.has_multi_track:
        return command, True
    return None, False


def command_name(code):
    command, is_multi_track = command_of(code)
    if command is None:
        return "no command"
    return command.name + (", multi-track" if is_multi_track else "")


def status_words(status):
    """The bits of a unit status, and what they mean together."""
    bits = ", ".join(name for bit, name in STATUS_BITS.items() if status & bit)
    return f"{bits}: {STATUSES.get(status, 'no status of this machine')}"


def sense_words(sense):
    return SENSES.get(tuple(sense[:3]), "no sense of this machine")


def number(field):
    return int.from_bytes(field, "big")


def place_words(field):
    """CC CC HH HH."""
    return f"cylinder {number(field[:2])}, head {number(field[2:4])}"


def id_words(field):
    """CC CC HH HH R."""
    return f"{place_words(field)}, record {field[4]}"


def argument_lines(code, argument):
    """A command's argument, field by field."""
    command, _ = command_of(code)
    if command is None:
        return dump("argument", argument) if argument else []
    if len(argument) < command.least:
        short = f"the argument is short: {len(argument)} of {command.least} bytes"
        return [short] + dump("argument", argument)
    if not command.fields:
        return dump("not looked at:", argument) if argument else []
    return CUTS[command.fields](argument)


def data_lines(code, data):
    """What a command read, field by field."""
    command, _ = command_of(code)
    gives = command.gives if command else ""
    if len(data) < LEAST_DATA.get(gives, 0):
        return dump("data, fewer than a device gives:", data)
    return CUTS[gives or "data"](data)


def further(length, field):
    return dump("not looked at:", field[length:]) if len(field) > length else []


def cut_seek(argument):
    bins = "" if number(argument[:2]) == 0 else f", of bin {hexadecimal(argument[:2])}, which isn't 0000"
    return [place_words(argument[2:6]) + bins] + further(6, argument)


def cut_head(argument):
    return [f"head {number(argument[4:6])}; bytes {hexadecimal(argument[:4])} mean nothing"] + further(6, argument)


def cut_mask(argument):
    mask = argument[0]
    return [f"allows {WRITES_BY_MASK[mask & 0xC0]}; {SEEKS_BY_MASK[mask & 0x18]}"] + further(1, argument)


def cut_sector(argument):
    return [f"sector {argument[0]}, which means nothing here"] + further(1, argument)


def cut_place(argument):
    return [place_words(argument)] + further(4, argument)


def cut_id(argument):
    return [f"ID: {id_words(argument)}"] + further(5, argument)


def cut_count(count):
    return [f"ID: {id_words(count)}; key of {count[5]} bytes, data of {number(count[6:8])}"]


def cut_record(record):
    """A count with the key and the data behind it, of which some may be wanting."""
    key_end = 8 + record[5]
    end = key_end + number(record[6:8])
    lines = cut_count(record)
    if record[5]:
        lines += dump("key", record[8:key_end])
    if end > key_end:
        lines += dump("data", record[key_end:end])
    if len(record) < end:
        lines.append(f"the last {end - len(record)} bytes aren't given, and are zeros")
    return lines + further(end, record)


def cut_home_address(home):
    return [f"flag {home[0]:02X}, {place_words(home[1:5])}"]


def cut_sense(sense):
    told = f"sense {hexadecimal(sense[:3])}, {sense_words(sense)}"
    return [told] + (dump("further bytes:", sense[3:]) if any(sense[3:]) else [])


CUTS = {
    "seek": cut_seek,
    "head": cut_head,
    "mask": cut_mask,
    "sector": cut_sector,
    "place": cut_place,
    "ID": cut_id,
    "key": lambda argument: dump("key", argument),
    "data": lambda argument: dump("data", argument),
    "key and data": lambda argument: dump("key and data", argument),
    "count": cut_count,
    "record": cut_record,
    "home address": cut_home_address,
    "sense": cut_sense,
}
