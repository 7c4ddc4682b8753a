"""Which line of the job each entry of a report comes from.

A host's entries follow its items, and a program's entries follow its words, by the rules of chains: a word is skipped
after status modifier, a transfer leads to its word, a chain ends at trouble or behind its last word.
"""

from dataclasses import dataclass

CHAIN_LIMIT = 2_048
STATUS_MODIFIER = 0x40
TROUBLE = 0x03  # unit check, unit exception


@dataclass
class Source:
    """Where an entry comes from: the line of the job; of a command its word, and whether that is its program's last."""

    line: int
    word: object = None
    is_last: bool = False


class Following:
    """A host on its way through its items."""

    def __init__(self, items):
        self.items = iter(items)
        self.program = None  # the words of the open program
        self.at = 0  # the word to go to
        self.executed = 0

    def source(self, entry):
        """Where the host's next entry comes from. None where the host doesn't come to it."""
        if self.program is None:
            item = next(self.items, None)
            if item is None:
                return None
            if item.kind != "program":
                is_its = (entry.call, entry.volume, entry.bind) == (item.kind, item.volume, item.bind)
                return Source(item.line) if is_its else None
            self.program, self.at, self.executed = item, 0, 0
        return self.step(entry)

    def is_done(self):
        """Whether no item is left."""
        return self.program is None and next(self.items, None) is None

    def step(self, entry):
        words = self.program.words
        reached = self.reached()
        if reached is None or self.executed == CHAIN_LIMIT:
            line = words[self.at].line if self.at < len(words) else self.program.end_line
            cause = "program check" if reached is None else "chain limit"
            self.program = None
            return Source(line) if (entry.call, entry.reply) == ("break", cause) else None
        word = words[reached]
        if entry.call != "ccw" or entry.code != word.code:
            return None
        self.executed += 1
        is_last = reached + 1 == len(words)
        self.move(reached, is_last, entry.status)
        return Source(word.line, word, is_last)

    def reached(self):
        """The number of the command that the present word leads to: its own or, behind word 0, that of a transfer."""
        words, at = self.program.words, self.at
        if at < len(words) and words[at].to is not None and at > 0:
            at = words[at].to
        return at if at < len(words) and words[at].to is None else None

    def move(self, reached, is_last, status):
        """Goes on behind a command with this status; none where its reply has no status."""
        if status is None or status & TROUBLE or is_last:
            self.program = None
        else:
            self.at = reached + (2 if status & STATUS_MODIFIER else 1)


def followed(job, report):
    """The source of each entry, up to the first that doesn't follow from the job, and each host behind them."""
    following = {host.number: Following(host.items) for host in job.hosts}
    sources = []
    for entry in report.entries:
        source = following[entry.host].source(entry) if entry.host in following else None
        if source is None:
            break
        sources.append(source)
    return sources, following


def unfinished(report, following):
    """The first host that hasn't come to the end of its script, where the report's last line says that each has."""
    if report.last != "END":
        return None
    return next((host for host, way in sorted(following.items()) if not way.is_done()), None)


def sources_of(job, report):
    """The source of each entry, up to the first that doesn't follow from the job."""
    return followed(job, report)[0]
