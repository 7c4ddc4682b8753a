"""Rules of replacement, as docs/POLICIES.md tells them: read from their text, and as choosers of a candidate.

A chooser is given the candidates, the least recently used first, and answers the place of one.
"""

from dataclasses import dataclass

RULE_LIMIT = 8
QUOTA_LIMIT = 1_632
VOLUME_LIMIT = 31


@dataclass(frozen=True)
class Candidate:
    """A frame that may be taken, the page that it would be taken from, and how many of its cylinders are changed."""

    frame: int
    volume: int
    page: int
    changed: int


class BadRule(Exception):
    """The first bad rule of a text, from 1."""

    def __init__(self, number):
        super().__init__(f"rule {number} isn't one")
        self.number = number


def least_recent(_candidates):
    """No rule: the first."""
    return 0


def clean(candidate, _given):
    return candidate.changed == 0


def quota(most):
    return lambda candidate, given: sum(other.volume == candidate.volume for other in given) > most


def avoid(volume):
    return lambda candidate, _given: candidate.volume != volume


def read_rules(text):
    """The tests that a text of rules tells."""
    if text == "lru":
        return []
    rules = []
    for number, part in enumerate(text.split(","), 1):
        rule = None if number > RULE_LIMIT else rule_of(part)
        if rule is None:
            raise BadRule(number)
        rules.append(rule)
    return rules


def rule_of(text):
    """The test of one rule; none where it isn't one."""
    name, colon, digits = text.partition(":")
    if not colon:
        return clean if name == "clean" else None
    if not (digits.isascii() and digits.isdigit()) or digits != str(int(digits)):
        return None
    if name == "quota" and int(digits) <= QUOTA_LIMIT:
        return quota(int(digits))
    return avoid(int(digits)) if name == "avoid" and int(digits) <= VOLUME_LIMIT else None


def chooser_of(text):
    """The chooser of a text of rules: each rule leaves those of which it holds, or all where it holds of none."""
    rules = read_rules(text)

    def choose(candidates):
        left = candidates
        for holds in rules:
            left = [candidate for candidate in left if holds(candidate, candidates)] or left
        return candidates.index(left[0])

    return choose
