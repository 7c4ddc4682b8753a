"""How far a long work is, on standard error."""

import sys
import time


def quiet(_work, items):
    """The items of a work of which nothing is told."""
    return items


def with_progress(work, items):
    """The items of a work, in their order. Once a second, from its first second on, it tells how many are done; on a
    terminal always in the same line."""
    is_terminal = sys.stderr.isatty()
    told = time.monotonic()
    is_begun = False
    try:
        for done, item in enumerate(items):
            if time.monotonic() >= told + 1:
                told, is_begun = time.monotonic(), True
                line = f"{work}: {done:,} of {len(items):,}"
                print(line, end="\r" if is_terminal else "\n", file=sys.stderr, flush=True)
            yield item
    finally:
        if is_begun and is_terminal:
            print(file=sys.stderr)
