"""A serial run as docs/JOBS.md tells it, event by event: which report a job has to have on blank devices.

It shares nothing with the program. Replies are those of plain volumes; what is modelled here is who waits for what, and
what the recorders do. No device fails, and no stop comes.
"""

import copy
from dataclasses import dataclass, field

from .rules import Candidate, least_recent

ENTRY_LIMIT = 4_096
CHAIN_LIMIT = 2_048
PAGE = 8
HEADS = 19
CYLINDERS_OF_CARTRIDGE = 202
BLANK, ON_CARTRIDGE, STAGED_BLANK, STAGED, CHANGED = range(5)
STATUS_MODIFIER, TROUBLE = 0x40, 0x03


@dataclass
class Request:
    volume: int
    cylinder: int
    state: str = "queued"  # queued, moving or ready


@dataclass
class Task:
    host: int
    volume: int
    cylinder: int
    frame: int
    victim: tuple = None  # the volume and the page that give the frame
    is_touched: bool = False  # whether a host wrote on that page since
    transfer: tuple = None  # the copy that is under way: its kind, the volume and the cylinder
    copied: int = 0  # how many tracks of it


@dataclass
class Script:
    """A host on its way through its items."""

    number: int
    items: list
    item: int = 0
    word: int = 0
    executed: int = 0

    def call(self):
        """The next call: an item, a word that is a command, or what breaks its program off; none at the end."""
        if self.item == len(self.items):
            return None
        item = self.items[self.item]
        if item.kind != "program":
            return item.kind, item
        words, at = item.words, self.word
        if at < len(words) and words[at].to is not None and at > 0:
            at = words[at].to
        if at >= len(words) or words[at].to is not None:
            return "break", "program check"
        if self.executed == CHAIN_LIMIT:
            return "break", "chain limit"
        self.word = at
        return "command", words[at]

    def is_last(self):
        return self.word + 1 == len(self.items[self.item].words)

    def go_on(self, status=None):
        """Goes on behind a reply; none of a status ends the program."""
        if status is None or status & TROUBLE or self.is_last():
            self.item, self.word, self.executed = self.item + 1, 0, 0
        else:
            self.word += 2 if status & STATUS_MODIFIER else 1
            self.executed += 1


@dataclass
class Model:
    job: object
    machine: object
    plain: object  # the module of plain volumes
    choose: object = least_recent  # the place of the candidate whose frame is taken
    entries: list = field(default_factory=list)
    changes: list = field(default_factory=list)
    states: dict = field(default_factory=dict)  # of each cylinder that isn't blank, by volume and number
    frames: dict = field(default_factory=dict)  # of each page that has one
    requests: dict = field(default_factory=dict)  # by host, in order of asking
    mounted: dict = field(default_factory=dict)  # volume and bind, by host

    def __post_init__(self):
        self.recency = list(range(self.job.frames))  # the least recently used first
        self.tasks = [None] * self.job.recorders
        self.held = [None] * self.job.recorders  # the cartridge in each recorder
        self.scripts = [Script(host.number, host.items) for host in self.job.hosts]
        self.serials = sorted(self.job.volumes.items())
        for number, (volume, serial) in enumerate(self.serials):
            self.tell(volume, f"create {serial} {2 * number} {2 * number + 1}")
        for volume in sorted(self.job.read_only):
            self.tell(volume, "protect on")

    # ---- what is told

    def tell(self, volume, text):
        self.changes.append(f"volume {volume} {text}")

    def reply(self, script, text, status=None):
        """An entry of the host, which then goes on."""
        self.entries.append(f"host {script.number} {text}")
        script.go_on(status)

    # ---- frames

    def moving(self):
        return {task.frame for task in self.tasks if task}

    def bound(self):
        volumes = {volume for volume, bind in self.mounted.values() if bind}
        return {frame for (volume, _), frame in self.frames.items() if volume in volumes}

    def kept(self):
        """Frames of pages on which a request is ready."""
        ready = {(r.volume, r.cylinder // PAGE) for r in self.requests.values() if r.state == "ready"}
        return {frame for page, frame in self.frames.items() if page in ready}

    def touch(self, frame):
        self.recency.remove(frame)
        self.recency.append(frame)

    # ---- hosts

    def host_event(self, script):
        """One call of a host. Answers whether the session has all its entries."""
        call = script.call()
        if call is None:
            return False
        if len(self.entries) == ENTRY_LIMIT:
            return True
        kind, what = call
        if kind == "command":
            self.command(script, what)
        elif kind == "mount":
            if self.is_held(script.number, what):
                return False
            told = self.machine.mount(script.number, what.volume)
            if told == "mounted":
                self.mounted[script.number] = (what.volume, what.bind)
            self.reply(script, f"mount {what.volume}{' bind' if what.bind else ''} {told}")
        elif kind == "demount":
            told = self.machine.demount(script.number)
            self.mounted.pop(script.number, None)
            self.reply(script, f"demount {told}")
        else:
            self.machine.break_off(script.number)
            self.reply(script, f"break {what}")
        return False

    def is_owned_by_another(self, number, volume):
        for other, (mounted, _) in self.mounted.items():
            if other != number and mounted == volume and (self.machine.hosts[other].chain or other in self.requests):
                return True
        return False

    def is_held(self, number, mount):
        """Whether a mount with bind has to wait, since a frame is being taken from its volume."""
        taken = {task.victim[0] for task in self.tasks if task and task.victim}
        return mount.bind and mount.volume in taken and self.machine.hosts[number].volume is None

    def touch_tasks(self, page):
        """A host writes on a page: recorders that take its frame hear of it."""
        for task in self.tasks:
            if task and task.victim == page:
                task.is_touched = True

    def passes_checks(self, host, word):
        """Whether the command would pass the checks of plain volumes, and comes to a track."""
        tried = copy.copy(host)
        if not tried.chain:
            tried.mask, tried.prior = 0, None
        try:
            self.plain.check(tried, word.code, word.argument(), tried.prior)
        except self.plain.Check:
            return False
        plain = word.code & ~self.plain.MULTI_TRACK
        searches = (*self.plain.SEARCH_IDS, *self.plain.SEARCH_KEYS, self.plain.SEARCH_HOME)
        reads = (0x06, 0x0E, 0x1E, 0x12, 0x16, 0x1A)
        return plain in (*searches, *reads) or word.code in self.plain.WRITES

    def command(self, script, word):
        number, host = script.number, self.machine.hosts[script.number]
        volume = self.mounted.get(number, (None, False))[0]
        if volume is not None and self.is_owned_by_another(number, volume):
            return
        if not self.passes_checks(host, word):
            self.run(script, word)
            return
        place = (volume, host.cylinder)
        page = (volume, host.cylinder // PAGE)
        frame = self.frames.get(page)
        state = self.states.get(place, BLANK)
        if state < STAGED_BLANK:
            if frame is None and len(self.bound()) == self.job.frames:
                self.requests.pop(number, None)
                self.machine.fail(number, self.plain.NO_SPACE)
                self.reply(script, f"ccw {word.code:02X} no space")
            elif number not in self.requests:
                self.requests[number] = Request(*place)
        elif word.code in self.plain.WRITES and state != CHANGED:
            self.states[place] = CHANGED
            self.tell(volume, f"changed cylinder {host.cylinder}")
            self.requests.setdefault(number, Request(*place)).state = "ready"
            self.touch_tasks(page)
        else:
            self.touch(frame)
            if word.code in self.plain.WRITES:
                self.touch_tasks(page)
            self.requests.pop(number, None)
            self.run(script, word)

    def run(self, script, word):
        status, data = self.machine.command(script.number, word.code, word.argument(), not script.is_last())
        told = f" data {data.hex().upper()}" if data else ""
        self.reply(script, f"ccw {word.code:02X} status {status:02X}{told}", status)

    # ---- recorders

    def work_event(self, recorder):
        """One step of a recorder. Answers whether there was one."""
        task = self.tasks[recorder]
        if task is None:
            if self.held[recorder] is not None:
                self.held[recorder] = None
                return True
            return self.pick(recorder)
        return self.work(recorder, task)

    def pick(self, recorder):
        for host, request in self.requests.items():
            taken = self.frame_for(request) if request.state == "queued" else None
            if taken is not None:
                frame, victim = taken
                request.state = "moving"
                self.tasks[recorder] = Task(host, request.volume, request.cylinder, frame, victim)
                return True
        return False

    def frame_for(self, request):
        """The frame that a request would be given, and the page that would give it; none where it has to wait."""
        moving = self.moving()
        own = self.frames.get((request.volume, request.cylinder // PAGE))
        if own is not None:
            return None if own in moving else (own, None)
        owners = {frame: page for page, frame in self.frames.items()}
        for frame in range(self.job.frames):
            if frame not in owners and frame not in moving:
                return frame, None
        taken = moving | self.bound() | self.kept()
        free = [frame for frame in self.recency if frame in owners and frame not in taken]
        candidates = [self.candidate(frame, owners[frame]) for frame in free]
        if not candidates:
            return None
        chosen = candidates[self.choose(candidates)]
        return chosen.frame, owners[chosen.frame]

    def candidate(self, frame, page):
        return Candidate(frame, *page, len(self.changed_in(page)))

    def changed_in(self, page):
        """The cylinders of a page that have to be destaged."""
        volume, number = page
        cylinders = range(number * PAGE, number * PAGE + PAGE)
        return [c for c in cylinders if self.states.get((volume, c), BLANK) == CHANGED]

    def work(self, recorder, task):
        if task.victim is not None and task.is_touched and task.copied in (0, HEADS):
            self.requests[task.host].state = "queued"
            self.tasks[recorder] = None
            return True
        if task.copied == 0:
            task.transfer = self.next_transfer(task)
        if task.transfer is not None and task.copied < HEADS:
            return self.copy(recorder, task)
        page = (task.volume, task.cylinder // PAGE)
        if task.transfer is not None:
            self.end(recorder, task)
        elif task.victim is not None:
            self.tell(task.victim[0], f"free page {task.victim[1]} frame {task.frame}")
            self.free(task.victim)
            task.victim = None
        else:
            self.tell(task.volume, f"assign page {page[1]} frame {task.frame}")
            self.frames[page] = task.frame
            self.touch(task.frame)
        return True

    def next_transfer(self, task):
        """The kind, the volume and the cylinder of the copy that is due; none while a row is to be changed."""
        if task.victim is not None:
            changed = self.changed_in(task.victim)
            return ("destage", task.victim[0], changed[0]) if changed else None
        if (task.volume, task.cylinder // PAGE) not in self.frames:
            return None
        is_blank = self.states.get((task.volume, task.cylinder), BLANK) == BLANK
        return ("blank" if is_blank else "stage", task.volume, task.cylinder)

    def copy(self, recorder, task):
        kind, volume, cylinder = task.transfer
        wanted = None if kind == "blank" else (volume, cylinder // CYLINDERS_OF_CARTRIDGE)
        if wanted is not None and self.held[recorder] != wanted:
            if self.held[recorder] is not None:
                self.held[recorder] = None
            elif wanted in self.held:
                return False
            else:
                self.held[recorder] = wanted
            return True
        task.copied += 1
        return True

    def end(self, recorder, task):
        kind, volume, cylinder = task.transfer
        task.copied = 0
        if kind == "destage":
            self.states[volume, cylinder] = STAGED
            self.tell(volume, f"destaged cylinder {cylinder}")
            return
        self.states[volume, cylinder] = STAGED_BLANK if kind == "blank" else STAGED
        self.tell(volume, f"staged cylinder {cylinder}")
        self.requests[task.host].state = "ready"
        self.tasks[recorder] = None

    def free(self, page):
        volume, number = page
        del self.frames[page]
        for cylinder in range(number * PAGE, number * PAGE + PAGE):
            was = self.states.get((volume, cylinder), BLANK)
            self.states[volume, cylinder] = {STAGED_BLANK: BLANK, STAGED: ON_CARTRIDGE}.get(was, was)

    # ---- the run

    def settle(self):
        """The recorders work in turn, until a whole turn of theirs does nothing."""
        while any([self.work_event(recorder) for recorder in range(self.job.recorders)]):
            pass

    def turn(self, actor):
        """One event of a host, by its place in the job, or of a recorder, numbered behind them."""
        if actor < len(self.scripts):
            return self.host_event(self.scripts[actor])
        self.work_event(actor - len(self.scripts))
        return False

    def report(self, turns=()):
        """The text of the report: these turns first, and then rounds."""
        is_full = any(self.turn(actor) for actor in turns)
        while not is_full and any(script.call() is not None for script in self.scripts):
            self.settle()
            for script in self.scripts:
                is_full = is_full or self.host_event(script)
        lines = ["MSS REPORT 1"]
        lines += [f"entry {number} {text}" for number, text in enumerate(self.entries, 1)]
        lines += [f"change {number} {text}" for number, text in enumerate(self.changes, 1)]
        for volume, serial in self.serials:
            mark = " readonly" if volume in self.job.read_only else ""
            lines += [f"volume {volume} {serial}{mark}", *self.tracks(volume)]
        return "\n".join([*lines, "LIMIT" if is_full else "END"]) + "\n"

    def tracks(self, volume):
        for (cylinder, head), track in sorted(self.machine.volumes[volume].items()):
            if track:
                yield f"track {cylinder} {head}"
            for record in track:
                yield f"record {hexadecimal(record.identity)} {hexadecimal(record.key)} {hexadecimal(record.data)}"


def hexadecimal(data):
    return data.hex().upper() or "-"
