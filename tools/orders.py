"""Puts all that a report tells into one order.

A report has no clock. It has an order for each shard and each device, and each thread's own order. An inline entry stands
after the event that programmed its slot, and before the slot gets another key. `ordered` finds one order that keeps all of
this: section after section where that is possible, as a run of one caller goes, and else the threads side by side, each as far
as the others. Other orders may keep it too.
"""

import collections
from dataclasses import dataclass, field

from reports import NoReport

MOST_SLOTS = 32
ASKED = ("evict", "busy", "reset")  # events that an operation asks for by itself


@dataclass(eq=False)
class Step:
    """An entry of a shard, an event of a device, or an operation that has neither data units nor an event (`op`)."""
    kind: str
    thread: int = None
    op: int = None
    place: int = None  # its shard or device
    at: int = None  # its place there
    what: object = None  # the entry or event
    number: int = None  # its place in the order, from 1


@dataclass(eq=False)
class Stay:
    """A key's stay in a slot, from its programming to the next programming or eviction: what is left of its entries, of the
    uses of the slot that have entries, and of its idle events."""
    device: int
    slot: int
    key: int
    entries: int = 0
    uses: int = 0
    idles: collections.deque = field(default_factory=collections.deque)


class Order:
    """The steps in their order, and in which way they were found: `sections`, `threads`, or `torn` where none exists."""

    def __init__(self, steps, way):
        self.steps, self.way = steps, way
        for number, step in enumerate(steps, 1):
            step.number = number


def slots_of(event):
    """The slots that an event names."""
    return [slot for slot in [event.slot, *(slot for slot, _ in event.skips)] if slot is not None]


def checked(report):
    """What a report must have beside its form for a picture of it."""
    for events in report.devices:
        for event in events:
            if any(slot >= MOST_SLOTS for slot in slots_of(event)):
                raise NoReport(event.line, f"a device has at most {MOST_SLOTS} slots")
    seen = set()
    for entries in report.shards:
        for entry in entries:
            if entry.thread >= len(report.threads):
                raise NoReport(entry.line, f"there is no thread {entry.thread}")
            answers = report.threads[entry.thread]
            if entry.op >= len(answers):
                raise NoReport(entry.line, f"thread {entry.thread} has no operation {entry.op}")
            if answers[entry.op].split(" ")[0] not in ("done", "fault"):
                raise NoReport(entry.line, f"the operation is answered `{answers[entry.op]}`, so it has no data units")
            if (entry.thread, entry.op, entry.unit) in seen:
                raise NoReport(entry.line, "this data unit stands in a second place")
            seen.add((entry.thread, entry.op, entry.unit))
            if entry.way == "inline":
                events = report.devices[entry.device] if entry.device < len(report.devices) else []
                event = events[entry.event] if entry.event < len(events) else None
                if event is None or event.word != "program" or event.slot != entry.slot:
                    raise NoReport(entry.line, f"event {entry.event} of device {entry.device} doesn't program slot {entry.slot}")


class Walk:
    """One attempt to put everything into an order."""

    def __init__(self, report, script, pieces):
        self.report, self.script = report, script
        self.steps = []
        self.shards = [collections.deque(Step("entry", it.thread, it.op, shard, at, it) for at, it in enumerate(entries))
                       for shard, entries in enumerate(report.shards)]
        self.events = [[Step("event", None, None, device, at, it) for at, it in enumerate(events)]
                       for device, events in enumerate(report.devices)]
        self.next = [0] * len(report.devices)
        self.stays, self.ends, self.idles = {}, {}, {}
        for device, events in enumerate(report.devices):
            self.find_stays(device, events)
        self.threads = [collections.deque(it) for it in self.sequences(pieces)]
        self.lengths = [len(it) for it in self.threads]

    def find_stays(self, device, events):
        now = {}
        for at, event in enumerate(events):
            if event.word in ("program", "evict"):
                if event.slot in now:
                    self.ends[device, at] = now.pop(event.slot)
                if event.word == "program":
                    now[event.slot] = self.stays[device, at] = Stay(device, event.slot, event.key)
            elif event.word == "idle" and event.slot in now:
                now[event.slot].idles.append(at)
                self.idles[device, at] = now[event.slot]

    def stay(self, step):
        return self.stays[step.what.device, step.what.event] if step.what.way == "inline" else None

    def sequences(self, pieces):
        """For each thread its steps in their order; notes for each entry by which use of a slot it is made."""
        units = [collections.defaultdict(list) for _ in self.report.threads]
        for entries in self.shards:
            for step in entries:
                units[step.thread][step.op].append(step)
        self.uses = {}
        found = []
        for thread, answers in enumerate(self.report.threads):
            steps = []
            for op in range(len(answers)):
                own = sorted(units[thread][op], key=lambda it: it.what.unit)
                steps += own or [Step("op", thread, op, what=answers[op])]
            found.append(self.with_uses(thread, steps, pieces[thread] if pieces else None))
        return found

    def with_uses(self, thread, steps, pieces):
        """Groups the inline entries of a thread by the uses of slots: by the script's pieces, or by bio and device. A piece whose
        units were all passed over becomes a step of its own, which isn't drawn."""
        names = {(it.op, it.what.unit): it for it in steps if it.kind == "entry"}
        if pieces is None:
            groups = collections.OrderedDict()
            for step in names.values():
                if step.what.way == "inline":
                    groups.setdefault((step.op, step.what.device), []).append(step)
            pieces, passed = list(groups.values()), []
        else:
            passed = [it for it in pieces if not any(name in names for name in it.units)]
            pieces = [[names[name] for name in it.units if name in names] for it in pieces]
        for own in pieces:
            use = {"left": len(own)}
            for step in own:
                self.uses[step] = use
                if self.stay(step):
                    self.stay(step).entries += 1
            if own and self.stay(own[0]):
                self.stay(own[0]).uses += 1
        for piece in passed:
            at = next((n for n, it in enumerate(steps) if it.op > piece.units[-1][0]), len(steps))
            steps.insert(at, Step("pass", thread, piece.units[-1][0], piece.device, what=piece.key))
        return steps

    # ---- steps

    def event_is_ready(self, device):
        at = self.next[device]
        return at < len(self.events[device]) and not (
            (device, at) in self.ends and self.ends[device, at].entries)

    def take_event(self, device):
        step = self.events[device][self.next[device]]
        self.next[device] += 1
        self.steps.append(step)
        if (device, step.at) in self.idles:
            self.idles[device, step.at].idles.popleft()
        if step.what.word in ASKED:
            self.take_asking(device, step.what)

    def asks(self, step, device, event):
        """Whether an operation without data units may have made an event, as far as its answer and its script tell."""
        answer, *fields = step.what.split(" ")
        if answer == "reset":
            may = event.word == "reset"
        elif answer == "busy":
            first = [device, event.slot, event.refs] == list(map(int, fields))
            may = event.word == "busy" and (first or device > int(fields[0])) or event.word == "evict" and device != int(fields[0])
        else:
            may = answer == "evicted" and event.word == "evict"
        if may and self.script:
            operation = self.script.sections[step.thread][step.op]
            may = operation.device == device if answer == "reset" else operation.key == event.key
        return may

    def take_asking(self, device, event):
        """The operation that asked for an event follows it, where a thread has come to one."""
        for own in [self.current] if self.serial else self.threads:
            if own and own[0].kind == "op" and self.asks(own[0], device, event):
                self.steps.append(own.popleft())
                return

    def events_up_to(self, device, at):
        while self.next[device] <= at and self.event_is_ready(device):
            self.take_event(device)

    def take(self, step):
        """Takes a thread's next step, and the events that go with it."""
        self.threads[step.thread].popleft()
        if step.kind == "pass":
            now = self.head_event(step.place)
            if now and now.word == "program" and now.key == step.what and self.event_is_ready(step.place):
                self.take_event(step.place)
            now = self.head_event(step.place)
            if now and now.word == "idle":
                self.take_event(step.place)
            return
        self.steps.append(step)
        if step.kind == "op":
            return
        self.shards[step.place].popleft()
        stay = self.stay(step)
        if stay is None:
            return
        stay.entries -= 1
        use = self.uses[step]
        use["left"] -= 1
        if use["left"] == 0:
            stay.uses -= 1
            if len(stay.idles) > stay.uses:
                self.events_up_to(step.what.device, stay.idles[0])

    def head_event(self, device):
        events = self.events[device] if device is not None else []
        return events[self.next[device]].what if device is not None and self.next[device] < len(events) else None

    def take_asked(self, step):
        """Before an operation that asks devices, the events that it made, where they are next. Tells whether the operation was
        taken with them."""
        own = self.threads[step.thread]
        for device in range(len(self.events)):
            now = self.head_event(device)
            if now and self.asks(step, device, now) and self.event_is_ready(device):
                self.take_event(device)
                if step.what == "reset":
                    break
        return not own or own[0] is not step

    def is_ready(self, step):
        """Whether all stands before the step that has to, but for events; and the device whose next event it waits for."""
        if step.kind != "entry":
            return True, None
        if self.shards[step.place][0] is not step:
            return False, None
        waits = self.stay(step) is not None and self.next[step.what.device] <= step.what.event
        return True, step.what.device if waits else None

    # ---- ways

    def by_sections(self):
        """Section after section. Tells whether everything went so."""
        self.serial = True
        if any(it.word == "busy" or it.skips for events in self.report.devices for it in events):
            return False
        for own in self.threads:
            self.current = own
            while own:
                step = own[0]
                ready, device = self.is_ready(step)
                if not ready:
                    return False
                while device is not None and self.next[device] <= step.what.event:
                    if not self.event_is_ready(device):
                        return False
                    self.take_event(device)
                if step.kind == "op" and self.take_asked(step):
                    continue
                self.take(step)
        return self.rest_of_events()

    def rest_of_events(self):
        for device, events in enumerate(self.events):
            self.events_up_to(device, len(events))
        return all(at == len(events) for at, events in zip(self.next, self.events))

    def by_threads(self):
        """The threads side by side. Tells whether everything went so."""
        self.serial, self.current = False, None
        while any(self.threads):
            if not self.one_step():
                return False
        return self.rest_of_events()

    def one_step(self):
        waiting = [(1 - len(own) / self.lengths[thread], thread) for thread, own in enumerate(self.threads) if own]
        for _, thread in sorted(waiting):
            step = self.threads[thread][0]
            ready, device = self.is_ready(step)
            if not ready or (device is not None and not self.event_is_ready(device)):
                continue
            if device is not None:
                self.take_event(device)
            elif step.kind != "op" or not self.take_asked(step):
                self.take(step)
            return True
        for device in range(len(self.events)):
            if self.event_is_ready(device):
                self.take_event(device)
                return True
        return False


def ordered(report, script=None, pieces=None):
    """One order of a report, with its script and the script's pieces where they are known."""
    checked(report)
    walk = Walk(report, script, pieces)
    if walk.by_sections():
        return Order(walk.steps, "sections")
    walk = Walk(report, script, pieces)
    if walk.by_threads():
        return Order(walk.steps, "threads")
    walk = Walk(report, script, pieces)
    steps = [step for own in walk.threads for step in own if step.kind == "op"]
    steps += [step for own in [*walk.shards, *walk.events] for step in own]
    return Order(sorted(steps, key=lambda it: it.at or 0), "torn")
