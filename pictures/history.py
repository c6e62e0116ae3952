"""What a schedule tells, as it is drawn: who ran where and when, who waited, and what each directive returned.

A history is fed with the entries of a schedule in their order. It keeps what falls into the window of ticks that is
drawn, and of the rest only how things stand, so that its size doesn't grow with the schedule. It refuses entries that
contradict each other, since no picture could show them: a task that acts while it waits, or is on two processors.
"""
from typing import NamedTuple

from pictures.scenario import value

DEFAULT_TICKS = 2_000
GREATEST_MARKS = 20_000
SUCCESSES = (0, 1)
SLEEPS_IN = 'task.wake_after'
SPINS_IN = 'sem.obtain'   # the only directive in which a task that waits may spin

# The kinds of marks.
DONE, WAITS, BACK, REFUSED, EXIT, JOB, LATE = 'done', 'waits', 'back', 'refused', 'exit', 'job', 'late'


class Contradiction(Exception):
    """Why an entry can't follow those in front of it."""


class Wait:
    """A wait: of a task, from the call at `place` (body and line) on.

    `back` is the tick of its return, and `end` the one up to which it lasts as far as is known: its return too, but for
    a sleep whose length the scenario tells. `processor` is where its task was seen last, and `spun` says whether it was
    seen to spin.
    """
    __slots__ = ('task', 'word', 'place', 'start', 'end', 'back', 'processor', 'spun')

    def __init__(self, task, word, place, start, processor):
        self.task, self.word, self.place, self.start, self.processor = task, word, place, start, processor
        self.end, self.back, self.spun = None, None, False


class Stretch(NamedTuple):
    """Ticks in a row, from one present tick to another, through which one task ran or spun on one processor.

    `host` is the wait of the task that the processor belongs to, where it isn't the task that runs; `foreign` says
    whether the task is known to be of another cluster.
    """
    processor: int
    task: int
    spins: bool
    start: int
    end: int
    host: object
    foreign: bool

    def is_continued(self, other):
        """Whether another stretch follows this one and is drawn alike."""
        return (self.end == other.start and (self.task, self.spins, self.foreign, self.helper())
                == (other.task, other.spins, other.foreign, other.helper()))

    def helper(self):
        """The task in whose place this one runs, as far as the schedule tells, or None."""
        return self.host.task if self.host is not None and (self.foreign or self.host.spun) else None


class Mark(NamedTuple):
    """A directive's entry: its task, its tick, its kind, and its line."""
    task: int
    tick: int
    kind: str
    text: str


class Directive(NamedTuple):
    """What the line of a directive's entry says; `form` is its word `done`, `waits` or `back`."""
    processor: int
    task: int
    place: tuple    # body and line
    word: str
    form: str
    status: int
    out: int
    text: str


class Task:
    """How a task stands: since when it is there, its wait, whether it has exited, and with what it was made.

    `may_own` says whether it has obtained a semaphore, or created one that it may own. Only such a task is ever helped.
    """
    __slots__ = ('number', 'since', 'wait', 'exited', 'may_own', 'maker')

    def __init__(self, number, since, maker):
        self.number, self.since, self.maker = number, since, maker
        self.wait, self.exited, self.may_own = None, False, False


class History:
    """What is drawn of a schedule, in the window of the present ticks from `first` to `last`."""

    def __init__(self, first=0, last=DEFAULT_TICKS, scenario=None):
        self.first, self.last, self.scenario = first, last, scenario
        self.version = 0
        self.processors = None      # how many there are, once a tick or the scenario has told it
        self.now = 0
        self.cut = False            # whether the last line is `limit`
        self.directives = 0
        self.directives_in_window = 0
        self.stretches, self.waits, self.marks = [], [], []
        self.lives = {}             # of each task the ticks, from and to, at which it may be there
        self.makers = {}            # of each task with what it was made: more than one where the index was used again
        self.statistics = []        # of each period its id and eight numbers
        self.unknown = []           # the first lines of kinds that this script doesn't know, and their number
        self.unknown_count = 0
        self._tasks = {}
        self._greatest_processor = -1
        self._views = ''            # the words of the last tick
        self._changed = True        # whether a wait or a task began or ended since
        self._open = []             # of each processor what it does since when: (key, start)
        self._hosts = {}            # of each processor the wait of the task that was seen to keep it last
        if scenario is not None:
            self._open_scenario(scenario)

    def _open_scenario(self, scenario):
        """Makes the processors and the init tasks of a scenario known."""
        self.processors = scenario.processors()
        self._open = [(None, 0)] * self.processors
        for number, maker in enumerate(scenario.inits, 1):
            self._begin(number, 0, maker)

    # Tasks

    def _begin(self, number, since, maker=None):
        """A task that is there from a tick on; another one that had the index is there no longer."""
        self._changed = True
        if number in self._tasks:
            self._finish(self._tasks[number])
        task = self._tasks[number] = Task(number, since, maker)
        if maker is not None:
            self.makers.setdefault(number, []).append((since, maker))
        return task

    def _finish(self, task):
        """Ends the life of a task, and its wait."""
        if task.wait is not None:
            self._end_wait(task)
        if not task.exited:
            self._keep_life(task)

    def _keep_life(self, task):
        """Keeps the ticks through which a task was there, up to now."""
        if task.since <= self.last and self.now >= self.first:
            self.lives.setdefault(task.number, []).append((max(task.since, self.first), min(self.now, self.last)))

    def _task(self, number):
        """The task with an index. One that no create has told of is there since the opening."""
        return self._tasks.get(number) or self._begin(number, 0)

    def _end_wait(self, task):
        """Ends the wait of a task now, and keeps it where it falls into the window."""
        wait, task.wait = task.wait, None
        wait.back = self.now
        wait.end = self.now if wait.end is None else min(wait.end, self.now)
        self._changed = True
        if wait.start < self.last and wait.end > self.first:
            self.waits.append(wait)

    # Directives

    def act(self, directive):
        """An entry of a directive."""
        if self.processors is not None and directive.processor >= self.processors:
            raise Contradiction(f'there is no processor {directive.processor}')
        self._greatest_processor = max(self._greatest_processor, directive.processor)
        task = self._tasks.get(directive.task) or self._begin(directive.task, 0)
        operands = self._operands(directive) if self.scenario is not None else None
        if task.exited:
            raise Contradiction(f'task {task.number} has exited')
        if directive.form == 'back':
            self._return(task, directive)
        elif task.wait is not None:
            raise Contradiction(f'task {task.number} waits since tick {task.wait.start}, and has not returned')
        elif directive.form == 'waits':
            self._wait(task, directive, operands)
        elif directive.word == 'task.exit':
            self._keep_life(task)
            task.exited = self._changed = True
        elif directive.status == 0:
            self._succeed(task, directive, operands)
        self.directives += 1
        if self.first <= self.now <= self.last:
            self._mark(directive, operands)

    def _operands(self, directive):
        """The words of the directive's line in the scenario, which must be that directive."""
        body, line = directive.place
        words = self.scenario.words_at(body, line)
        if not words or words[0] != directive.word:
            found = f'is {words[0][:20]}' if words else 'is missing'
            raise Contradiction(f"{directive.word} isn't in the scenario: line {line} of the body {body} {found} there")
        return words

    def _return(self, task, directive):
        """A task returns from the directive for which it waited."""
        wait = task.wait
        if wait is None:
            raise Contradiction(f'task {task.number} returns from a directive, and waits for none')
        if wait.place != directive.place or wait.word != directive.word:
            raise Contradiction(f'task {task.number} waits in {wait.place[0]}:{wait.place[1]} {wait.word}')
        self._end_wait(task)
        if directive.status == 0:
            self._succeed(task, directive, None)

    def _wait(self, task, directive, operands):
        """A task begins to wait. Its processor may be kept by it, if it spins."""
        self._changed = True
        processor = directive.processor
        task.wait = wait = Wait(task.number, directive.word, directive.place, self.now, processor)
        if directive.word == SLEEPS_IN and operands:
            wait.end = self.now + value(operands[1])
        if directive.word != SPINS_IN:
            return
        host = self._host(processor)
        if not self._is_foreign(task, processor) and (host is None or not host.spun):
            self._hosts[processor] = wait

    def _succeed(self, task, directive, operands):
        """A directive has succeeded: what it makes known."""
        if directive.word == 'task.create':
            self._create(task, directive.out, operands)
        elif directive.word in ('sem.obtain', 'sem.create'):
            task.may_own = True

    def _create(self, creator, out, operands):
        """A task is made: its index is in its id."""
        number = out & 0xffff
        if not 1 <= number <= 64:
            raise Contradiction(f'{out:x} is the id of no task')
        maker = None
        if operands is not None and creator.maker is not None:
            maker = creator.maker._replace(name=operands[1], priority=value(operands[2]))
        self._begin(number, self.now, maker)

    def _mark(self, directive, operands):
        """Keeps a directive's entry, up to the greatest number of marks."""
        self.directives_in_window += 1
        if len(self.marks) < GREATEST_MARKS:
            self.marks.append(Mark(directive.task, self.now, kind_of(directive, operands), directive.text))

    # Ticks

    def tick(self, number, views):
        """A tick: its number, and the word of each processor, as text."""
        if number != self.now + 1:
            raise Contradiction(f'tick {self.now + 1} must come here')
        if self._changed or views != self._views:
            self._see(views.split())
            self._views, self._changed = views, False
        self.now = number

    def _see(self, words):
        """What the processors do from now on."""
        if self.processors is None:
            self.processors = len(words)
            self._open = [(None, 0)] * len(words)
            if self._greatest_processor >= len(words):
                raise Contradiction(f'there is a processor {self._greatest_processor}, and no word for it')
        elif len(words) != self.processors:
            raise Contradiction(f'{len(words)} words, and there are {self.processors} processors')
        seen = [None if word == '-' else (int(word[1:]), word[0] == 's') for word in words]
        self._check_seen([one for one in seen if one])
        for processor, one in enumerate(seen):
            if one is None:
                self._hosts[processor] = None
            elif one[1]:
                self._keep_host(processor, one[0])
        spinning = {one[0] for one in seen if one and one[1]}
        for processor, one in enumerate(seen):
            self._change(processor, one and self._doing(processor, one, spinning))

    def _check_seen(self, seen):
        """No task is on two processors; one that runs waits for nothing, and one that spins waits."""
        if len({number for number, _ in seen}) != len(seen):
            raise Contradiction('a task is on two processors')
        for number, spins in seen:
            task = self._task(number)
            if task.exited:
                raise Contradiction(f'task {number} has exited')
            if spins != (task.wait is not None):
                raise Contradiction(f'task {number} {"spins and waits for nothing" if spins else "runs and waits"}')

    def _keep_host(self, processor, number):
        """A task was seen to spin on a processor."""
        wait = self._tasks[number].wait
        wait.processor, wait.spun = processor, True
        self._hosts[processor] = wait

    def _doing(self, processor, seen, spinning):
        """What a processor does: its task, whether that spins, in whose place it runs, and whether it is foreign."""
        number, spins = seen
        if spins:
            return number, True, None, False
        task = self._tasks[number]
        foreign = self._is_foreign(task, processor)
        host = self._host(processor) if task.may_own else None
        if host is None and foreign:
            host = self._only_host(processor, spinning)
        return number, False, host, foreign

    def _change(self, processor, doing):
        """Ends what a processor did, and begins what it does from now on."""
        before, start = self._open[processor]
        if before == doing:
            return
        if before is not None:
            from_, to = max(start, self.first), min(self.now, self.last)
            if from_ < to:
                number, spins, host, foreign = before
                self.stretches.append(Stretch(processor, number, spins, from_, to, host, foreign))
        self._open[processor] = (doing, self.now)

    # Whom a processor belongs to

    def _is_foreign(self, task, processor):
        """Whether a task is known to be of another cluster than a processor. In a later version it may have moved."""
        return self.version == 1 and task.maker is not None and task.maker.home != self.scenario.cluster_of(processor)

    def _host(self, processor):
        """The wait of the task that was seen last to keep a processor, if it still goes on there."""
        wait = self._hosts.get(processor)
        return wait if wait is not None and wait.back is None and wait.processor == processor else None

    def _only_host(self, processor, spinning):
        """The wait for a semaphore of the only task of a processor's cluster that can spin there, or None."""
        waits = [task.wait for task in self._tasks.values()
                 if task.wait is not None and task.wait.word == SPINS_IN and task.number not in spinning
                 and task.maker is not None and not self._is_foreign(task, processor)]
        return waits[0] if len(waits) == 1 else None

    # The end

    def finish(self, cut):
        """The last line was read: whether the history was cut at the limit. The window ends with the schedule."""
        self.cut = cut
        self.last = min(self.last, self.now)
        for processor in range(self.processors or 0):
            self._change(processor, None)
        for task in self._tasks.values():
            self._finish(task)
        self._join_stretches()
        if self.processors is None:
            self.processors = self._greatest_processor + 1

    def _join_stretches(self):
        """Joins stretches that are drawn alike: whether a task kept the processor is known only now."""
        joined, last = [], {}
        for stretch in self.stretches:
            before = last.get(stretch.processor)
            if before is not None and joined[before].is_continued(stretch):
                joined[before] = joined[before]._replace(end=stretch.end)
            else:
                last[stretch.processor] = len(joined)
                joined.append(stretch)
        self.stretches = joined


def kind_of(directive, operands):
    """The kind of a directive's mark. Without operands a question how a period stands isn't told from a job's end."""
    word, form, status = directive.word, directive.form, directive.status
    if word == 'period.period' and not (operands and operands[2] in ('0', '0x00000000')):
        if form == 'waits':
            return JOB
        if form == 'done' and status == 6:
            return LATE
    if form == 'waits':
        return WAITS
    if status not in SUCCESSES:
        return REFUSED
    if word == 'task.exit':
        return EXIT
    return BACK if form == 'back' else DONE
