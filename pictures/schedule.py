"""Reads the text of a schedule, line by line, and feeds a history with it.

It takes any version, and judges no more than a picture needs: each line has a form, ticks follow each other, and no
task contradicts itself. Whether a schedule is legal is what `./rtems_smp check` says. Version 1 has no other lines than
those of docs/schedule-format.md; in another version lines of other kinds are counted and not drawn.
"""
import re

from pictures.history import Contradiction, Directive

BLOCK = 1 << 20          # how many bytes are read at once
LONGEST_LINE = 1_000
DIRECTIVES_KEPT = 50_000
UNKNOWN_LINES_KEPT = 5

HEADER = re.compile(r'schedule ([1-9][0-9]{0,3})')
ENTRY = re.compile(
    r'p([0-7]) t([1-9]|[1-5][0-9]|6[0-4]) ([a-z][a-z0-9_]{0,15}):([1-9][0-9]{0,3}) ([a-z]+\.[a-z_]+) '
    r'(?:(waits)|(done|back) (0|[1-9][0-9]{0,2}) (0|[1-9a-f][0-9a-f]{0,7}))')
TICK = re.compile(r'tick ([1-9][0-9]{0,6})((?: (?:[ts](?:[1-9]|[1-5][0-9]|6[0-4])|-)){1,8})')
PERIOD = re.compile(r'period ([1-9a-f][0-9a-f]{0,7})((?: (?:0|[1-9][0-9]{0,19})){8})')
END = re.compile(r'end (0|[1-9][0-9]{0,6})')
OTHER = re.compile(r'(?!(?:schedule|tick|period|end|limit|p[0-9]+)\b)[a-z]+(?: [!-~]+)*')


class ScheduleFault(Exception):
    """A text that is no schedule: the line, from 1, and why."""

    def __init__(self, line, why):
        super().__init__(f'line {line}: {why}')


def read_schedule(source, history):
    """Feeds a history with the schedule that a source of bytes has; raises ScheduleFault."""
    reader = Reader(history)
    for text in lines_of(source):
        reader.take(text)
    if not reader.at_end:
        raise ScheduleFault(reader.line + 1, 'it is missing: the last line is end T or limit')


def lines_of(source):
    """The lines of a source of bytes, each with its line feed, which the last may lack; a too long one ends them."""
    left = ''
    while True:
        block = source.read(BLOCK)
        lines = (left + block.decode('latin-1')).split('\n')
        left = lines.pop()
        for line in lines:
            yield line + '\n'
        if not block or len(left) > LONGEST_LINE:
            break
    if left:
        yield left


class Reader:
    """Takes the lines of a schedule one by one. `line` is the number of the one that was taken last."""

    def __init__(self, history):
        self.history = history
        self.line = 0
        self.at_end = False
        self._entries = True    # whether entries may come, which is so up to the statistics
        self._views = ''        # the words of the last tick: they often come again
        self._directives = {}   # what lines that were read say: lines of directives come again and again

    def take(self, text):
        """Takes a line with its line feed."""
        self.line += 1
        try:
            if self.at_end:
                raise Contradiction('a line behind the last')
            if text[-1] != '\n' or len(text) > LONGEST_LINE:
                raise Contradiction('it lacks its line feed' if len(text) <= LONGEST_LINE else 'it is too long')
            self._take_text(text[:-1])
        except Contradiction as why:
            raise ScheduleFault(self.line, why) from None

    def _take_text(self, text):
        """Takes the text of a line."""
        if self.line == 1:
            self._take_header(text)
        elif not (self._entries and self._take_entry(text)) and not self._take_closing(text):
            self._take_other(text)

    def _take_header(self, text):
        """Takes the first line."""
        found = HEADER.fullmatch(text)
        if not found:
            raise Contradiction('the first line must be schedule and a version, as schedule 1')
        self.history.version = int(found[1])

    def _take_entry(self, text):
        """Takes the line of an entry, and says whether it is one."""
        directive = self._directives.get(text) or self._read_directive(text)
        if directive is not None:
            self.history.act(directive)
            return True
        if text == f'tick {self.history.now + 1}{self._views}':
            self.history.tick(self.history.now + 1, self._views)
            return True
        found = TICK.fullmatch(text)
        if found:
            self._views = found[2]
            self.history.tick(int(found[1]), found[2])
        return found is not None

    def _read_directive(self, text):
        """What the line of a directive's entry says, or None."""
        found = ENTRY.fullmatch(text)
        if not found:
            return None
        processor, task, body, line, word, waits, form, status, out = found.groups()
        if len(self._directives) >= DIRECTIVES_KEPT:
            self._directives.clear()
        directive = Directive(int(processor), int(task), (body, int(line)), word, waits or form, int(status or 0),
                              int(out or '0', 16), text)
        self._directives[text] = directive
        return directive

    def _take_closing(self, text):
        """Takes a line of the statistics or the last line, and says whether it is one."""
        found = PERIOD.fullmatch(text)
        if found:
            self._entries = False
            self.history.statistics.append((found[1], [int(word) for word in found[2].split()]))
            return True
        found = END.fullmatch(text)
        if found and int(found[1]) != self.history.now:
            raise Contradiction(f'the run ends at tick {self.history.now}')
        if found or text == 'limit':
            self.at_end = True
            self.history.finish(cut=not found)
            return True
        return False

    def _take_other(self, text):
        """Counts a line of another kind, which version 1 doesn't have."""
        if not self._entries and (TICK.fullmatch(text) or ENTRY.fullmatch(text)):
            raise Contradiction('an entry behind the statistics')
        if self.history.version == 1 or not OTHER.fullmatch(text):
            raise Contradiction("it has none of the forms of a schedule's lines")
        self.history.unknown_count += 1
        if len(self.history.unknown) < UNKNOWN_LINES_KEPT:
            self.history.unknown.append(text)
