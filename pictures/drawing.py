"""Draws a history as SVG: bands of ticks below each other, each with a row for every processor and every task.

The present tick N stands at one place of a band, and what a processor does through the tick N + 1 stands between N and
N + 1. Directives take no time: those of the present tick N stand in their order from that place on, so that the last
present tick has some room behind it.
"""
from bisect import bisect_left, bisect_right
from typing import NamedTuple

from pictures import history as told
from pictures.svg import RED, colour_of, element, escape, patterns_of, show, title, width_of

WIDTH = 1_232           # of the widest drawing, so that it fits a window of 1,280
LEAST_WIDTH = 460
LEAST_TICK, GREATEST_TICK = 14, 48      # the width of a tick
LABEL, SMALL = 11, 10   # sizes of letters
BAR = 15                # the height of a block
MARK = 7                # the width of a mark's place
LANE = 10               # the height of a line of marks
USUAL_LANES = 8
GREATEST_LANES = 40
GAP = 6                 # between rows
HEADING = 18
AXIS = 20
BETWEEN_BANDS = 22

STYLE = ('text{font-family:"DejaVu Sans Mono","Liberation Mono",Menlo,Consolas,monospace;font-size:11px;fill:#111}'
         '.s{font-size:10px}.h{fill:#555}.b{font-size:10px;text-anchor:middle;stroke:#fff;stroke-width:2.5px;'
         'paint-order:stroke;stroke-linejoin:round}.m{pointer-events:all}')

# Of each kind of mark: its shape, in a place of MARK by LANE, and how it is painted.
MARKS = {
    told.DONE: ('M3.5 1.5V8.5', dict(stroke='#111', stroke_width=2, fill='none')),
    told.WAITS: ('M1 5a2.5 2.5 0 1 0 5 0a2.5 2.5 0 1 0 -5 0Z', dict(stroke='#111', stroke_width=1.2, fill='#fff')),
    told.BACK: ('M0.7 5a2.8 2.8 0 1 0 5.6 0a2.8 2.8 0 1 0 -5.6 0Z', dict(fill='#111')),
    told.REFUSED: ('M0.8 2.2L6.2 7.8M6.2 2.2L0.8 7.8', dict(stroke=RED, stroke_width=2.2, fill='none')),
    told.EXIT: ('M0.8 2.2H6.2V7.8H0.8Z', dict(fill='#111')),
    told.JOB: ('M1 0.5V9.5M1 1H6L4.2 3L6 5H1', dict(stroke='#111', stroke_width=1.2, fill='#fff')),
    told.LATE: ('M1 0.5V9.5M1 1H6.5V5.5H1Z', dict(stroke=RED, stroke_width=1.6, fill=RED)),
}
MARK_WORDS = {
    told.DONE: 'a directive is done',
    told.WAITS: 'begins to wait',
    told.BACK: 'returns from its wait',
    told.REFUSED: 'refused, timed out or broken off',
    told.EXIT: 'exits',
    told.JOB: 'a job ends in time; waits',
    told.LATE: 'a late job ends',
}


class Row(NamedTuple):
    """A row of each band: a heading, or that of a processor or a task with its number."""
    kind: str
    number: int
    text: str


class Band(NamedTuple):
    """Ticks that are drawn beside each other: from one present tick to another, and where they stand."""
    first: int
    last: int
    left: float
    tick: float
    room: float     # behind the last present tick
    closes: bool    # whether it is the last band

    def x(self, tick):
        """Where a present tick stands."""
        return self.left + (tick - self.first) * self.tick

    def right(self):
        """Where the band ends."""
        return self.x(self.last) + self.room

    def clip(self, start, end):
        """The part of some ticks that is in the band, or None."""
        start, end = max(start, self.first), min(end, self.last)
        return (start, end) if start < end else None


class Drawing:
    """What an SVG of a history is made of, and where things stand in it."""

    def __init__(self, history):
        self.history = history
        self.rows = rows_of(history)
        self.left = 64 if history.scenario is None else 162
        self.stretches = grouped(history.stretches, lambda stretch: stretch.processor)
        self.turns = grouped(history.stretches, lambda stretch: stretch.task)
        self.waits = grouped(history.waits, lambda wait: wait.task)
        self.marks = grouped(history.marks, lambda mark: mark.task)
        self.words = set()      # those of the waits that were drawn

    def draw(self):
        """The SVG's text."""
        bands, parts, y = bands_of(self.history, self.left, self.final_room()), [], 4
        for band in bands:
            drawn, height = self.band(band, y)
            parts.append(drawn)
            y += height + BETWEEN_BANDS
        items = legend_items(self)
        wide = float(max([LEAST_WIDTH] + [band.right() + 6 for band in bands]
                         + [8 + legend_width(text) for _, text in items]))
        drawn, height = legend(items, wide, y)
        tasks = sorted({row.number for row in self.rows if row.kind == 'task'} | {1, 2})
        marks = (element('path', d=shape, id=kind, class_='m', **paint) for kind, (shape, paint) in MARKS.items())
        defs = element('defs', ''.join([patterns_of(task) for task in tasks] + list(marks)))
        ground = element('rect', width='100%', height='100%', fill='#fff')
        return element('svg', ''.join([element('style', STYLE), defs, ground, *parts, drawn]),
                       xmlns='http://www.w3.org/2000/svg', width=wide, height=float(y + height), role='img',
                       aria_label='a schedule')

    def final_room(self):
        """The room for the directives of the last present tick: up to four lines of marks, if it isn't too wide."""
        last = self.history.last
        most = max((sum(mark.tick == last for mark in marks) for marks in self.marks.values()), default=0)
        return min(max(26, -(-most // 4) * MARK + 6), 300)

    def band(self, band, top):
        """A band at a height: its text and its height."""
        placed = [(row, *self.lanes(row, band)) for row in self.rows]
        y, parts = top + AXIS, []
        for row, lanes, places in placed:
            if row.kind == 'heading':
                parts.append(element('text', escape(row.text), x=0, y=y + 13, class_='s h'))
                y += HEADING
            elif row.kind == 'processor':
                parts.append(self.processor_row(row, band, y))
                y += BAR + GAP
            else:
                parts.append(self.task_row(row, band, y, lanes, places))
                y += lanes * LANE + BAR + GAP
        return axis(band, top, y, self.history.last == self.history.now) + ''.join(parts), y - top

    def lanes(self, row, band):
        """How many lines of marks a row has in a band; and of each tick how many stand in a line, and their room.

        They stand within the width of a tick, unless that takes too many lines: then they take the room up to the next.
        """
        if row.kind != 'task':
            return 0, {}
        counts = {}
        for mark in self.marks_in(row.number, band):
            counts[mark.tick] = counts.get(mark.tick, 0) + 1
        ends = [band.x(tick) for tick in list(counts)[1:]] + [band.right()]
        most, placed = 1, {}
        for (tick, count), end in zip(counts.items(), ends):
            room = end - band.x(tick)
            if band.tick < room and count <= USUAL_LANES * (band.tick // MARK) and tick < band.last:
                room = band.tick
            fit = max(1, int(room / MARK), -(-count // GREATEST_LANES))
            placed[tick] = fit, room
            most = max(most, -(-count // fit))
        return most, placed

    def marks_in(self, task, band):
        """The marks of a task in a band. Those at its end are in the next band, if there is one."""
        marks, end = self.marks.get(task, []), band.last + 1 if band.closes else band.last
        tick = lambda mark: mark.tick
        return marks[bisect_left(marks, band.first, key=tick):bisect_left(marks, end, key=tick)]

    # Rows

    def processor_row(self, row, band, y):
        """The row of a processor: what it does, tick by tick."""
        ground = f'M{show(float(band.left))} {y + BAR}H{show(float(band.x(band.last)))}'
        parts = [element('text', f'p{row.number}', x=8, y=y + 12), element('path', d=ground, stroke='#ccc')]
        for stretch in within(self.stretches.get(row.number, []), band):
            helper, makers = stretch.helper(), self.makers(stretch.task, stretch.start)
            labels = [f'{stretch.task} {makers[-1][1].name}'] if makers else []
            if helper is not None:
                labels = [f'{stretch.task} for {helper}']
            parts.append(self.block(stretch, band, y, labels + [str(stretch.task)], 'block'))
        return element('g', ''.join(parts))

    def task_row(self, row, band, y, lanes, places):
        """The row of a task: its marks, and below them what it does."""
        parts = [self.task_label(row.number, y + lanes * LANE)]
        y += lanes * LANE
        for start, end in self.history.lives.get(row.number, []):
            if start <= band.last and end >= band.first:
                from_, to = band.x(max(start, band.first)), band.x(min(end, band.last))
                parts.append(element('path', d=f'M{show(from_)} {y + 7.5}H{show(to)}', stroke='#888'))
        turns = within(self.turns.get(row.number, []), band)
        for wait in within(self.waits.get(row.number, []), band):
            parts += self.wait(wait, turns, band, y)
        parts += [self.block(turn, band, y, [f'p{turn.processor}'], 'turn') for turn in turns]
        parts += self.row_marks(row.number, band, y - lanes * LANE, places)
        return element('g', ''.join(parts))

    def block(self, stretch, band, y, labels, class_):
        """A block of a stretch: coloured where the task runs, hatched where it spins, with the border of its helper."""
        start, end = band.clip(stretch.start, stretch.end)
        x, width = band.x(start), (end - start) * band.tick
        what = 'spins' if stretch.spins else 'runs'
        spoken = (f'task {stretch.task} {what} on processor {stretch.processor}, '
                  f'from tick {stretch.start} to {stretch.end}')
        helper = stretch.helper()
        if helper is not None:
            spoken += f', in place of task {helper}' + ('' if stretch.foreign else ', or it took the processor from it')
        elif stretch.foreign:
            spoken += ', which is of another cluster'
        fill = f'url(#{"spin" if stretch.spins else "run"}-{stretch.task})'
        drawn = element('rect', title(spoken), x=x, y=y, width=float(width), height=BAR, fill=fill, stroke='#222',
                        stroke_width=0.8, class_=class_, data_processor=stretch.processor, data_task=stretch.task,
                        data_from=start, data_to=end)
        if stretch.foreign or helper is not None:
            dash = {} if helper is not None and stretch.foreign else {'stroke_dasharray': '5 3'}
            drawn += element('rect', x=x + 2, y=y + 2, width=max(width - 4.0, 1.0), height=BAR - 4, fill='none',
                             stroke='#333' if helper is None else colour_of(helper), stroke_width=3,
                             pointer_events='none', class_='helped', **dash)
        return drawn + fitting(labels, x, width, y)

    def wait(self, wait, turns, band, y):
        """The bars of a wait, between the blocks in which its task spins."""
        parts, at = [], max(wait.start, band.first)
        stop = min(wait.end, band.last)
        blocks = [(turn.start, turn.end) for turn in turns if turn.end > at and turn.start < stop]
        for start, end in blocks + [(stop, stop)]:
            if start > at:
                parts.append(self.wait_bar(wait, band, y, at, min(start, stop)))
            at = max(at, end)
        return parts

    def wait_bar(self, wait, band, y, start, end):
        """A bar of a wait, with its word or, where it is too narrow, the word's first letter."""
        x, width = band.x(start), (end - start) * band.tick
        spoken = (f'task {wait.task} waits in {wait.place[0]}:{wait.place[1]} {wait.word}, '
                  f'from tick {wait.start} to {wait.end}')
        drawn = element('rect', title(spoken), x=x, y=y + 1, width=float(width), height=BAR - 2, fill='#f4f4f4',
                        stroke='#777', stroke_width=0.8, class_='wait')
        self.words.add(wait.word)
        return drawn + fitting([wait.word, wait.word[0]], x, width, y)

    def row_marks(self, task, band, y, places):
        """The marks of a task's directives."""
        parts, tick, count = [], None, 0
        for mark in self.marks_in(task, band):
            count = count + 1 if mark.tick == tick else 0
            tick = mark.tick
            fit, room = places[tick]
            x = band.x(tick) + 1 + (count % fit) * min(MARK, room / fit)
            parts.append(mark_at(mark.kind, x, y + count // fit * LANE, title(mark.text)))
        return parts

    def makers(self, task, tick):
        """Since when and with what the tasks that had an index up to a tick were made, as the scenario tells."""
        return [maker for maker in self.history.makers.get(task, []) if maker[0] <= tick]

    def task_label(self, task, y):
        """The label of a task's row: its colour and number, and its name and priority, as the scenario tells."""
        makers = self.makers(task, self.history.last)
        drawn = element('rect', x=8, y=y, width=24, height=BAR, fill=f'url(#run-{task})', stroke='#222',
                        stroke_width=0.8) + fitting([str(task)], 8, 24, y)
        if makers:
            name = makers[-1][1].name + ('+' if len(makers) > 1 else '')
            spoken = '; '.join(f'from tick {since}: {maker.name}, priority {maker.priority}, cluster {maker.home}'
                               for since, maker in makers)
            drawn += element('text', title(f'task {task}, {spoken}') + escape(name), x=40, y=y + 12)
            drawn += element('text', f'priority {makers[-1][1].priority}', x=80, y=y + 12, class_='s h')
        return drawn


def grouped(items, key):
    """Items by their key, in their order."""
    groups = {}
    for item in items:
        groups.setdefault(key(item), []).append(item)
    return groups


def within(items, band):
    """Of the waits or stretches of a task or a processor, which follow each other, those in the band."""
    first = bisect_right(items, band.first, key=lambda item: item.end)
    return items[first:bisect_left(items, band.last, key=lambda item: item.start)]


def rows_of(history):
    """The rows of each band: the processors, and below them the tasks; by clusters, where these are known."""
    scenario, tasks = history.scenario, sorted(history.lives)
    rows, processor = [], 0
    if scenario is None or len(scenario.clusters) == 1:
        rows = [Row('heading', 0, 'processors')]
        rows += [Row('processor', number, '') for number in range(history.processors)]
        return rows + [Row('heading', 0, 'tasks')] + [Row('task', number, '') for number in tasks]
    for cluster, count in enumerate(scenario.clusters):
        rows.append(Row('heading', cluster, f'processors of cluster {cluster}'))
        rows += [Row('processor', number, '') for number in range(processor, processor + count)]
        processor += count
    homes = {number: history.makers[number][-1][1].home if number in history.makers else None for number in tasks}
    for home in list(range(len(scenario.clusters))) + [None]:
        own = [number for number in tasks if homes[number] == home]
        where = 'of no known cluster' if home is None else f'of cluster {home}'
        rows += [Row('heading', 0, f'tasks {where}')] if own else []
        rows += [Row('task', number, '') for number in own]
    return rows


def bands_of(history, left, room):
    """The bands of a history's window: as few as fit the width, each of a multiple of ten ticks if there are more."""
    ticks = history.last - history.first
    fit = int((WIDTH - left - room - 6) / LEAST_TICK)
    count = max(1, -(-ticks // fit)) if ticks <= fit else -(-ticks // (fit // 10 * 10))
    each = max(1, ticks) if count == 1 else -(-(-(-ticks // count)) // 10) * 10
    tick = min(GREATEST_TICK, int((WIDTH - left - room - 6) / each))
    firsts = list(range(history.first, history.last, each)) or [history.first]
    return [Band(first, min(first + each, history.last), left, tick, room if first == firsts[-1] else 0,
                 first == firsts[-1]) for first in firsts]


def axis(band, top, bottom, is_whole):
    """The ticks along the top of a band, with lines down to its bottom: a thick one at the end, if all is drawn."""
    widest = width_of(str(band.last), SMALL) + 8
    step = next(step for step in (1, 2, 5, 10, 20, 50, 100) if step * band.tick >= widest or step == 100)
    parts, free = [], 0.0
    for tick in range(band.first, band.last + 1):
        x, is_end = float(band.x(tick)), band.closes and tick == band.last
        labelled = tick % step == 0 or tick == band.first or is_end
        near_end = band.closes and not is_end and x + widest > band.x(band.last) and tick != band.first
        shown = labelled and x >= free and not near_end
        if shown:
            free = x + widest
            parts.append(element('text', str(tick), x=x, y=top + 10, class_='s', text_anchor='middle'))
        paint = {'stroke': '#ccc' if shown else '#eee'}
        if is_end:
            paint = {'stroke': '#222', **({'stroke_width': 1.6} if is_whole else {'stroke_dasharray': '4 3'})}
        parts.append(element('path', d=f'M{show(x)} {top + (13 if shown else 16)}V{bottom}', **paint))
    parts.append(element('text', 'tick', x=0, y=top + 10, class_='s h'))
    return element('g', ''.join(parts))


def fitting(labels, x, width, y):
    """The first of some labels that fits a block, in its middle; nothing where none does."""
    for label in labels:
        if width_of(label, SMALL) + 1 <= width:
            return element('text', escape(label), x=x + width / 2, y=y + 11, class_='b', pointer_events='none')
    return ''


def mark_at(kind, x, y, content=''):
    """A mark of a kind."""
    return f'<use href="#{kind}" x="{show(float(x))}" y="{show(float(y))}">{content}</use>'


# The legend

def legend_width(text):
    """The width of an item of the legend."""
    return 30 + width_of(text, LABEL) + 18


def legend(items, wide, y):
    """What the signs mean, in lines that are so wide at most: its text and its height."""
    x, parts, top = 8, [], y
    for sample, text in items:
        if x + legend_width(text) > wide and x > 8:
            x, y = 8, y + 20
        parts.append(sample(x, y) + element('text', escape(text), x=x + 30, y=y + 12))
        x += legend_width(text)
    return element('g', ''.join(parts), class_='legend'), y + 24 - top


def legend_items(drawing):
    """The samples of the signs that a drawing has, and their words."""
    stretches, items = drawing.history.stretches, []
    sample = lambda fill, label, border=None, dash='': lambda x, y: box(x, y, fill, label, border, dash)
    if any(not stretch.spins for stretch in stretches):
        items.append((sample('url(#run-1)', '1'), 'task 1 runs'))
    if any(stretch.spins for stretch in stretches):
        items.append((sample('url(#spin-2)', '2'), 'task 2 spins'))
    if any(stretch.helper() is not None and stretch.foreign for stretch in stretches):
        items.append((sample('url(#run-1)', '1', colour_of(2)), 'task 1 runs in place of task 2, which spins'))
    if any(stretch.helper() is not None and not stretch.foreign for stretch in stretches):
        items.append((sample('url(#run-1)', '1', colour_of(2), '5 3'),
                      'task 1 runs in place of task 2, which spins, or took its processor'))
    if any(stretch.helper() is None and stretch.foreign for stretch in stretches):
        items.append((sample('url(#run-1)', '1', '#333', '5 3'), 'task 1 runs in place of one that is not told'))
    items += [(sample('#f4f4f4', word[0]), f'waits in {word}') for word in sorted(drawing.words)]
    if any(start < end for lives in drawing.history.lives.values() for start, end in lives):
        items.append((line_sample, 'ready, suspended or dormant: which is not told'))
    kinds = {mark.kind for mark in drawing.history.marks}
    mark = lambda kind: lambda x, y: mark_at(kind, x + 9, y + 3)
    return items + [(mark(kind), MARK_WORDS[kind]) for kind in MARKS if kind in kinds]


def box(x, y, fill, label, border, dash):
    """A block of the legend."""
    drawn = element('rect', x=x, y=y, width=24, height=BAR, fill=fill, stroke='#222', stroke_width=0.8)
    if border:
        drawn += element('rect', x=x + 2, y=y + 2, width=20, height=BAR - 4, fill='none', stroke=border, stroke_width=3,
                         **({'stroke_dasharray': dash} if dash else {}))
    return drawn + fitting([label], x, 24, y)


def line_sample(x, y):
    """The line of a task that neither runs nor waits."""
    return element('path', d=f'M{x} {y + 7.5}H{x + 24}', stroke='#888')
