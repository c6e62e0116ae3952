"""The HTML page around a drawing: what was read, what was left out, the statistics, and what a picture doesn't tell."""
from pictures import history as told
from pictures.svg import element, escape

STYLE = """
body { font: 14px/1.45 "DejaVu Sans", "Liberation Sans", Arial, sans-serif; color: #111; margin: 16px; }
h1 { font-size: 18px; margin: 0 0 8px; }
h2 { font-size: 15px; margin: 20px 0 6px; }
p, ul { margin: 6px 0; max-width: 76em; }
ul { padding-left: 20px; }
.scroll { overflow-x: auto; margin: 12px 0; }
.scroll svg { display: block; }
.left-out { font-weight: bold; }
table { border-collapse: collapse; }
th, td { border: 1px solid #999; padding: 3px 8px; text-align: right; }
th { background: #eee; text-align: center; font-weight: normal; vertical-align: bottom; }
.late { color: #c80000; font-weight: bold; }
@media print { .scroll { overflow: visible; } }
"""

NOTES = (
    'A block from N to N + 1 is what a processor does through the tick N + 1. Directives take no time: those of the '
    'present tick N stand in their order from N on.',
    'A wait is drawn up to the return from it. It may have ended before: the task returns when it gets a processor. '
    'Only of a sleep the scenario tells the end. A wait without a return is drawn up to the end, or to the create of '
    'another task with its number.',
    'Whether a task that neither runs nor waits is ready, suspended or dormant, and when a task is deleted, stands '
    'nowhere in a schedule.',
)
SPINNING = (
    'A task that runs in place of another one, which spins, has a border in the colour of that one. A schedule '
    "doesn't name it: it is the task that was seen last to keep the processor, and still waits for a semaphore. Where "
    'the border is dashed, the task may also have taken the processor from it: only a scenario of several clusters '
    'tells the two apart.'
)
QUESTIONS = (
    'A period.period with the status 6 is drawn as the end of a late job. With the length 0 it is only a question; the '
    'scenario tells which it is.'
)


def counted(number, one, many):
    """So many of something."""
    return f'{number:,} {one if number == 1 else many}'


def summary(history):
    """What the schedule has, in sentences."""
    end = 'The history was cut at its limit of entries' if history.cut else 'The run reached its end'
    counts = [counted(history.processors, 'processor', 'processors'), counted(len(history.lives), 'task', 'tasks'),
              counted(history.directives, 'entry', 'entries')]
    return f'{", ".join(counts)} of directives. {end} at tick {history.now:,}.'


def left_out(history):
    """What isn't drawn, in sentences."""
    lines = []
    if history.first > 0 or history.last < history.now:
        lines.append(f'Drawn are the ticks from {history.first:,} to {history.last:,} of {history.now:,}; '
                     '--ticks FROM TO draws others.')
    if history.directives_in_window > len(history.marks):
        lines.append(f'{history.directives_in_window - len(history.marks):,} entries of directives have no mark: only '
                     f'the first {told.GREATEST_MARKS:,} of these ticks, up to tick {history.marks[-1].tick:,}, have one.')
    if history.unknown_count:
        lines.append(f'{history.unknown_count:,} lines are of kinds that are not drawn; the first are: '
                     + '; '.join(history.unknown) + '.')
    return lines


def statistics(history):
    """The table of the periods' statistics."""
    head = ('<tr><th rowspan="2">the period\'s id</th><th rowspan="2">how many jobs<br/>have ended</th>'
            '<th rowspan="2">how many of them<br/>were late</th><th colspan="3">computed ticks</th>'
            '<th colspan="3">elapsed ticks</th></tr>'
            '<tr>' + '<th>the least</th><th>the greatest</th><th>all</th>' * 2 + '</tr>')
    rows = []
    for period, numbers in history.statistics:
        cells = [element('td', escape(period))]
        for at, number in enumerate(numbers):
            cells.append(element('td', f'{number:,}', **({'class_': 'late'} if at == 1 and number else {})))
        rows.append(element('tr', ''.join(cells)))
    return element('h2', 'Statistics of the periods') + element('table', head + ''.join(rows))


def notes(history):
    """What a picture doesn't tell, and how to read it."""
    lines = list(NOTES)
    if any(stretch.helper() is not None or stretch.foreign for stretch in history.stretches):
        lines.append(SPINNING)
    if history.scenario is None and any(mark.kind == told.LATE for mark in history.marks):
        lines.append(QUESTIONS)
    return element('h2', 'How to read it') + element('ul', ''.join(element('li', escape(line)) for line in lines))


def page(history, svg, name):
    """The HTML page of a history with its drawing; `name` is the schedule's."""
    heading = f'Schedule {name}'.strip()
    parts = [element('h1', escape(heading)), element('p', escape(summary(history)))]
    parts += [element('p', escape(line), class_='left-out') for line in left_out(history)]
    parts.append(element('div', svg, class_='scroll'))
    parts += [statistics(history)] if history.statistics else []
    parts.append(notes(history))
    head = (element('meta', charset='utf-8') + element('meta', name='viewport', content='width=device-width')
            + element('title', escape(heading)) + element('style', STYLE))
    body = element('body', '\n'.join(parts))
    return '<!DOCTYPE html>\n' + element('html', element('head', head) + body, lang='en') + '\n'
