"""Elements of SVG and HTML as text, and the colours and patterns of tasks.

The colours are six of the eight that Okabe and Ito chose for colour-blind readers; black is for outlines and red for
what failed. A task's colour and its pattern go round with different lengths, so that thirty tasks in a row look unlike
each other, and neighbours differ in black and white too. The number of the task stands beside them everywhere.
"""
from functools import cache
from html import escape

# Of each colour, and of the lines of a pattern on it.
COLOURS = (
    ('#56b4e9', '#003a5c'),     # sky blue
    ('#e69f00', '#5c3f00'),     # orange
    ('#009e73', '#d9fff3'),     # bluish green
    ('#f0e442', '#6b6500'),     # yellow
    ('#cc79a7', '#5a1238'),     # reddish purple
    ('#0072b2', '#d6efff'),     # blue
)
# What is drawn on the colour, in a square of eight.
PATTERNS = (
    '',
    '<circle cx="2" cy="2" r="1.1" fill="{line}"/><circle cx="6" cy="6" r="1.1" fill="{line}"/>',
    '<path d="M0 2H8M0 6H8" stroke="{line}" stroke-width="1"/>',
    '<path d="M2 0V8M6 0V8" stroke="{line}" stroke-width="1"/>',
    '<path d="M0 4H8M4 0V8" stroke="{line}" stroke-width="1"/>',
)
RED = '#c80000'
LETTER = 0.61   # the width of a letter of a monospaced font, of its size; those in use have at most 0.602


def element(name, content='', /, **attributes):
    """An element. The names of attributes have `_` for `-`, and one at their end is dropped; texts are escaped."""
    words = [f' {spelled(key)}="{show(value)}"' for key, value in attributes.items()]
    return f'<{name}{"".join(words)}>{content}</{name}>' if content else f'<{name}{"".join(words)}/>'


@cache
def spelled(key):
    """The name of an attribute."""
    return key.rstrip('_').replace('_', '-')


def show(value):
    """A value of an attribute: numbers with at most one decimal, and texts escaped."""
    if isinstance(value, float):
        return f'{value:.1f}'.removesuffix('.0')
    return escape(value) if isinstance(value, str) else str(value)


def title(text):
    """What a browser shows over an element."""
    return f'<title>{escape(text)}</title>'


def width_of(text, size):
    """How wide a text is at most, in a monospaced font of a size."""
    return len(text) * size * LETTER


def colour_of(task):
    """The colour of a task."""
    return COLOURS[(task - 1) % len(COLOURS)][0]


def pattern(name, content):
    """A pattern of squares of eight."""
    return element('pattern', content, id=name, width=8, height=8, patternUnits='userSpaceOnUse')


def patterns_of(task):
    """The patterns of a task: `run-N` where it runs, and `spin-N`, the hatched one, where it spins."""
    colour, line = COLOURS[(task - 1) % len(COLOURS)]
    drawn = PATTERNS[(task - 1) % len(PATTERNS)].format(line=line)
    run = element('rect', width=8, height=8, fill=colour) + drawn
    hatch = (element('rect', width=8, height=8, fill='#fff')
             + element('path', d='M-2 2L2 -2M0 8L8 0M6 10L10 6', stroke=colour, stroke_width=3)
             + element('path', d='M-2 2L2 -2M0 8L8 0M6 10L10 6', stroke='#222', stroke_width=0.7))
    return pattern(f'run-{task}', run) + pattern(f'spin-{task}', hatch)
