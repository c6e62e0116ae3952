"""Reads as much of a scenario as a picture shows: clusters, bodies, and the tasks of the init lines.

It isn't held against the rules of the language: `./rtems_smp plan` does that. What can't be read at all is a fault.
"""
import re
from typing import NamedTuple

GREATEST_BYTES = 1_048_576
GREATEST_PROCESSORS = 8
NUMBER = re.compile(r'0|[1-9][0-9]{0,9}|0x[0-9a-f]{8}')


class ScenarioFault(Exception):
    """A text that is no scenario's: the line, from 1, and why."""

    def __init__(self, line, why):
        super().__init__(f'scenario line {line}: {why}')


class Maker(NamedTuple):
    """With what a task was made: its name, its priority, and the number of its cluster."""
    name: str
    priority: int
    home: int


class Scenario:
    """The clusters, as the numbers of their processors; the bodies, as the words of their lines; and the init tasks."""

    def __init__(self):
        self.clusters = []
        self.bodies = {}
        self.inits = []

    def processors(self):
        """How many processors all clusters have."""
        return sum(self.clusters)

    def cluster_of(self, processor):
        """The number of the cluster that a processor is of."""
        behind = 0
        for cluster, count in enumerate(self.clusters):
            behind += count
            if processor < behind:
                return cluster
        raise IndexError(processor)

    def words_at(self, body, line):
        """The words of a line of a body, `task.exit` for the one behind its last, and none for others."""
        lines = self.bodies.get(body)
        if lines is None or line > len(lines) + 1:
            return []
        return lines[line - 1] if line <= len(lines) else ['task.exit']


def value(word):
    """The value of a word that spells a number."""
    return int(word, 16 if word.startswith('0x') else 10)


def number(word, line):
    """The number that a word spells; a fault where it spells none."""
    if not NUMBER.fullmatch(word):
        raise ScenarioFault(line, f'{word[:20]} is no number')
    return value(word)


def statements(text):
    """The lines that aren't skipped: the number of each, and its words."""
    for at, line in enumerate(text.split('\n'), 1):
        if any(not ' ' <= letter <= '~' for letter in line):
            raise ScenarioFault(at, 'a letter that is none of printable ASCII')
        words = line.split()
        if words and not words[0].startswith('#'):
            yield at, words


def expect(words, count, line):
    """A fault where a line hasn't so many words."""
    if len(words) != count:
        raise ScenarioFault(line, f'{words[0][:20]} has {count} words here')


def read_cluster(scenario, words, line):
    """Reads a line `cluster M`."""
    expect(words, 2, line)
    scenario.clusters.append(number(words[1], line))
    if scenario.clusters[-1] == 0 or scenario.processors() > GREATEST_PROCESSORS:
        raise ScenarioFault(line, f'a cluster has at least one processor, and all have at most {GREATEST_PROCESSORS}')


def read_body_line(scenario, body, words, line):
    """Reads a line of a body. Only the operands of which a picture makes use are looked at."""
    if words[0] == 'task.create':
        expect(words, 4, line)
        number(words[2], line)
    elif words[0] == 'period.period':
        expect(words, 3, line)
    elif words[0] == 'task.wake_after':
        expect(words, 2, line)
        number(words[1], line)
    scenario.bodies[body].append(words)


def read_init(scenario, words, line):
    """Reads a line `init NAME CLUSTER PRIORITY B`."""
    expect(words, 5, line)
    home = number(words[2], line)
    if home >= len(scenario.clusters):
        raise ScenarioFault(line, f'there is no cluster {home}')
    scenario.inits.append(Maker(words[1], number(words[3], line), home))


def read_scenario(data):
    """The scenario of a text, which is bytes; raises ScenarioFault."""
    if len(data) > GREATEST_BYTES:
        raise ScenarioFault(0, f'it has more than {GREATEST_BYTES:,} bytes')
    scenario, body, at = Scenario(), None, 0
    lines = statements(data.decode('latin-1'))
    for at, words in lines:
        if words != ['rtems', '1']:
            raise ScenarioFault(at, "the first line that isn't skipped must be rtems 1")
        break
    else:
        raise ScenarioFault(at + 1, 'there is no line rtems 1')
    for at, words in lines:
        if body is not None:
            body = None if words == ['end'] else body
            if body is not None:
                read_body_line(scenario, body, words, at)
        elif words[0] == 'body':
            expect(words, 2, at)
            body = words[1]
            scenario.bodies[body] = []
        elif words[0] == 'cluster':
            read_cluster(scenario, words, at)
        elif words[0] == 'init':
            read_init(scenario, words, at)
        elif words[0] not in ('ticks', 'limit'):
            raise ScenarioFault(at, f'{words[0][:20]} is no word of a line here')
    if body is not None or not scenario.clusters:
        raise ScenarioFault(at + 1, 'the text ends inside a body' if body is not None else 'there is no cluster')
    return scenario
