"""Stories held to answer bytes: story.py STORIES TAPES, each NAME.story against NAME.answers. Run by tests/story.sh; standard library only.

A story is read back by itself: its lines are joined, and each entry of the machine is turned into the answer that it tells, ECH by presence
and length. The answer bytes are read the same way, and both must be equal. Beside that: at most 100 columns of plain ASCII, an entry for
each event and each answer, times since the first event, a clock gone back said where it goes back, and the counts of the summary."""

import ipaddress
import os
import re
import sys

KINDS = ['HTTPS', 'AAAA', 'A']
RANKS = ['H3', 'H2 or H1', 'H2', 'H1']
REFUSALS = ['Cut', 'BadNumber', 'OutOfRange', 'BadName', 'TooMany', 'Trailing', 'UnknownId', 'AlreadyAnswered', 'WrongType',
            'StaleRefresh', 'EchNotSent', 'AlreadyEnded']
ENTRY = re.compile(r'(\d+) ns ([+-])(\d+\.\d{3}) ms (host|machine): (?:\(the clock went back by (\d+) ns\) )?(.*)')


def joined(text):
    """The entries of a story, each on one line again."""
    entries = []
    for line in text.split('\n')[:-1]:
        if len(line) > 100:
            raise ValueError(f'{len(line)} columns')
        if not all(' ' <= c <= '~' for c in line):
            raise ValueError(f'a sign that is not plain: {line!r}')
        if not line.startswith('    '):
            entries.append(line)
        elif entries[-1].endswith('\\'):
            entries[-1] = entries[-1][:-1] + line[4:]
        else:
            entries[-1] += ' ' + line[4:]
    return entries


# --- answers in bytes; ECH becomes its length, or None


class Bytes:
    def __init__(self, data):
        self.data, self.at = data, 0

    def number(self):
        value = shift = 0
        while True:
            b = self.data[self.at]
            self.at += 1
            value |= (b & 127) << shift
            if b < 128:
                return value
            shift += 7

    def take(self, n):
        self.at += n
        return self.data[self.at - n:self.at]


def target(s):
    kind = s.number()
    if kind == 0:
        return ('v4', str(ipaddress.IPv4Address(s.take(4))), 0, s.number())
    if kind == 1:
        address = str(ipaddress.IPv6Address(s.take(16)))
        scope = s.number()
        return ('v6', address, scope, s.number())
    name = s.take(s.number()).decode('ascii')
    return ('name', name, 0, s.number())


def answer(s):
    kind = s.number()
    if kind == 1:
        head = (s.number(), s.number(), s.number())
        return ('query', *head, s.take(s.number()).decode('ascii'))
    if kind == 3:
        head = (s.number(), s.number(), s.number())
        to = target(s)
        ech = s.number()
        s.take(max(ech - 1, 0))
        return ('attempt', *head, to, ech - 1 if ech else None)
    if kind in (0, 5):
        return (kind,)
    return (kind, s.number())


def answers(data):
    s, found = Bytes(data), []
    while s.at < len(data):
        found.append(answer(s))
    return found


# --- answers in words


def told_target(text):
    m = re.fullmatch(r'\[([0-9a-f:]+)(?:%(\d+))?\]:(\d+)', text)
    if m:
        groups = m.group(1).split(':')
        if len(groups) != 8:
            raise ValueError(f'{text}: {len(groups)} groups')
        return ('v6', str(ipaddress.IPv6Address(m.group(1))), int(m.group(2) or 0), int(m.group(3)))
    host, port = text.rsplit(':', 1)
    if re.fullmatch(r'\d+\.\d+\.\d+\.\d+', host):
        return ('v4', host, 0, int(port))
    return ('name', host, 0, int(port))


def told_ech(text):
    if text == 'no ECH':
        return None
    m = re.fullmatch(r'ECH of length (\d+)(?: \(([0-9a-f]+)(?:\.\.)?\))?', text)
    length = int(m.group(1))
    if length and len(m.group(2)) != 2 * min(length, 8):
        raise ValueError(f'{text}: not the first bytes')
    return length


def told(text):
    words = {'waiting': (0,), 'succeeded': (5,), 'accepted': (8, 0), 'failed: DNS, there was nothing to attempt': (6, 0),
             'failed: connection, no attempt succeeded': (6, 1), 'full: no room for another query': (7, 0),
             'full: no room for another attempt': (7, 1)}
    if text in words:
        return words[text]
    m = re.fullmatch(r'timer of (\d+) ns \((\d+)\.(\d{3}) ms\)', text)
    if m:
        ns = int(m.group(1))
        if (ns // 1000000, ns // 1000 % 1000) != (int(m.group(2)), int(m.group(3))):
            raise ValueError(f'{text}: two times')
        return (2, ns)
    m = re.fullmatch(r'cancel attempt (\d+)', text)
    if m:
        return (4, int(m.group(1)))
    m = re.fullmatch(r'query (\d+): (HTTPS|AAAA|A) of ([^ ,]+)(, a refresh)?', text)
    if m:
        return ('query', int(m.group(1)), KINDS.index(m.group(2)), 0 if m.group(4) else 1, m.group(3))
    m = re.fullmatch(r'attempt (\d+)(, an ECH retry)?: (H3|H2 or H1|H2|H1) to ([^ ,]+), (.*)', text)
    if m:
        head = (int(m.group(1)), 1 if m.group(2) else 0, RANKS.index(m.group(3)))
        return ('attempt', *head, told_target(m.group(4)), told_ech(m.group(5)))
    m = re.fullmatch(r'refused, (\d+) (\w+): .*', text)
    number = int(m.group(1))
    if REFUSALS[number - 1] != m.group(2) or (number < 7) != bool(re.search(r'; at byte \d+ of the body$', text)):
        raise ValueError(f'{text}: not the refusal')
    return (8, number)


def check_moments(entries):
    """ms since the first event, and that a clock gone back is said at the host's entry."""
    moments = [int(m.group(1)) for m in entries]
    last = moments[0] if moments else 0
    for moment, m in zip(moments, entries):
        away = abs(moment - moments[0])
        sign = '-' if moment < moments[0] else '+'
        if (m.group(2), m.group(3)) != (sign, f'{away // 1000000}.{away // 1000 % 1000:03}'):
            raise ValueError(f'{m.group(0)}: not the time since {moments[0]} ns')
        back = str(last - moment) if moment < last else None
        if m.group(5) != back:
            raise ValueError(f'{m.group(0)}: the clock went back by {back}')
        last = moment


def check_counts(counted, spoken):
    asked = [a for a in spoken if a[0] in ('query', 'attempt')]
    queries = [a for a in asked if a[0] == 'query']
    attempts = [a for a in asked if a[0] == 'attempt']
    want = [sum(a[3] for a in queries), sum(1 - a[3] for a in queries), len(attempts), sum(a[2] for a in attempts),
            sum(a[0] == 4 for a in spoken), sum(a[0] == 8 and a[1] > 0 for a in spoken), sum(a[0] != 8 for a in spoken)]
    if [int(n) for n in counted.groups()] != want:
        raise ValueError(f'{counted.group(0)}: the answers say {want}')


def check(data, text):
    lines = joined(text)
    entries = [m for m in map(ENTRY.fullmatch, lines) if m]
    if [m.group(4) for m in entries] != ['host', 'machine'] * (len(entries) // 2):
        raise ValueError('not one entry an event and one an answer')
    spoken = [told(m.group(6)) for m in entries if m.group(4) == 'machine']
    want = answers(data)
    for i, (a, b) in enumerate(zip(spoken, want)):
        if a != b:
            raise ValueError(f'answer {i}: told {a}, is {b}')
    if len(spoken) != len(want):
        raise ValueError(f'{len(spoken)} answers told of {len(want)}')
    check_moments(entries)
    counted = re.compile(r'Counts: queries (\d+), refreshes (\d+), attempts (\d+), of them ECH retries (\d+), cancels (\d+), '
                         r'refused inputs (\d+), calls (\d+)')
    summary = [m for m in map(counted.fullmatch, lines) if m]
    if entries and len(summary) != 1:
        raise ValueError('no summary')
    for m in summary:
        check_counts(m, spoken)
    return len(spoken)


def read(path):
    with open(path, 'rb') as f:
        return f.read()


def check_all(stories, tapes):
    names = sorted(name[:-6] for name in os.listdir(stories) if name.endswith('.story'))
    total = faults = 0
    for name in names:
        try:
            total += check(read(f'{tapes}/{name}.answers'), read(f'{stories}/{name}.story').decode('ascii'))
        except Exception as e:
            faults += 1
            print(f'{name}: {type(e).__name__}: {e}')
    print(f'{len(names)} stories, {total} answers read back, {faults} faults')
    return faults or not total


if __name__ == '__main__':
    sys.exit(1 if check_all(sys.argv[1], sys.argv[2]) else 0)
