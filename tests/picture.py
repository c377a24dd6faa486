"""Pictures held to tapes and answer bytes: picture.py PICTURES TAPES .., each NAME.svg of a folder against NAME.tape and NAME.answers of the
next. Run by tests/picture.sh; standard library only.

A picture must be XML of plain ASCII with known elements and attributes, all of it on the page, no text over another text or over a mark. The
race is gone through again from the tape and the answers: a row for each thing asked for, in the order asked, whose label tells the answer,
whose bar begins and ends at the right columns, with the mark of what became of it; the winner, the title, the numbers of the scale, calls,
timers, and each place where the clock went back."""

import os
import re
import sys
import xml.etree.ElementTree as ElementTree

import story

NAMESPACE = '{http://www.w3.org/2000/svg}'
LEFT, WIDE, FIRST, STEP, WAITS, BACKS = 390, 680, 152, 14, 132, 120
LINK = '{http://www.w3.org/1999/xlink}href'
KNOWN = {'svg': {'width', 'height', 'viewBox'}, 'title': set(), 'style': set(), 'defs': set(), 'rect': {'x', 'y', 'width', 'height', 'fill'},
         'path': {'id', 'class', 'd'}, 'use': {LINK, 'x', 'y'}, 'text': {'class', 'x', 'y'}}
BARS = {'query', 'refresh', 'attempt', 'retry', 'backward'}
MARKS = {'answered', 'succeeded', 'failed', 'cancelled', 'open'}


def need(holds, words):
    if not holds:
        raise ValueError(words)


def ms(ns):
    return f'{"-" if ns < 0 else ""}{abs(ns) // 1000000}.{abs(ns) // 1000 % 1000:03}'


# --- the race, from the tape and the answers


class Ask:
    def __init__(self, said, moment):
        self.said, self.start, self.end, self.fate = said, moment, None, 'open'
        self.id = said[1]
        if said[0] == 'query':
            self.sort = 'query' if said[3] else 'refresh'
        else:
            self.sort = 'retry' if said[2] else 'attempt'


class Race:
    def __init__(self, tape, data):
        s = story.Bytes(tape)
        s.take(s.number())
        self.asks, self.calls, self.moments, self.winner = [], [], [], None
        for said in story.answers(data):
            moment = s.number()
            body = s.take(s.number())
            self.moments.append(moment)
            self.step(moment, body, said)
        self.place, self.cut = s.at, s.at < len(tape)
        for ask in self.asks:
            if ask.fate == 'open':
                ask.end = self.moments[-1]

    def close(self, number, fate, moment):
        for ask in self.asks:
            if ask.id == number and ask.fate == 'open':
                ask.fate, ask.end = fate, moment
                return ask
        return None

    def step(self, moment, body, said):
        if said[0] != 8:
            self.calls.append((moment, said))
        if said[0] in ('query', 'attempt'):
            self.asks.append(Ask(said, moment))
        elif said[0] == 4:
            self.close(said[1], 'cancelled', moment)
        elif said == (8, 0):
            s = story.Bytes(body)
            kind, number = s.number(), s.number()
            if kind < 4:
                self.close(number, 'failed' if s.number() >= 2 else 'answered', moment)
            else:
                ask = self.close(number, 'succeeded' if kind == 4 else 'failed', moment)
                if kind == 4 and ask and self.winner is None:
                    self.winner = ask

    def column(self, moment):
        low, high = min(self.moments, default=0), max(self.moments, default=0)
        ns, total = moment - low, max(high - low, 1000)
        if 2 * 10**16 <= ns < total:
            # a long time is divided first
            return LEFT + ns // (total // WIDE + 1)
        return LEFT + ns * WIDE // total

    def backs(self):
        return [(a - b, b) for a, b in zip(self.moments, self.moments[1:]) if b < a]


# --- the page


def box_of(d):
    """The box around a path, from its commands."""
    words = re.findall(r'[A-Za-z]|-?\d+(?:\.\d+)?', d)
    x = y = 0.0
    xs, ys = [], []
    i, command = 0, ''
    while i < len(words):
        if words[i].isalpha():
            command = words[i]
            i += 1
            if command == 'z':
                continue
        n = {'M': 2, 'm': 2, 'l': 2, 'H': 1, 'V': 1, 'h': 1, 'v': 1, 'a': 7}[command]
        v = [float(w) for w in words[i:i + n]]
        i += n
        if command in 'MHV':
            x, y = {'M': lambda: v, 'H': lambda: [v[0], y], 'V': lambda: [x, v[0]]}[command]()
        else:
            x += v[-2] if n > 1 else v[0] if command == 'h' else 0
            y += v[-1] if n > 1 else v[0] if command == 'v' else 0
        if command == 'a':
            ys += [y - v[0], y + v[0]]
        if command != 'm':
            xs.append(x)
            ys.append(y)
    return min(xs), min(ys), max(xs), max(ys)


class Text:
    def __init__(self, e):
        self.kind, self.x, self.y = e.get('class'), int(e.get('x')), int(e.get('y'))
        whole = e.find(NAMESPACE + 'title')
        self.shown = whole.tail if whole is not None else e.text or ''
        self.whole = whole.text if whole is not None else self.shown
        if whole is not None:
            need(self.shown[-1] == '\u2026' and self.whole.startswith(self.shown[:-1]), f'{self.shown}: not the begin of {self.whole}')
        wide = len(self.shown) * (8.54 if self.kind == 'title' else 6.1)
        left = {'number': self.x - wide / 2, 'took': self.x - wide}.get(self.kind, self.x)
        self.box = (left, self.y - (11 if self.kind == 'title' else 8), left + wide, self.y + 2)


class Path:
    def __init__(self, e):
        self.kind, self.box = e.get('class'), box_of(e.get('d'))
        m = re.match(r'M(\d+) (\d+)(?:H(\d+)$)?', e.get('d'))
        self.x, self.y, self.end = int(m.group(1)), int(m.group(2)), int(m.group(3) or 0)


class Mark:
    def __init__(self, e, shapes):
        self.kind, self.x, self.y = e.get(LINK)[1:], int(e.get('x')), int(e.get('y'))
        a, b, c, d = shapes[self.kind]
        self.box = (self.x + a, self.y + b, self.x + c, self.y + d)


class Page:
    def __init__(self, data):
        need(all(b == 10 or 32 <= b < 127 for b in data), 'a byte that is not plain')
        root = ElementTree.fromstring(data)
        for e in root.iter():
            kind = e.tag.replace(NAMESPACE, '')
            need(kind in KNOWN and set(e.keys()) <= KNOWN[kind], f'{kind} {e.keys()}')
        self.height = int(root.get('height'))
        need((root.get('width'), root.get('viewBox')) == ('1200', f'0 0 1200 {self.height}'), 'not the size of the page')
        self.title = root.find(NAMESPACE + 'title').text
        self.texts = [Text(e) for e in root.iter(NAMESPACE + 'text')]
        shapes = {e.get('id'): box_of(e.get('d')) for e in root.find(NAMESPACE + 'defs')}
        self.paths = [Path(e) for e in root.findall(NAMESPACE + 'path')] + [Mark(e, shapes) for e in root.iter(NAMESPACE + 'use')]
        self.won = [p.y for p in self.paths if p.kind == 'won']
        self.inside()
        self.apart()

    def inside(self):
        for part in self.texts + self.paths:
            a, b, c, d = part.box
            need(0 <= a and 0 <= b and c <= 1200 and d <= self.height, f'{part.kind} at {part.x} {part.y}: outside the page')

    def apart(self):
        """No text over another, and none over a bar, a mark or a line; only the winner's frame is around some."""
        paths = [p for p in self.paths if p.kind != 'won']
        for i, t in enumerate(self.texts):
            a, b, c, d = t.box
            for o in self.texts[i + 1:] + paths:
                p, q, r, s = o.box
                need(c <= p or r <= a or d <= q or s <= b, f'{t.kind} at {t.x} {t.y} over {o.kind} at {o.x} {o.y}')

    def of(self, kind):
        return [t for t in self.texts if t.kind == kind]

    def at(self, y, kinds):
        return [p for p in self.paths if p.y == y and p.kind in kinds]


# --- the page held to the race


def check_row(page, race, i, ask):
    y = FIRST + STEP * i
    label, = [t for t in page.of('label') if t.y == y + 3]
    need(story.told(label.whole) == ask.said, f'row {i}: {label.whole} is not {ask.said}')
    bar, = page.at(y, BARS)
    begin = page.at(y, {'begin'})
    mark, = page.at(y, MARKS)
    want = (race.column(ask.start), race.column(ask.end), ask.sort if ask.start <= ask.end else 'backward', ask.fate)
    need((bar.x, bar.end, bar.kind, mark.kind) == want, f'row {i}: {(bar.x, bar.end, bar.kind, mark.kind)} is not {want}')
    need([p.x for p in begin] == ([bar.x] if bar.x != bar.end else []), f'row {i}: no stroke where the bar begins')
    need(mark.x == bar.end, f'row {i}: the mark is beside the bar')
    took, = [t for t in page.of('took') if t.y == y + 3]
    need(took.shown == ('open' if ask.fate == 'open' else ms(ask.end - ask.start)), f'row {i}: took {took.shown}')


def check_rows(page, race):
    labels = [t for t in page.of('label') if t.y >= FIRST]
    if not race.asks:
        need([t.shown for t in labels] == ['nothing was asked for'], 'rows of nothing')
        return
    need(len(labels) == len(race.asks), f'{len(labels)} rows of {len(race.asks)}')
    for i, ask in enumerate(race.asks):
        check_row(page, race, i, ask)
    won = [FIRST + STEP * race.asks.index(race.winner)] if race.winner else []
    stars = [p.y for p in page.paths if p.kind == 'star' and p.y >= FIRST]
    need(page.won == won and stars == won, f'winner marked at {page.won} and {stars}, is at {won}')


def check_title(page, race):
    m = re.fullmatch(r'(\S+), port (\d+): (.*)', page.title)
    shown, = page.of('title')
    host = m.group(1) if len(m.group(1)) <= 63 else m.group(1)[:63] + '\u2026'
    need(shown.shown == host + page.title[len(m.group(1)):], f'title {shown.shown}')
    first = race.moments[0] if race.moments else 0
    if race.winner:
        want = f'won after {ms(race.winner.end - first)} ms by attempt {race.winner.id}'
    elif not race.moments:
        want = 'no event'
    elif not race.calls:
        want = 'no call'
    else:
        moment, said = race.calls[-1]
        want = f'{"failed" if said[0] == 6 else "not decided"} after {ms(moment - first)} ms'
    need(m.group(3) == want, f'title {m.group(3)}, not {want}')


def check_note(page, race, status):
    note, = page.of('note') + page.of('alarm')
    backs = race.backs()
    want = []
    if race.cut:
        want.append(rf'The tape stops at byte {race.place}: {status or "[0-9]+"} \w+: .*\.')
    if len(backs) == 1:
        want.append(f'The clock went back once, by {ms(backs[0][0])} ms.')
    elif backs:
        want.append(f'The clock went back {len(backs)} times, by up to {ms(max(backs)[0])} ms.')
    kind = 'alarm' if want else 'note'
    want = ' '.join(want) or 'The tape was replayed to its end; the clock never went back.'
    need(note.kind == kind and re.fullmatch(want, note.shown), f'{note.kind} {note.shown}, not {want}')


def check_scale(page, race):
    numbers = page.of('number')
    need(0 < len(numbers) < 9, f'{len(numbers)} numbers')
    need([t.x for t in numbers] == [p.x for p in page.paths if p.kind == 'grid'], 'a number without its line')
    need(all(a.x < b.x for a, b in zip(numbers, numbers[1:])), 'numbers out of order')
    for t in numbers:
        whole, _, part = t.shown.lstrip('-').partition('.')
        ns = int(whole) * 1000000 + int(part or 0) * 1000
        moment = (race.moments[0] if race.moments else 0) + (-ns if t.shown[0] == '-' else ns)
        need(race.column(moment) == t.x, f'{t.shown} at {t.x}, not {race.column(moment)}')


def check_waits(page, race):
    need({p.x for p in page.at(WAITS, {'begin'})} == {race.column(m) for m, _ in race.calls}, 'calls')
    need([p.x for p in page.at(BACKS, {'back'})] == [race.column(b) for _, b in race.backs()], 'places where the clock went back')
    want = []
    ends = [m for m, _ in race.calls[1:]] + race.moments[-1:]
    for (moment, said), end in zip(race.calls, ends):
        if said[0] == 2:
            end = max(moment, min(end, moment + said[1]))
            want.append((race.column(moment), race.column(end)))
    need([(p.x, p.end) for p in page.at(WAITS, {'timer'})] == [(a, b) for a, b in want if a < b], 'timers')


def check(tape, data, status, place, svg):
    page = Page(svg)
    if page.title.startswith('No race'):
        alarm, = page.of('alarm')
        need(not data and place in (None, 0) and alarm.shown.startswith('The tape stops at byte 0'), 'a race after all')
        need(status is None or f': {status} ' in alarm.shown, f'{alarm.shown}: the status is {status}')
        return 0
    need(place != 0, 'a race without a configuration')
    race = Race(tape, data)
    check_title(page, race)
    check_note(page, race, status)
    check_rows(page, race)
    check_scale(page, race)
    check_waits(page, race)
    return len(race.asks)


def read(path):
    with open(path, 'rb') as f:
        return f.read()


def result(path):
    """Status and place of a replay, where they are stored."""
    if not os.path.exists(path):
        return None, None
    status, place = read(path).split()[:2]
    return int(status), int(place)


def check_all(folders):
    pictures = rows = faults = 0
    for drawn, tapes in folders:
        for name in sorted(name[:-4] for name in os.listdir(drawn) if name.endswith('.svg')):
            pictures += 1
            try:
                tape, data, svg = read(f'{tapes}/{name}.tape'), read(f'{tapes}/{name}.answers'), read(f'{drawn}/{name}.svg')
                rows += check(tape, data, *result(f'{tapes}/{name}.result'), svg)
            except Exception as e:
                faults += 1
                print(f'{name}: {type(e).__name__}: {e}')
    print(f'{pictures} pictures, {rows} rows read back, {faults} faults')
    return faults or not rows


if __name__ == '__main__':
    sys.exit(1 if check_all(list(zip(sys.argv[1::2], sys.argv[2::2]))) else 0)
