"""Counts, point by point, the places that docs/DESIGN-PASS.md speaks of, in src/ and proofs/ of every crate.

python3 tools/places.py [-l] [COMMIT]: of the checkout, or of a commit; -l lists them.
"""
import collections
import itertools
import re
import subprocess
import sys

WORDS = set('fn let mut if else match while loop for in return as pub const struct enum ref move self Self true false u8 u16 u32 u64 usize bool Ok Err'
            .split())


def files(commit):
    """Path and text of each source and proof file."""
    if commit is None:
        listed = subprocess.check_output(['git', 'ls-files', 'crates'], text=True).split()
        for p in listed:
            if p.endswith(('.rt', 'Answers.antt')):
                yield p, open(p).read()
        return
    listed = subprocess.check_output(['git', 'ls-tree', '-r', '--name-only', commit, 'crates'], text=True).split()
    listed = [p for p in listed if p.endswith(('.rt', 'Answers.antt'))]
    ask = ''.join(f'{commit}:{p}\n' for p in listed).encode()
    out = subprocess.run(['git', 'cat-file', '--batch'], input=ask, stdout=subprocess.PIPE, check=True).stdout
    for p in listed:
        head, _, out = out.partition(b'\n')
        size = int(head.split()[-1])
        yield p, out[:size].decode()
        out = out[size + 1:]


def functions(text):
    """Name, parameters and body of each function."""
    for m in re.finditer(r'^ *(?:pub )?(?:extern "C" )?fn (\w+)(?:<[^(]*>)?\(', text, re.M):
        depth, i = 1, m.end()
        while depth:
            depth += {'(': 1, ')': -1}.get(text[i], 0)
            i += 1
        params = [' '.join(p.split()) for p in re.split(r',(?![^<]*>)', text[m.end():i - 1]) if ':' in p]
        indent = re.match(r' *', m.group()).group()
        end = re.search(rf'^{indent}}}', text[i:], re.M)
        start = re.search(rf'^{indent}{{|\{{$', text[i:], re.M)
        if end and start:
            yield m.group(1), params, text[i + start.end():i + end.start()]


def shape(body):
    """A body without its own names and numbers."""
    words = re.findall(r"\w+|b?'[^']*'|[^\w\s]", re.sub(r'//.*', '', body))
    return ' '.join(w if w in WORDS or not re.match(r"\w|b?'", w) else '_' for w in words)


def places(commit):
    found = collections.defaultdict(list)
    triples, twins, clauses = collections.defaultdict(set), collections.defaultdict(set), collections.defaultdict(set)
    for path, text in files(commit):
        crate = path.split('/')[1]
        if path.endswith('Answers.antt'):
            if re.search(r'/proofs/.+/', path):
                found['8 answers written by hand'].append(path)
            continue
        if '/src/' not in path:
            continue
        for m in re.finditer(r'^ *(?:pub )?enum (\w+)[^{]*\{(.*?)^\}', text, re.M | re.S):
            cases = re.findall(r'^ *(\w+)\b', re.sub(r'//.*', '', m.group(2)), re.M)
            if len(cases) < 8 and re.search(r'\b(Refused|Nothing|Nowhere|Never|None|Without|Absent|No[A-Z]\w*)\b', ' '.join(cases)):
                found['1a enums with a case for none or a refusal'].append(f'{crate}::{m.group(1)}')
        for m in re.finditer(r'^ *pub struct (\w+)[^{;]*\{(.*?)^\}', text, re.M | re.S):
            if re.search(r': bool\b', m.group(2)):
                found['1b structs with a flag'].append(f'{crate}::{m.group(1)}')
            fields = re.findall(r'^ *(?:pub )?(\w+): ([^,]+),', m.group(2), re.M)
            if any(re.match(r'\[', t) for _, t in fields) and any(n in ('len', 'count') for n, _ in fields):
                found['6a arrays with a length beside them'].append(f'{crate}::{m.group(1)}')
        found['1c arms that hand a refusal on'] += [crate] * len(re.findall(r'Refused\(e(?:, *\w+)?\) => \w+::Refused', text))
        found['3 loops by while or loop'] += [crate] * len(re.findall(r'^ *(?:while|loop)\b', text, re.M))
        found['4b impls by hand'] += [crate] * len(re.findall(r'^ *impl\b.*\bfor\b', text, re.M))
        for m in re.finditer(r'fn (\w+)[^{;]*?\n((?: +requires .*\n)+)', text):
            for c in re.findall(r'requires (?:\w+ )?\{ (.*) \}', m.group(2)):
                clauses[c].add(f'{crate}::{m.group(1)}')
        for name, params, body in functions(text):
            at = f'{crate}::{name}'
            if len(re.findall(r'=> \d+,', body)) >= 2:
                found['1d functions that number the cases of an enum'].append(at)
            if re.match(r'(same|is_same|eq|less|before)_', name):
                found['4a comparisons by hand'].append(at)
            if {'out: &mut [u8]', 'at: usize'} <= set(params):
                found['6b writers with a place beside their buffer'].append(at)
            calls = re.findall(r'=> \w+\(([^()]*)\),$', body, re.M)
            if len(calls) >= 3 and len(set(calls)) == 1:
                found['7 switches whose arms call with the same arguments'].append(at)
            s = shape(body)
            if len(s.split()) >= 30:
                twins[s].add(at)
            for t in itertools.combinations(params, 3):
                triples[t].add(at)
    for s in twins.values():
        if len(s) > 1:
            found['2 bodies of one shape'].append(' = '.join(sorted(s)))
    for t, s in clauses.items():
        if len(s) >= 3:
            found['5b facts asked by three functions or more'].append(t)
    together = set().union(*(s for s in triples.values() if len(s) >= 3))
    found['5a functions that share three parameters with two more'] = sorted(together)
    return found


def main(arguments):
    commit = next((a for a in arguments if a != '-l'), None)
    for point, at in sorted(places(commit).items()):
        print(f'{point}: {len(at)}')
        if '-l' in arguments:
            for place, n in collections.Counter(at).items():
                print(f'    {place}' + (f' ({n})' if n > 1 else ''))


main(sys.argv[1:])
