"""The papers (every .md file) held to the code. Run by tests/papers.sh from the top of the repository; standard library only.

What a paper may put between backticks, and what is then asked:
  `crate/File name, name`    definitions in crates/crate/specs/File.antt, or laws in proofs/File.antt
  `crate::module::function`  a function of a crate; `Type::Case` a case of an enum; another path: a function of the Rust under differential/ or host/
  `stored/NAME`              a tape that differential/stored/LIST has; * stands for any letters, and bytes right after it are the tape's
  `folder/file`, `file.md`   a file, from the top or from the paper's own folder; NAME stands for any
  `word`                     a name of the code, or one that docs/RULES.md lists under "Names from elsewhere"
  bytes in hexadecimal, ../paths, and whatever has other signs in it: nothing
And of docs/RULES.md: rules are numbered without a gap, each has its line of places, and every public function and every definition that
a public contract cites is named. Public is what another crate can call: `pub`, in a public module, not of a crate that is for the tests or
the programs alone. A rule that is cited anywhere exists."""

import fnmatch
import glob
import itertools
import os
import re
import sys

RULES = 'docs/RULES.md'
MAP = 'docs/MAP.md'
# Fewer of a sort than this, and the reading is at fault.
LEAST = {'definitions': 120, 'laws': 80, 'functions': 45, 'files': 30, 'tapes': 80, 'words': 40, 'rules': 80, 'citations': 80,
         'public functions': 45, 'definitions of public contracts': 50}
LABELS = {'definition', 'promise', 'laws', 'test', 'model', 'waits', 'see', 'edits'}
FOLDERS = r'(?:docs|crates|tests|host|differential|\.ci)'
ENDINGS = ('.md', '.sh', '.py', '.rs', '.rt', '.antt', '.txt', '.toml', '.edit')

faults = []


def fault(where, text):
    faults.append(f'{where}: {text}')


def read(path):
    with open(path, encoding='utf-8') as f:
        return f.read()


def walk():
    for folder, folders, names in os.walk('.'):
        folders[:] = sorted(f for f in folders if f not in ('target', '.git', 'out'))
        yield from (os.path.join(folder, name)[2:] for name in sorted(names))


TREE = list(walk())


def files(top, *endings):
    return [path for path in TREE if path.startswith(top) and path.endswith(endings)]


# --- the code


def read_crates():
    crates = {}
    for line in read('crates.txt').splitlines():
        if line.strip() and not line.startswith('#'):
            name, seen = line.split(':')
            crates[name.split()[0]] = seen.split()  # a static library's name has a word after it
    return crates


def declared(path):
    """The names that an antt file declares at its top or in a module, and the constructors of its data."""
    names, open_blocks = set(), []
    for line in read(path).splitlines():
        text = line.strip()
        if not text or text.startswith('--'):
            continue
        indent = len(line) - len(line.lstrip())
        while open_blocks and open_blocks[-1][0] >= indent:
            open_blocks.pop()
        inside = [kind for _, kind in open_blocks]
        here = indent == (open_blocks[-1][0] + 2 if open_blocks else 0)
        block = re.match(r'(?:(?:unfoldable|abbrev|pub) )*(module|record|data) (\S+)', text)
        if block:
            if block.group(1) != 'module':
                names.add(block.group(2))
            open_blocks.append((indent, block.group(1)))
        elif re.search(r'(^| )where$', text):
            open_blocks.append((indent, 'where'))
        else:
            sign = re.match(r'(?:(?:unfoldable|abbrev|pub) )*([^\s:(){}]+) :(\s|$)', text)
            if sign and here and (set(inside) <= {'module'} or inside[-1:] == ['data']):
                names.add(sign.group(1))
    return names


def antt(crates):
    """(crate, file) -> names, once for specs and once for proofs."""
    found = {'specs': {}, 'proofs': {}}
    for crate in crates:
        for kind in found:
            top = f'crates/{crate}/{kind}/'
            for path in files(top, '.antt'):
                found[kind][crate, path[len(top):-len('.antt')]] = declared(path)
    return found


class Function:
    def __init__(self, where, public, reached, contract, cites):
        self.where, self.public, self.reached, self.contract, self.cites = where, public, reached, contract, cites


def modules(crate):
    """The modules of a crate, each with whether it is public: its `mod` line and those of all modules above it say `pub`."""
    top, found = f'crates/{crate}/src/', {}
    for path in files(top, '.rt'):
        above = tuple(m for m in path[len(top):-len('.rt')].split('/') if m not in ('lib', 'main', 'mod'))
        for line in read(path).splitlines():
            m = re.match(r'\s*(pub )?mod (\w+)\s*(.?)', line)
            if m and m.group(3) != ';':
                fault(path, f'"{line.strip()}": a module is read from a file of its own')
            elif m:
                found[(*above, m.group(2))] = bool(m.group(1))
    return {name: all(found.get(name[:k], False) for k in range(1, len(name) + 1)) for name in found}


def imports(path, text):
    """The names of specs that a file of src brings in: name, or alias, to (crate, file)."""
    names, aliases = {}, {}
    for line in re.findall(r'ghost use Rattle\.[^;]*;', text):
        if '.specs.declared.' in line or line.startswith('ghost use Rattle.std.'):
            continue
        m = re.fullmatch(r'ghost use Rattle\.(\w+)\.specs\.(\w+(?:\.\w+)*?)(?:\.\{([^{}]*)\}| as (\w+));', line)
        if not m:
            fault(path, f'"{line}" was not understood')
            continue
        place = (m.group(1), m.group(2).replace('.', '/'))
        names.update((name.strip(), place) for name in (m.group(3) or '').split(',') if name.strip())
        if m.group(4):
            aliases[m.group(4)] = place
    return names, aliases


def cited(where, contract, names, aliases):
    found = set()
    for token in re.findall(r"[^\s(){}⌜⌝,;]+", contract):
        head, _, rest = token.partition('.')
        if token.startswith('Rattle.'):
            fault(where, f'{token}: bring the definition in by `ghost use`')
        if token in names or head in names:
            name = token if token in names else head
            found.add((*names[name], name))
        elif head in aliases and rest:
            found.add((*aliases[head], rest))
    return found


def functions(crates):
    found, kinds, parts, plain = {}, {}, set(), 0
    for crate in crates:
        top = f'crates/{crate}/src/'
        shown = modules(crate)
        for path in files(top, '.rt'):
            text = '\n'.join(re.sub(r'^\s*//.*', '', line) for line in read(path).splitlines())
            plain += len(re.findall(r'^\s*pub (?:extern "C" )?fn ', text, re.M))
            names, aliases = imports(path, text)
            module = [m for m in path[len(top):-len('.rt')].split('/') if m not in ('lib', 'main', 'mod')]
            if module and tuple(module) not in shown:
                fault(path, 'no `mod` line names this file')
            reached = not module or shown.get(tuple(module), False)
            owner, kind = [], None
            lines = text.splitlines()
            for n, line in enumerate(lines):
                block = re.match(r'(?:pub )?(impl|struct|enum)(?:<.*?>)? (\w+)', line)
                if line.startswith('}'):
                    owner, kind = [], None
                elif block:
                    owner, kind = ([block.group(2)] if block.group(1) == 'impl' else []), block.group(1)
                    if kind != 'impl':
                        holder = block.group(2)
                        kinds.setdefault(holder, set())
                elif kind in ('struct', 'enum'):
                    member = re.match(r'    (?:pub )?(\w+)', line)
                    if member:
                        kinds[holder].add(member.group(1))
                const = re.match(r'(?:pub )?const (\w+)', line)
                if const:
                    parts.add(const.group(1))
                f = re.match(r'\s*(pub )?(?:extern "C" )?fn (\w+)', line)
                if not f:
                    continue
                head = []
                for later in lines[n:]:
                    if later.strip() == '{':
                        break
                    head.append(later)
                    if later.rstrip().endswith('{') and 'ensures' not in later and 'requires' not in later:
                        break
                head = '\n'.join(head)
                at = re.search(r'\b(?:requires|ensures)\b', head)
                contract = head[at.start():] if at else ''
                full = '::'.join([crate, *module, *owner, f.group(2)])
                where = f'{path}:{n + 1}'
                found[full] = Function(where, bool(f.group(1)), reached, contract, cited(where, contract, names, aliases))
    return found, kinds, parts, plain


crates = read_crates()
specs_and_proofs = antt(crates)
specs, proofs = specs_and_proofs['specs'], specs_and_proofs['proofs']
fns, types, constants, plain_publics = functions(crates)
rust = '\n'.join(read(p) for p in files('differential/', '.rs') + files('host/', '.rs'))
tapes = [line.split()[0] for line in read('differential/stored/LIST').splitlines() if line and not line.startswith('#')]
papers = files('', '.md')


def test_crates():
    """The map's table of crates has all of them; a row that says "for the tests alone" or "for the programs alone" has those whose functions
    are no promises."""
    named, tests = set(), set()
    for n, line in enumerate(read(MAP).splitlines(), 1):
        cells = [c.strip() for c in line.strip('|').split('|')] if line.startswith('|') else []
        here = re.findall(r'`(\w+)`', cells[0]) if len(cells) == 3 else []
        for crate in here:
            named.add(crate)
            if crate not in crates:
                fault(f'{MAP}:{n}', f'`{crate}` is in the table of crates, but not in crates.txt')
        if here and re.search('for the (tests|programs) alone', cells[1]):
            tests.update(here)
    for crate in crates:
        if crate not in named:
            fault(MAP, f'the table of crates has no `{crate}`, which crates.txt lists')
    return tests


tests = test_crates()
publics = {name: f for name, f in fns.items() if f.public and f.reached and name.split('::')[0] not in tests}
last_names = {name.split('::')[-1] for name in fns}
members = set().union(*types.values()) if types else set()
rules_text, _, elsewhere = read(RULES).partition('\n## Names from elsewhere')
other_words = set(re.findall(r'`(\w+)`', elsewhere))
used_words = {word for p in papers for word in re.findall(r'`(\w+)`', rules_text if p == RULES else read(p))}
known_words = set(crates) | last_names | set(types) | members | constants | other_words
known_words |= set().union(*specs.values()) | set().union(*proofs.values())

# --- the names in the papers

named = {sort: set() for sort in ('definitions', 'laws', 'functions', 'files', 'tapes', 'words')}


def find_declared(crate, file, name):
    return [kind for kind in specs_and_proofs if name in specs_and_proofs[kind].get((crate, file), ())]


def find_function(name):
    if name in fns:
        return True
    head, last = name.split('::')[0], name.split('::')[-1]
    if head in crates:
        return False
    if head in types:
        return last in types[head]
    return re.search(rf'\bfn {last}\b', rust) is not None


def find_tape(pattern):
    return [t for t in tapes if fnmatch.fnmatchcase(t, pattern)
            and all(os.path.exists(f'differential/stored/{t}.{end}') for end in ('tape', 'answers', 'result'))]


def find_file(path, folder):
    path = path.replace('NAME', '*')
    return bool(glob.glob(path) or glob.glob(os.path.join(folder, path)))


def sort_of(token):
    """The sort of a name between backticks, with its parts; None where nothing is asked."""
    if re.fullmatch(r'[0-9A-F]{2}( [0-9A-F]{2})*', token) or token.startswith('..') or token == 'stored/NAME':
        return None
    m = re.fullmatch(r'([a-z]\w*)/(\w+(?:/\w+)*) ([^\s,]+(?:, [^\s,]+)*)', token)
    if m:
        return 'declared', (m.group(1), m.group(2), m.group(3).split(', '))
    m = re.fullmatch(r'stored/([a-z0-9*-]+)', token)
    if m:
        return 'tape', m.group(1)
    if re.fullmatch(r'\w+(::\w+)+', token):
        return 'function', token
    if re.fullmatch(r'[\w.*-]+(/[\w.*-]+)*/?', token) and ('/' in token or token.endswith(ENDINGS)):
        return 'file', token
    if re.fullmatch(r'[A-Za-z]\w+', token):
        return 'word', token
    if re.fullmatch(r'[a-z]\w*(-\w+)+', token):
        return 'bare', token
    return None


def check(token, where, folder):
    sort, what = sort_of(token) or (None, None)
    if sort == 'declared':
        crate, file, names = what
        for name in names:
            found = find_declared(crate, file, name)
            if not found:
                fault(where, f'`{crate}/{file} {name}`: neither crates/{crate}/specs/{file}.antt nor proofs/{file}.antt declares {name}')
            for kind in found:
                named['definitions' if kind == 'specs' else 'laws'].add((crate, file, name))
    elif sort == 'tape':
        if not find_tape(what):
            fault(where, f'`stored/{what}`: differential/stored/LIST has no such tape, or its files are missing')
        named['tapes'].update(find_tape(what))
    elif sort == 'function':
        if not find_function(what):
            fault(where, f'`{what}`: no such function, and no such case of an enum')
        named['functions'].add(what)
    elif sort == 'file':
        if not find_file(what, folder):
            fault(where, f'`{what}`: no such file')
        named['files'].add(what)
    elif sort == 'word':
        if what not in known_words:
            fault(where, f'`{what}`: neither a name of the code nor listed under "Names from elsewhere" in {RULES}')
        named['words'].add(what)
    elif sort == 'bare':
        fault(where, f'`{what}`: write a law as `crate/File {what}` and a tape as `stored/{what}`')


def check_papers():
    for paper in papers:
        folder = os.path.dirname(paper)
        text = read(paper)
        for n, line in enumerate(text.splitlines(), 1):
            where = f'{paper}:{n}'
            if line.count('`') % 2:
                fault(where, 'a backtick without its other one')
                continue
            for token in re.findall(r'`([^`]+)`', line):
                check(token, where, folder)
            for path in re.findall(rf'(?<![\w/.])({FOLDERS}/[\w./*-]+)', re.sub(r'`[^`]*`', '``', line)):
                path = path.rstrip('.')
                if not find_file(path, folder):
                    fault(where, f'{path}: no such file')
                named['files'].add(path)
        for tape, data in re.findall(r'`stored/([a-z0-9-]+)`:\s+`([0-9A-F]{2}(?: [0-9A-F]{2})*)`', text):
            if find_tape(tape):
                with open(f'differential/stored/{tape}.tape', 'rb') as f:
                    if f.read() != bytes.fromhex(data):
                        fault(paper, f'`stored/{tape}`: its bytes are others than the paper\'s')


# --- the rules


def items_of(paper):
    return set(re.findall(r'^(\d+)\. ', read(f'docs/{paper}.md'), re.M))


def check_places(where, text, edits):
    for place in text.split(' · '):
        label, colon, rest = place.partition(': ')
        if not colon or label not in LABELS:
            fault(where, f'"{place[:40]}": a place starts with one of {", ".join(sorted(LABELS))}')
            continue
        tokens = re.findall(r'`([^`]+)`', rest)
        for token in tokens:
            sort = (sort_of(token) or (None,))[0]
            if label in ('definition', 'laws'):
                if sort != 'declared':
                    fault(where, f'`{token}`: not the name of a definition or law')
                    continue
                crate, file, names = sort_of(token)[1]
                for name in names:
                    kinds = find_declared(crate, file, name)
                    if kinds and ('specs' if label == 'definition' else 'proofs') not in kinds:
                        fault(where, f'`{crate}/{file} {name}` stands in {kinds[0]}, so it is no {label.rstrip("s")}')
            elif label == 'promise' and token in fns and token not in publics:
                fault(where, f'`{token}` is not public, stands in a private module, or is for the tests or programs alone')
            elif label == 'test' and sort != 'file':
                fault(where, f'`{token}` is no file')
            elif label == 'model' and sort not in ('tape', 'file'):
                fault(where, f'`{token}` is neither a tape nor a file')
        if label in ('definition', 'laws', 'test') and not tokens:
            fault(where, f'{label} names nothing')
        if label == 'see':
            paper = None
            for word in rest.replace(',', ' ').split():
                if word.isdigit():
                    if paper and word not in items_of(paper):
                        fault(where, f'docs/{paper}.md has no {word}')
                elif os.path.exists(f'docs/{word}.md'):
                    paper = word
                else:
                    fault(where, f'see: docs/{word}.md: no such paper')
        if label == 'edits':
            edits.update((c, int(k)) for c, k in re.findall(r'(\w+) (\d+)', rest))


def check_rules():
    rules, placed, current, edits = [], set(), None, {}
    if not elsewhere:
        fault(RULES, 'no section "Names from elsewhere"')
    lines = rules_text.splitlines()
    for n, line in enumerate(lines, 1):
        where = f'{RULES}:{n}'
        rule = re.match(r'\*\*([A-Z]|\d+)\.(\d+)\b', line)
        if rule:
            current = f'{rule.group(1)}.{rule.group(2)}'
            before = sum(r.split('.')[0] == rule.group(1) for r in rules)
            if int(rule.group(2)) != before + 1:
                fault(where, f'rule {current}: its part has {before} rules before it')
            rules.append(current)
        elif line.startswith('#'):
            current = None
        elif line.startswith('> ') and not lines[n - 2].startswith('> '):
            rest = itertools.takewhile(lambda later: later.startswith('> '), lines[n - 1:])
            check_places(where, ' '.join(later[2:] for later in rest), edits)
            placed.add(current)
    for rule in rules:
        if rule not in placed:
            fault(RULES, f'rule {rule} has no line that says where it stands')
    counted = {}
    for path in files('crates/', '.edit'):
        crate = path.split('/')[1]
        counted[crate] = counted.get(crate, 0) + 1
    if edits != counted:
        fault(RULES, f'edits that must be refused: the paper says {edits}, the folders have {counted}')
    return set(rules)


def check_citations(rules):
    number = r'(?:[A-Z]|\d+)\.\d+'
    gap = r'\s+(?:(?://[/!]?|--|#)\s+)?'  # a citation may go over the end of a comment's line
    citations = 0
    for path in files('', '.md', '.rt', '.antt', '.rs', '.sh', '.py', '.c', '.h', '.txt', 'Makefile', '.ci/run'):
        text = read(path)
        for m in re.finditer(rf'\b[Rr]ules?{gap}({number}(?:(?:,|{gap}(?:and|to|or))(?:{gap}rule)?{gap}{number})*)(?:{gap}\(document 01, part (\d+)\))?', text):
            where = f'{path}:{text.count(chr(10), 0, m.start()) + 1}'
            for rule in re.findall(number, m.group(1)):
                citations += 1
                if rule not in rules:
                    fault(where, f'rule {rule}: {RULES} has no such rule')
                elif m.group(2) and rule.split('.')[0] != m.group(2):
                    fault(where, f'rule {rule} isn\'t of document 01\'s part {m.group(2)}')
    return citations


def check_named():
    """Every public function, and every definition that its contract cites, is named in the rules."""
    tokens = [sort_of(t) for line in read(RULES).splitlines() for t in re.findall(r'`([^`]+)`', line)]
    said = {what for sort, what in filter(None, tokens) if sort == 'function'}
    stated = {(c, f, name) for sort, what in filter(None, tokens) if sort == 'declared' for c, f, names in [what] for name in names}
    wanted = set()
    for name, f in sorted(publics.items()):
        if name not in said:
            fault(f.where, f'the public function `{name}` is not named in {RULES}')
        if 'ensures' not in f.contract:
            fault(f.where, f'the public function `{name}` has no contract')
        if re.search(r'\brequires\b', f.contract):
            fault(f.where, f'the public function `{name}` requires something of its arguments')
        for cite in sorted(f.cites):
            wanted.add(cite)
            if cite not in stated:
                fault(f.where, f'`{name}` promises by `{cite[0]}/{cite[1]} {cite[2]}`, which {RULES} does not name')
    shown = sum(f.public for f in fns.values())
    if shown != plain_publics:
        fault('crates', f'{shown} public functions were read, and {plain_publics} stand there')
    return wanted


def check_check():
    """A name with one letter more isn't found: the look-up doesn't say yes to everything."""
    for crate, file, name in named['definitions'] | named['laws']:
        if find_declared(crate, file, name + 'x'):
            fault('tests/papers.py', f'{crate}/{file} {name}x is found')
    for name in named['functions']:
        if find_function(name + 'x'):
            fault('tests/papers.py', f'{name}x is found')
    for name in named['tapes']:
        if find_tape(name + 'x'):
            fault('tests/papers.py', f'the tape {name}x is found')
    for name in named['files']:
        if '*' not in name and find_file(name.rstrip('/') + 'x', ''):
            fault('tests/papers.py', f'the file {name}x is found')


check_papers()
rules = check_rules()
citations = check_citations(rules)
wanted = check_named()
check_check()
counts = {sort: len(names) for sort, names in named.items()}
counts.update({'rules': len(rules), 'citations': citations, 'public functions': len(publics), 'definitions of public contracts': len(wanted)})
for sort, least in LEAST.items():
    if counts[sort] < least:
        fault('tests/papers.py', f'only {counts[sort]} {sort} were found, at least {least} should be')
if not tests:
    fault(MAP, 'no row of the table of crates says "for the tests alone"')
for word in sorted(other_words - used_words):
    fault(RULES, f'`{word}` is listed under "Names from elsewhere", and no paper uses it')
for text in dict.fromkeys(faults):
    print(text)
print(f'papers: {len(papers)} papers; ' + ', '.join(f'{count} {sort}' for sort, count in counts.items()))
if faults:
    print(f'papers: {len(dict.fromkeys(faults))} faults')
    sys.exit(1)
print('papers: passed')
