#!/usr/bin/env python3
"""The numbers of include/braidhatch.h against the definitions that the promises cite."""
import os
import re
import sys


def read(path):
    with open(path, encoding='utf-8') as file:
        return file.read()


def constant(name):
    """no_room: BRAIDHATCH_NO_ROOM"""
    return 'BRAIDHATCH_' + re.sub(r'([A-Z])', r'_\1', name).upper()


header = read('include/braidhatch.h')
code = re.sub(r'/\*.*?\*/', '', header, flags=re.S)
groups = [{name: int(n) for name, n in re.findall(r'(BRAIDHATCH_\w+) = (\d+)', group)} for group in re.findall(r'enum \{(.*?)\}', code, re.S)]
macros = dict(re.findall(r'#define (BRAIDHATCH_\w+)(?:\(tape_len\))? (.+)', code))

refusals = {constant(name): int(n) for name, n in re.findall(r'^(\w+) = (\d+)$', read('crates/numbers/specs/Refusals.antt'), re.M)}
refusals['BRAIDHATCH_ACCEPTED'] = int(re.search(r'^taken_number \(Ok tt\) = (\d+)$', read('crates/answers/specs/Outputs.antt'), re.M).group(1))
kinds = {constant(name): int(n) for name, n in re.findall(r'^fields \(?(\w+).*?=\s+number (\d+) ∷', read('crates/answers/specs/Answers.antt'), re.M | re.S)}
report = read('crates/braidhatch/specs/Report.antt')
order = re.search(r'^unfoldable pub four_numbers : \(([\w ]+) : ℕ\)', report, re.M).group(1).split()
numbers = {constant(name): place for place, name in enumerate(order)}
size = re.search(r'on_report report ran other = cond \(nat_eq \(length report\) (\d+)\)', report).group(1)

faults = []
for what, defined, least in (('refusals', refusals, 14), ('kinds of answer', kinds, 9), ('numbers of a report', numbers, 4)):
    if len(defined) != least:
        faults.append(f'{what}: {len(defined)} were read from the definitions, not {least}')
    if defined not in groups:
        faults.append(f'{what}: the definitions say {defined}, and no enum of the header does')
if len(groups) != 3:
    faults.append(f'{len(groups)} enums, not 3')
if macros.get('BRAIDHATCH_REPORT_SIZE') != size:
    faults.append(f'BRAIDHATCH_REPORT_SIZE: the definition says {size}')
claims = 'crates/tapes/specs/Claims.antt'
if os.path.exists(claims):
    bound = re.search(r'^room_for n = min \(\d+ \* n\) \((\d+) \* n \+ (\d+)\)$', read(claims), re.M)
    if not bound or macros.get('BRAIDHATCH_ANSWERS_SIZE') != f'({bound.group(1)} * (size_t)(tape_len) + {bound.group(2)})':
        faults.append(f'BRAIDHATCH_ANSWERS_SIZE: not the bound that {claims} has')
for fault in faults:
    print(f'header: {fault}')
if faults:
    sys.exit(1)
print(f'header: {sum(map(len, groups))} numbers are those of the definitions')
