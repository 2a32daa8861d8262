#!/usr/bin/env python3
"""Counts, in the crates' src/ and proofs/, the places that docs/DESIGN-PASS.md is about, one row a point.
    python3 tools/design_counts.py [--list] [FOLDER]
With --list each place stands in a line of its own."""
import glob, os, re, sys
from collections import defaultdict

args = [a for a in sys.argv[1:] if a != '--list']
root = args[0] if args else '.'
shown = '--list' in sys.argv
sources = sorted(glob.glob(os.path.join(root, 'crates/*/src/**/*.rt'), recursive=True))
NUMBER = r'(?:u8|u16|u32|u64|usize|i32|i64|f32|f64)'


def line_of(text, at):
    return text.count('\n', 0, at) + 1


def functions(text):
    """Each function: its name, parameters, result, clauses, body and place."""
    for m in re.finditer(r'^( *)(?:pub(?:\(crate\))? )?(?:const )?(?:extern "C" )?fn (\w+)(?:<[^(]*>)?\(', text, re.M):
        depth, i = 1, m.end()
        while depth:
            depth += {'(': 1, ')': -1}.get(text[i], 0)
            i += 1
        params = text[m.end():i - 1]
        end = re.compile(r'^' + m.group(1) + r'\}', re.M).search(text, i)
        if not end:
            continue
        rest = text[i:end.end()]
        one = re.search(r'\{[^\n]*\}\s*$', rest.split('\n')[0])
        start = re.search(r'^' + m.group(1) + r'\{', rest, re.M)
        cut = start.start() if start else rest.index('{')
        if one and not start:
            cut = rest.index('{')
        yield m.group(2), params, rest[:cut], rest[cut:], line_of(text, m.start())


def bare(text):
    return re.sub(r'//[^\n]*', '', text)


places = defaultdict(list)


def place(point, path, line, what):
    places[point].append('%s:%d %s' % (os.path.relpath(path, root), line, what))


twins, facts, groups = defaultdict(list), defaultdict(list), defaultdict(list)
for path in sources:
    whole = open(path).read()
    text = bare(whole)
    # 1: own enums of the shape of Option or Result
    for m in re.finditer(r'^ *(?:pub )?enum (\w+)[^{]*\{\n(.*?)^\}', text, re.M | re.S):
        body = re.sub(r'\{[^{}]*\}', '{}', m.group(2))
        variants = [v.strip() for v in body.split(',\n') if v.strip()]
        plain = [v for v in variants if re.fullmatch(r'\w+', v)]
        refusing = [v for v in variants if re.search(r'\((?:Refusal|\w*Fault|\w*Check)\)', v)]
        full = [v for v in variants if v not in plain and v not in refusing]
        if (len(full) == 1 and len(plain) + len(refusing) >= 1 and len(plain) <= 2) or (refusing and len(variants) <= 4) or \
                (not full and not refusing and any(re.fullmatch(r'(Nothing|None|No|Absent|Passed|Not)', v) for v in plain) and len(plain) <= 4):
            place('1', path, line_of(text, m.start()), 'enum ' + m.group(1))
    # 1: a flag with a value beside it
    for m in re.finditer(r'^ *(?:pub )?struct (\w+)[^{;]*\{\n(.*?)^\}', text, re.M | re.S):
        if re.search(r': bool,', m.group(2)) and re.search(r': (?:' + NUMBER + r')', m.group(2)) and not re.search(r'preserve_alpha|stitch', m.group(2)):
            place('1', path, line_of(text, m.start()), 'struct %s, a flag with a value' % m.group(1))
    # 1: numbers for kinds, and numbers that stand for none
    for m in re.finditer(r'^pub mod (kind|space|unit|eid|aid) ', text, re.M):
        place('1', path, line_of(text, m.start()), 'numbers for kinds: ' + m.group(1))
    if re.search(r'/names/src/(eid|aid)\.rt$', path):
        place('1', path, 1, 'numbers for kinds: ' + os.path.basename(path)[:3])
    for m in re.finditer(r'^ *(?:pub )?const (NO_\w+|END|BROKEN|ABSENT|FIRST_MADE)\b', text, re.M):
        place('1', path, line_of(text, m.start()), 'a number that stands for none or a kind: ' + m.group(1))
    for name, params, head, body, line in functions(text):
        if re.search(r'-> (?:u8|u16|u32)\b', head) and re.search(r'(kind|code|state)', name) and not re.search(r'size|len', name):
            place('1', path, line, 'fn %s gives a number for a kind' % name)
        elif re.search(r'\b(?:kind|code|state|call): (?:u8|u16|u32)\b', params):
            place('1', path, line, 'fn %s takes a number for a kind' % name)
        elif re.search(r'Result<u32>', head) and 'Print' in params + head and re.search(r'Ok\(\d\)', body):
            place('1', path, line, 'fn %s gives a number for an outcome' % name)
        # 3: loops that count by hand
        for k, m in enumerate(re.finditer(r'^ *(while|loop)\b[^\n]*', body, re.M)):
            place('3', path, line + 1 + body.count('\n', 0, m.start()), 'fn %s: %s' % (name, m.group(0).strip(' {')))
        for m in re.finditer(r'^ *for (\w+) in 0\.\.(\w+)[^\n]*', body, re.M):
            if re.search(r'\[' + m.group(1) + r'\]|byte\(\w+, ' + m.group(1) + r'\)', body):
                place('3', path, line + 1 + body.count('\n', 0, m.start()), 'fn %s: an index into what could be walked' % name)
        # 3: a `for` beside which a place is moved on by hand
        for m in re.finditer(r'^( *)for \w+ in ([^\n]*) \{\n(.*?)^\1\}', body, re.M | re.S):
            moved = re.search(r'^ *(\w+) (?:= (?:next|after)\w*\(|= \w+;|\+= )', m.group(3), re.M)
            if moved and re.search(r'let mut ' + moved.group(1) + r'\b', body[:m.start()]) and re.search(r'\b' + moved.group(1) + r'\b', m.group(3).replace(moved.group(0), '', 1)):
                place('3', path, line + 1 + body.count('\n', 0, m.start()), 'fn %s: %s is moved on by hand' % (name, moved.group(1)))
        # 4: conversion, equality, order by hand
        inner = body.strip().strip('{}').strip()
        arms = re.findall(r'=> ([^,\n]+),', inner)
        if re.fullmatch(r'\w+ as \w+', inner):
            place('4', path, line, 'fn %s: a cast' % name)
        elif inner.startswith('match') and arms and all(re.fullmatch(r'[\d_]+(?:\.0)?', a) for a in arms) and re.search(r'-> ' + NUMBER, head):
            place('4', path, line, 'fn %s: a number for each variant' % name)
        elif inner.startswith('match') and arms and all(re.fullmatch(r'(true|false)', a) for a in arms):
            place('4', path, line, 'fn %s: a test of the variant' % name)
        elif re.fullmatch(r'if (.*?) \{\s*(?:return )?(?:1|true);?\s*\}(?: else \{)?\s*(?:0|false)\s*\}?', inner, re.S):
            place('4', path, line, 'fn %s: a number or a bool of a test' % name)
        elif re.search(r'\bworse|\bat_least', name):
            place('4', path, line, 'fn %s: an order' % name)
        elif re.search(r'Color \{\s*red: (\w+)\.red,\s*green: \1\.green,\s*blue: \1\.blue,\s*\}', inner):
            place('4', path, line, 'fn %s: a colour copied by fields' % name)
        # 2: bodies that differ in a type, a size or a constant
        shape = re.sub(r'\b[A-Z][A-Z0-9_]*\b(?!::)', 'C', inner)
        shape = re.sub(r'\b' + NUMBER + r'\b', 'T', shape)
        shape = re.sub(r'\b0x[\da-f_]+\b|\b[\d_]+(?:\.\d+)?\b', 'N', shape)
        shape = re.sub(r'b?"[^"]*"', 'S', shape)
        shape = re.sub(r'\b([a-z_]+?)(?:8|16|32|64)\b', r'\1', shape)
        shape = re.sub(r'\b[A-Z]\w*::', 'E::', shape)
        shape = re.sub(r'::[A-Z]\w*', '::V', shape)
        shape = re.sub(r'\b(x|y|width|height|left|right|top|bottom|first|second|third|red|green|blue)\b', 'f', shape)
        shape = ' '.join(shape.split())
        if len(shape) > 18 and not re.search(r'\bfn (main)', head):
            twins[shape].append((path, line, name))
        # 5: facts and parameters that travel together
        for c in re.findall(r'^ *(?:requires|ensures)\*? (?:\w+ )?\{ ?(.*?) ?\}$', head, re.M):
            for fact in re.split(r' × ', c):
                fact = fact.strip('() ')
                if 'requires' in head and fact in ' '.join(re.findall(r'requires[^\n]*', head)):
                    facts[re.sub(r'\b\d+\b', 'N', fact)].append((path, line, name))
        names = re.findall(r'(\w+): ', params)
        for pair in (('s', 'at'), ('out', 'at'), ('s', 'names'), ('s', 'end')):
            if all(p in names for p in pair):
                groups[pair].append((path, line, name))
        # 6: a buffer with a length beside it, a fixed table with a count
        if re.search(r'&(?:mut )?\[\w+; \d+\]', params):
            place('6', path, line, 'fn %s: a fixed table with a count beside it' % name)
        elif re.search(r'\b(?:from|at): \w+, (?:n|len|left|count): \w+', params):
            place('6', path, line, 'fn %s: a place and a length' % name)
        # 7: a switch on which step to run
        calls = re.findall(r'=> (\w+)\(', inner)
        if inner.count('match') == 1 and len(calls) >= 6:
            place('7', path, line, 'fn %s: a switch over %d calls' % (name, len(calls)))
for shape, found in twins.items():
    if len(found) >= 2:
        for path, line, name in found:
            place('2', path, line, 'fn %s, one of %d' % (name, len(found)))
for fact, found in facts.items():
    if len({n for _, _, n in found}) >= 3:
        place('5', found[0][0], found[0][1], '%d contracts: %s' % (len(found), fact[:60]))
for pair, found in groups.items():
    if len(found) >= 3:
        place('5', found[0][0], found[0][1], '%d functions take %s together' % (len(found), ' and '.join(pair)))
# 8: answers that say no more than the search, and answers that stand three times or more in one crate
answers = defaultdict(list)
for path in sorted(glob.glob(os.path.join(root, 'crates/*/proofs/**/Answers.antt'), recursive=True)):
    text = open(path).read()
    for m in re.finditer(r'^\S+ c = search rules$', text, re.M):
        place('8', path, line_of(text, m.start()), 'search rules')
    for m in re.finditer(r'^\S+(?: c)? = (.{12,})$', text, re.M):
        answers[path.split('/crates/')[1].split('/')[0], m.group(1)].append((path, line_of(text, m.start())))
for (crate, answer), found in answers.items():
    if len(found) >= 3:
        place('8', found[0][0], found[0][1], '%d answers of one crate: %s' % (len(found), answer[:60]))
for point in '12345678':
    print('%s: %d' % (point, len(places[point])))
    if shown:
        for p in places[point]:
            print('   ', p)
