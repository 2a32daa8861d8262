#!/usr/bin/env python3
"""sheets.py USVG_SRC OUT FOLDER..: makes a sheet of each filter in the SVG files below the folders.

Writes OUT/0001.sheet and so on, and OUT/index.txt with the SVG file and the filter's id for each. Prints what was read and what was left out.
Only Python's standard library is used. README.md beside this folder says how a filter becomes a sheet.
"""

import gzip
import pathlib
import re
import shutil
import struct
import sys
import xml.etree.ElementTree as ET
from collections import Counter

SVG = '{http://www.w3.org/2000/svg}'
HREF = ('href', '{http://www.w3.org/1999/xlink}href')
DPI = 96.0
FONT_SIZE = 12.0  # usvg's, where a document has none

TEXT, NUMBER, LIST, LENGTH, COLOUR, TRIES = 1, 2, 3, 4, 5, 6


def kinds(**names):
    return {name: kind for word, kind in (('text', TEXT), ('number', NUMBER), ('list', LIST), ('length', LENGTH),
                                          ('colour', COLOUR), ('tries', TRIES)) for name in names.get(word, '').split()}


# What filter.rs reads on a child of the filter, and on a child of such a child.
KINDS = (
    kinds(
        text='color-interpolation-filters result in in2 mode type operator edgeMode preserveAlpha xChannelSelector '
             'yChannelSelector stitchTiles',
        number='k1 k2 k3 k4 divisor bias targetX targetY scale flood-opacity dx dy surfaceScale diffuseConstant '
               'specularConstant specularExponent numOctaves seed',
        list='values kernelMatrix radius baseFrequency',
        length='x y width height',
        colour='flood-color lighting-color color',
        tries='stdDeviation order'),
    kinds(
        text='in type',
        number='slope intercept amplitude exponent offset azimuth elevation x y z pointsAtX pointsAtY pointsAtZ '
               'specularExponent limitingConeAngle',
        list='tableValues'),
)

COLOURS = {
    'aqua': '00ffff', 'black': '000000', 'blue': '0000ff', 'fuchsia': 'ff00ff', 'gray': '808080', 'green': '008000',
    'lime': '00ff00', 'maroon': '800000', 'navy': '000080', 'olive': '808000', 'purple': '800080', 'red': 'ff0000',
    'silver': 'c0c0c0', 'teal': '008080', 'white': 'ffffff', 'yellow': 'ffff00',
}

NUM = r'[+-]?(?:[0-9]+\.?[0-9]*|\.[0-9]+)(?:[eE][+-]?[0-9]+)?'
UNITS = ['', 'em', 'ex', 'px', 'in', 'cm', 'mm', 'pt', 'pc', '%']
SIZES = {'px': 1.0, '': 1.0, 'in': DPI, 'cm': DPI / 2.54, 'mm': DPI / 25.4, 'pt': DPI / 72, 'pc': DPI / 6}

count = Counter()


# ---- values of attributes

def single(n):
    try:
        return struct.pack('<f', n)
    except OverflowError:
        return struct.pack('<f', float('inf') if n > 0 else float('-inf'))


def number(text):
    return float(text) if re.fullmatch(NUM, text.strip()) else None


def numbers(text):
    """The numbers that a list begins with, and whether it has nothing else in it."""
    found, at = [], 0
    text = text.strip()
    while at < len(text):
        m = re.compile(NUM + r'|').match(text, at)
        if not m.group():
            return found, False
        found.append(float(m.group()))
        at = re.compile(r'\s*,?\s*').match(text, m.end()).end()
    return found, True


def length(text):
    m = re.fullmatch('(%s)(%s)' % (NUM, '|'.join(UNITS)), text.strip())
    return (m.group(2), float(m.group(1))) if m else None


def colour(text):
    text = text.strip().lower()
    digits = COLOURS.get(text, text[1:] if text.startswith('#') else '')
    if re.fullmatch('[0-9a-f]{3}', digits):
        digits = ''.join(2 * d for d in digits)
    if re.fullmatch('[0-9a-f]{6}', digits):
        return bytes.fromhex(digits + 'ff')
    m = re.fullmatch(r'rgb\((.*)\)', text)
    parts = [length(p) for p in m.group(1).split(',')] if m else []
    if len(parts) == 3 and all(p and p[0] in ('', '%') for p in parts):
        return bytes(max(0, min(255, round(n * 2.55 if unit else n))) for unit, n in parts) + b'\xff'
    return None


def opacity(text):
    found = length(text)
    if found is None or found[0] not in ('', '%'):
        return None
    return max(0.0, min(1.0, found[1] / 100 if found[0] else found[1])) + 0.0


def length_bytes(found):
    return bytes([UNITS.index(found[0])]) + struct.pack('<d', found[1])


def tries_bytes(text):
    found = numbers(text)[0][:3]
    return b''.join(b'\x01' + struct.pack('<d', n) for n in found) + bytes(9 * (3 - len(found)))


def value(name, kind, text):
    """The kind and the bytes of a value; kind 0 is for one that cannot be read."""
    made = None
    if kind == TEXT or (name == 'lighting-color' and text.strip() == 'currentColor'):
        return TEXT, text.strip().encode() if kind == COLOUR else text.encode()
    if kind == NUMBER:
        n = opacity(text) if name == 'flood-opacity' else number(text)
        made = None if n is None else single(n)
    if kind == LIST:
        found, whole = numbers(text)
        made = b''.join(map(single, found)) if whole else None
    if kind == LENGTH:
        found = length(text)
        made = None if found is None else length_bytes(found)
    if kind == COLOUR:
        made = colour(text)
    if kind == TRIES:
        made = tries_bytes(text)
    if made is None:
        count['values that cannot be read'] += 1
        return 0, b''
    return kind, made


# ---- the document

class Document:
    def __init__(self, root):
        self.root = root
        self.parent = {c: p for p in root.iter() for c in p}
        self.ids = {e.get('id'): e for e in reversed(list(root.iter())) if e.get('id')}
        self.view_box = self.find_view_box()

    def find_view_box(self):
        found, whole = numbers(self.root.get('viewBox', ''))
        if whole and len(found) == 4 and found[2] > 0 and found[3] > 0:
            return found[2:]
        sides = [length(self.root.get(side, '')) for side in ('width', 'height')]
        return [found[1] * SIZES[found[0]] if found and found[0] in SIZES and found[1] > 0 else 100.0 for found in sides]

    def attribute(self, e, name):
        """An attribute, or what `style` says in its place."""
        for part in e.get('style', '').split(';'):
            key, _, text = part.partition(':')
            if key.strip() == name:
                return text.strip()
        return e.get(name)

    def inherited(self, e, name):
        while e is not None:
            found = self.attribute(e, name)
            if found not in (None, 'inherit'):
                return found
            e = self.parent.get(e)
        return None

    def font_size(self, e):
        if e is None:
            return FONT_SIZE
        above = self.font_size(self.parent.get(e))
        found = length(self.attribute(e, 'font-size') or '')
        if found is None:
            return above
        factor = {'em': above, 'ex': above / 2, '%': above / 100}
        return found[1] * (factor.get(found[0]) or SIZES.get(found[0], 0.0))

    def links(self, e):
        """The filter and those that it links to, each once; a link to no filter ends the chain."""
        chain = []
        while e is not None and e.tag == SVG + 'filter' and e not in chain:
            chain.append(e)
            target = next((e.get(h) for h in HREF if e.get(h)), '')
            e = self.ids.get(target[1:]) if target.startswith('#') else None
        return chain


# ---- the sheet

def names(src, enum):
    """SVG's names and their places in an enum of names.rs."""
    text = pathlib.Path(src, 'parser/svgtree/names.rs').read_text(encoding='utf-8')
    body = re.search(r'pub enum %s \{(.*?)\n\}' % enum, text, re.S).group(1)
    places = {variant: i for i, variant in enumerate(re.findall(r'\w+', body))}
    return {name: places[variant] for name, variant in re.findall(r'\("([^"]+)", %s::(\w+)\)' % enum, text)}


def attributes(doc, e, depth):
    found = {name: doc.attribute(e, name) for name in KINDS[depth]}
    if depth == 0:
        found['color-interpolation-filters'] = doc.inherited(e, 'color-interpolation-filters')
        lit = (found['lighting-color'] or '').strip() == 'currentColor'
        found['color'] = doc.inherited(e, 'color') if lit else None
    return {name: text for name, text in found.items() if text is not None}


def node(doc, e, depth, eids, aids):
    found = sorted(attributes(doc, e, depth).items(), key=lambda a: aids[a[0]])
    record = bytes([depth, 1 + eids[e.tag[len(SVG):]], len(found), 0]) + single(doc.font_size(e))
    for name, text in found:
        kind, made = value(name, KINDS[depth][name], text)
        record += struct.pack('<HBBH', aids[name], kind, 0, len(made)) + made
    return record


def known(e, eids):
    """The children that usvg's tree has: elements of SVG that it knows."""
    for c in e:
        if isinstance(c.tag, str) and c.tag.startswith(SVG) and c.tag[len(SVG):] in eids:
            yield c


def header(doc, chain):
    def first(name):
        return next((e.get(name) for e in chain if e.get(name) is not None), '')

    units = {'userSpaceOnUse': 0, 'objectBoundingBox': 1}
    width, height = doc.view_box
    made = bytes([units.get(first('filterUnits'), 2), units.get(first('primitiveUnits'), 2), 1, 0])
    for n in (width / 4, height / 4, width / 2, height / 2, width, height, DPI, doc.font_size(chain[0])):
        made += single(n)
    for name in ('x', 'y', 'width', 'height'):
        found = length(first(name))
        made += length_bytes(found) if found else b'\xff' + bytes(8)
    return made


def sheet(doc, e, eids, aids):
    chain = doc.links(e)
    count['filters with a link'] += len(chain) > 1
    with_children = next((f for f in chain if any(known(f, eids))), chain[0])
    nodes = []
    for child in known(with_children, eids):
        nodes.append(node(doc, child, 0, eids, aids))
        nodes.extend(node(doc, below, 1, eids, aids) for below in known(child, eids))
    made = header(doc, chain) + struct.pack('<H', len(nodes))
    at = 74 + 8 * len(nodes)
    for record in nodes:
        made += struct.pack('<II', at, len(record))
        at += len(record)
    return made + b''.join(nodes)


def parsed(path):
    data = path.read_bytes()
    if path.suffix == '.svgz':
        data = gzip.decompress(data)
    try:
        return ET.fromstring(data)
    except ET.ParseError:
        count['files that are not well-formed'] += 1
        return None


def main(src, out, folders):
    eids, aids = names(src, 'EId'), names(src, 'AId')
    out = pathlib.Path(out)
    shutil.rmtree(out, ignore_errors=True)
    out.mkdir(parents=True)
    index = []
    for folder in folders:
        files = sorted(p for p in pathlib.Path(folder).rglob('*') if p.suffix in ('.svg', '.svgz') and p.is_file())
        for path in files:
            count['files'] += 1
            root = parsed(path)
            found = [] if root is None else list(root.iter(SVG + 'filter'))
            doc = Document(root) if found else None
            count['files with a filter'] += bool(found)
            for e in found:
                index.append('%04d %s %s' % (len(index) + 1, path.name, e.get('id', '-')))
                (out / ('%04d.sheet' % len(index))).write_bytes(sheet(doc, e, eids, aids))
    (out / 'index.txt').write_text('\n'.join(index) + '\n', encoding='utf-8')
    print('%d filters; %s' % (len(index), ', '.join('%d %s' % (n, what) for what, n in sorted(count.items()))))


if __name__ == '__main__':
    if len(sys.argv) < 4:
        sys.exit(__doc__)
    main(sys.argv[1], sys.argv[2], sys.argv[3:])
