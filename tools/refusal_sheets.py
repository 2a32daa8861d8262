#!/usr/bin/env python3
"""refusal_sheets.py: sheets for each refusal that a call can give, with the number that document 01 asks for, and document 02 for typed lists. From the top of the repository:

    python3 tools/refusal_sheets.py > crates/refusals/stdin

A case is 8 bytes (the length of its name, the expected number, two zeros, the sheet's length as a u32), the name, and the sheet. Some cases stand just
inside a limit and have the number 0. No sheet has 7: refusal 3 leaves no base frequency that is not finite.
The numbers of elements and attributes are those of crates/names_list/stdout.
"""
import struct
import sys

PLACES = dict(line.split() for line in open('crates/names_list/stdout'))

NONE, ABSENT = 0, 255
USER, BOX, DEFAULT = 0, 1, 2
TEXT, NUMBER, LIST, LENGTH, TYPED = 1, 2, 3, 4, 7
NAN = float('nan')
LARGEST = struct.unpack('<f', b'\xff\xff\x7f\x7f')[0]


def tag(name):
    return int(PLACES['EId::' + name])


TILE, FLOOD, MERGE, IMAGE = tag('FeTile'), tag('FeFlood'), tag('FeMerge'), tag('FeImage')
UNSUPPORTED = 1


def attribute(name, kind, value):
    return struct.pack('<HBBH', int(PLACES['AId::' + name]), kind, 0, len(value)) + value


def text(name, value):
    return attribute(name, TEXT, value)


def number(name, value):
    return attribute(name, NUMBER, struct.pack('<f', value))


def numbers(name, values):
    return attribute(name, LIST, struct.pack('<%df' % len(values), *values))


def typed(name, value):
    return attribute(name, TYPED, value)


def length(name, value, unit=NONE):
    return attribute(name, LENGTH, struct.pack('<Bd', unit, value))


def node(element, *attributes, depth=0, font_size=0):
    """The attributes stand in the order given; a sheet asks for rising ids."""
    return struct.pack('<BBBBf', depth, element, len(attributes), 0, font_size) + b''.join(attributes)


def sheet(*nodes, units=(USER, USER), box=None, view_box=(2, 1), dpi=96, font_size=0, region=(0, 0, 2, 1), count=None, gap=0):
    """What is not given is document 01's example; a length of the region is a number, or None where it is absent."""
    head = bytes([*units, box is not None, 0]) + struct.pack('<4f', *(box or [0] * 4)) + struct.pack('<4f', *view_box, dpi, font_size)
    for value in region:
        head += struct.pack('<Bd', ABSENT, 0) if value is None else struct.pack('<Bd', NONE, value)
    at, pairs = 74 + 8 * len(nodes) + gap, b''
    for record in nodes:
        pairs += struct.pack('<II', at, len(record))
        at += len(record)
    return head + struct.pack('<H', len(nodes) if count is None else count) + pairs + bytes(gap) + b''.join(nodes)


def of_size(size):
    """A sheet that nothing but its size can refuse: four tiles with lists that a tile does not use, and a name for the bytes that are left."""
    lists = [numbers(name, [0] * 1024) for name in ('BaseFrequency', 'KernelMatrix', 'Radius', 'Values')]
    def named(name):
        last = [numbers('BaseFrequency', [0] * 901), *lists[1:3], text('Result', name), lists[3]]
        return sheet(*[node(TILE, *lists)] * 3, node(TILE, *last))

    return named(b'r' * (size - len(named(b''))))


def listed(*texts):
    """Tiles with typed lists, which a tile does not use."""
    return sheet(*[node(TILE, typed('Values', value)) for value in texts])


def merge_list(name, inputs, result):
    """A tile, and a merge of so many inputs that each name it. The list has 58 bytes, the merge's result, and (name + 3) * (inputs + 1)."""
    return sheet(node(TILE, text('Result', b'n' * name)), node(MERGE, text('Result', result)), *[node(0, depth=1)] * inputs)


tile = node(TILE)
wide = dict(units=(USER, BOX), box=(0, 0, 3e38, 1))

CASES = [
    # 1: size, before any layout
    (1, 'sheet of 65,537 bytes', of_size(65537)),
    (0, 'sheet of 65,536 bytes', of_size(65536)),
    (1, '513 nodes', sheet(*[tile] * 513)),
    (0, '512 nodes', sheet(*[tile] * 512)),
    (1, 'node count of 513 over one node', sheet(tile, count=513)),
    # 2: layout
    (2, 'no byte', b''),
    (2, 'sheet of 73 bytes', sheet(tile)[:73]),
    (2, 'gap before the first record', sheet(tile, gap=1)),
    (2, 'byte behind the last record', sheet(tile) + b'\0'),
    (2, 'no node and a byte more', sheet() + b'\0'),
    (2, 'first node of depth 1', sheet(node(TILE, depth=1))),
    (2, 'ids that do not rise', sheet(node(TILE, text('Result', b'a'), text('In', b'b')))),
    (2, 'text that is not UTF-8', sheet(node(TILE, text('In', b'\xed\xa0\x80')))),
    (2, 'unit 255 on a child', sheet(node(TILE, length('X', 0, ABSENT)))),
    (2, 'layout and a number, both bad', sheet(node(TILE, number('Seed', NAN)), gap=1)),
    (2, 'typed list of 4,097 bytes', listed(b' ' * 4097)),
    (0, 'typed list of 4,096 bytes', listed(b' ' * 4096)),
    (2, 'typed list under a text\'s id', sheet(node(TILE, typed('In', b'1')))),
    (2, 'typed list under a number\'s id', sheet(node(TILE, typed('Seed', b'1')))),
    (2, 'typed tableValues on a child', sheet(node(TILE, typed('TableValues', b'1')))),
    (2, 'typed list of 4,097 bytes behind one outside the grammar', listed(b',', b' ' * 4097)),
    # 10: typed lists outside the grammar, used or not
    (10, 'comma at the end', listed(b'1,')),
    (10, 'comma at the start', listed(b',1')),
    (10, 'two commas', listed(b'1,,2')),
    (0, 'a comma among white space', listed(b'\t1 ,\r\n2 ')),
    (0, 'empty typed list', listed(b'')),
    (0, 'white space alone', listed(b' \t\r\n')),
    (10, 'form feed', listed(b'1\f2')),
    (10, 'NUL', listed(b'1\x002')),
    (10, 'typed list that is not UTF-8', listed(b'1\xff')),
    (10, 'point without a digit behind it', listed(b'1.')),
    (0, 'point without a digit before it', listed(b'.5')),
    (10, 'point alone', listed(b'.')),
    (10, 'sign alone', listed(b'+')),
    (10, 'exponent without digits', listed(b'1e')),
    (10, 'items that are not parted', listed(b'1-2')),
    (10, '1,025 items', listed(b','.join([b'0'] * 1025))),
    (0, '1,024 items', listed(b','.join([b'0'] * 1024))),
    (10, 'first list outside the limits, second outside the grammar', listed(b'1e23', b'1,')),
    (10, 'grammar and a number, both bad', sheet(node(TILE, number('Seed', NAN), typed('Values', b'1,')))),
    # 11: and outside the limits
    (11, '16 digits', listed(b'1234567890123456')),
    (0, '15 digits behind zeros', listed(b'000123456789012.345')),
    (11, 'trailing zeros are digits', listed(b'1000000000000000')),
    (11, 'power 23', listed(b'1e23')),
    (0, 'power 22', listed(b'1e22')),
    (11, 'power -23', listed(b'.1e-22')),
    (0, 'power -22', listed(b'.1e-21')),
    (11, 'power 23 of zero', listed(b'0e23')),
    (11, 'limits and a number, both bad', sheet(node(TILE, number('Seed', NAN), typed('Values', b'1e23')))),
    (11, 'limits and feImage, both bad', sheet(node(IMAGE), node(TILE, typed('Values', b'1e23')))),
    # 3: numbers, used or not
    (3, 'seed NaN on a tile', sheet(node(TILE, number('Seed', NAN)))),
    (3, 'length beyond f32', sheet(node(TILE, length('X', 1e39)))),
    (3, 'box without a width', sheet(tile, box=(0, 0, 0, 1))),
    (3, 'view box of the largest f32', sheet(tile, view_box=(LARGEST, 1))),
    (3, 'dpi -0', sheet(tile, dpi=-0.0)),
    (3, 'font size below 0', sheet(node(TILE, font_size=-1))),
    (0, 'font size -0', sheet(node(TILE, font_size=-0.0))),
    (3, 'flood-opacity -0', sheet(node(FLOOD, number('FloodOpacity', -0.0)))),
    (3, 'flood-opacity above 1', sheet(node(FLOOD, number('FloodOpacity', 1.5)))),
    (3, 'number and feImage, both bad', sheet(node(IMAGE, number('Seed', NAN)))),
    # 4: feImage
    (4, 'feImage', sheet(node(IMAGE))),
    (4, 'feImage behind the end of the chain', sheet(tile, node(TILE, length('Width', 0)), node(IMAGE))),
    (0, 'feImage below feMerge', sheet(node(MERGE), node(IMAGE, depth=1))),
    (4, 'feImage and no filter region', sheet(node(IMAGE), region=(0, 0, 0, 1))),
    # 5: the filter region
    (5, 'filter region without a width', sheet(tile, region=(0, 0, 0, 1))),
    (5, 'box units for the filter without a box', sheet(tile, units=(BOX, USER))),
    (5, 'default units for the filter without a box', sheet(tile, units=(DEFAULT, DEFAULT))),
    (5, 'no filter region and no node', sheet(region=(0, 0, 0, 1))),
    # 6: a filter region that cannot be placed, and products that are not finite
    (6, 'filter region that cannot be placed', sheet(tile, units=(BOX, USER), box=(0, 0, 3e38, 1))),
    (6, 'filter region that cannot be placed, and no node', sheet(units=(BOX, USER), box=(0, 0, 3e38, 1))),
    (6, 'radius product that is not finite', sheet(node(tag('FeMorphology'), numbers('Radius', [2, 1])), **wide)),
    (0, 'radius product that is not taken', sheet(node(tag('FeMorphology'), numbers('Radius', [2, -1])), **wide)),
    (6, 'displacement in a box of no finite width + height', sheet(node(tag('FeDisplacementMap')), units=(USER, BOX), box=(0, 0, 3e38, 3e38))),
    # no refusal: a child that has no rectangle in the box ends the chain
    (0, 'child of infinite width in the box', sheet(tile, node(TILE, length('Width', 2)), tile, **wide)),
    (0, 'unsupported child of infinite width in the box', sheet(tile, node(UNSUPPORTED, length('Width', 2)), tile, **wide)),
    (0, 'radius product that is not finite, in a child without a rectangle',
     sheet(tile, node(tag('FeMorphology'), numbers('Radius', [2, 1]), length('Width', 0)), **wide)),
    (0, 'radius product that is not finite, behind the end of the chain',
     sheet(tile, node(TILE, length('Width', 2)), node(tag('FeMorphology'), numbers('Radius', [2, 1])), **wide)),
    # 8: no primitive
    (8, 'no node', sheet()),
    (8, 'box units for primitives without a box', sheet(tile, units=(USER, BOX))),
    (8, 'chain that ends at its first child', sheet(node(TILE, length('Width', 0)), tile)),
    (8, 'first child of infinite width in the box', sheet(node(TILE, length('Width', 2)), tile, **wide)),
    (8, 'first feFlood of infinite width in the box', sheet(node(FLOOD, length('Width', 2)), tile, **wide)),
    (8, 'unsupported and tagless children alone', sheet(node(UNSUPPORTED), node(0))),
    # 9: the list's size
    (9, 'list of 65,537 bytes', merge_list(196, 328, b'mergers+')),
    (0, 'list of 65,536 bytes', merge_list(196, 328, b'mergers')),
    (9, 'merge of 510 inputs', merge_list(255, 510, b'')),
]


def main():
    for expected, name, data in CASES:
        name = name.encode()
        sys.stdout.buffer.write(struct.pack('<BBHI', len(name), expected, 0, len(data)) + name + data)


main()
