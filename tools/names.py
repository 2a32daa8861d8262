#!/usr/bin/env python3
"""names.py NAMES_RS: the numbers of the elements and attributes in use, counted from usvg's src/parser/svgtree/names.rs.

Prints how many elements (`EId`) and attributes (`AId`) the source declares, then a line for each one in use, in the source's order:
an element's tag byte, which is 1 + its place in `EId` (0 is a node without a tag), and an attribute's id, which is its place in `AId`,
both counted from 0. The output is the file crates/names_list/stdout, which the program names_list must print from the compiled constants.
"""
import re
import sys

ELEMENTS = '''
FeBlend FeColorMatrix FeComponentTransfer FeComposite FeConvolveMatrix FeDiffuseLighting FeDisplacementMap FeDropShadow FeFlood
FeGaussianBlur FeImage FeMerge FeMorphology FeOffset FeSpecularLighting FeTile FeTurbulence
FeFuncR FeFuncG FeFuncB FeFuncA FeDistantLight FePointLight FeSpotLight
'''.split()

ATTRIBUTES = '''
ColorInterpolationFilters Result In In2 Mode Type Operator EdgeMode PreserveAlpha XChannelSelector YChannelSelector StitchTiles
K1 K2 K3 K4 Divisor Bias TargetX TargetY Scale FloodOpacity Dx Dy SurfaceScale DiffuseConstant SpecularConstant SpecularExponent
NumOctaves Seed Values KernelMatrix Radius BaseFrequency X Y Width Height FloodColor LightingColor Color StdDeviation Order
Slope Intercept Amplitude Exponent Offset Azimuth Elevation Z PointsAtX PointsAtY PointsAtZ LimitingConeAngle TableValues
'''.split()


def declared(source, enum):
    """The variants of an enum, in order. The map from SVG names must hold each of them once, under its own name."""
    body = re.search(r'pub enum %s \{(.*?)\}' % enum, source, re.S).group(1)
    variants = [v.strip() for v in body.split(',') if v.strip()]
    entries = re.findall(r'\("([^"]*)", %s::(\w+)\)' % enum, source)
    if len(set(variants)) != len(variants) or sorted(v for _, v in entries) != sorted(variants):
        sys.exit('%s: the enum and the map of names differ' % enum)
    for svg, variant in entries:
        if ''.join(part[:1].upper() + part[1:] for part in svg.split('-')) != variant:
            sys.exit('%s: %s stands under the name %s' % (enum, variant, svg))
    return variants


def main():
    source = open(sys.argv[1]).read()
    for enum, used, first in [('EId', ELEMENTS, 1), ('AId', ATTRIBUTES, 0)]:
        variants = declared(source, enum)
        if set(used) - set(variants):
            sys.exit('%s: not declared: %s' % (enum, sorted(set(used) - set(variants))))
        print(enum, len(variants))
        for place, variant in enumerate(variants):
            if variant in used:
                print('%s::%s %d' % (enum, variant, place + first))


main()
