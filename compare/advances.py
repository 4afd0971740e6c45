"""Prints the advances of characters in an instance of a variable font by fontTools, in the form of
the example `instance`: python3 compare/advances.py FONT TEXT wght=600 wdth=87.5"""

import sys

from fontTools.misc.fixedTools import floatToFixedToFloat
from fontTools.misc.roundTools import otRound
from fontTools.ttLib import TTFont
from fontTools.varLib.models import normalizeValue, piecewiseLinearMap
from fontTools.varLib.varStore import VarStoreInstancer

path, text, *settings = sys.argv[1:]
font = TTFont(path)
given = dict(setting.split("=") for setting in settings)
location = {}
for axis in font["fvar"].axes:
    value = float(given.get(axis.axisTag, axis.defaultValue))
    at = normalizeValue(value, (axis.minValue, axis.defaultValue, axis.maxValue))
    if "avar" in font:
        at = piecewiseLinearMap(at, font["avar"].segments[axis.axisTag])
    location[axis.axisTag] = floatToFixedToFloat(at, 14)
hvar = font["HVAR"].table
store = VarStoreInstancer(hvar.VarStore, font["fvar"].axes, location)
for character in text:
    glyph = font.getBestCmap().get(ord(character), font.getGlyphOrder()[0])
    index = hvar.AdvWidthMap.mapping[glyph] if hvar.AdvWidthMap else font.getGlyphID(glyph)
    print(f"{character}: {otRound(font['hmtx'][glyph][0] + store[index])}")
