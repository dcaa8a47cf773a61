#!/usr/bin/env python3
"""Brings the names of definitions and lemmas to today's spelling: wholeLength becomes whole_length.

usage: tools/spell_names.py [FOLDER]

FOLDER is a checkout whose crates port.py has turned; without it the current folder. The .rt, .antt and .edit
files of crates/, and the pages, are rewritten in place. Text in quotation marks keeps its spelling, but in a
comment or a page. Run it once. It prints the names that meet one that was there before.
"""

import os
import re
import sys

# Names of definitions, constructors and fields. A lemma's name is one of them with more behind a dash.
WORDS = """
aBool aNull aString absentAt absentOf absentUnder allDigits allIntegers allPairs allZeros anArray
anObject aroundGeometries aroundObjects arrayKind asWritten beginApart boundaryMember byteKind
chainOf charsOf cityJson cityObject cityObjects closedOf codeFrom concatMap countIn decimalDigits
decimalOf decodeAt digitBytes digitsValue eachElement eachIn eachMember elementsIn endOfFault
endRecs escOf exponentBytes exponentValue firstNamed forBoth forEach fractionBytes fractionValues
frameBytes geometriesMember geometryBytes geometryChecks geometryCode geometryFrom geometryOf
geometryRecs geometryShape geometryType geometryWords gotStep hasByte hashFrom headFrom hexOf
hexValue identityBytes identityPayload idsAmong inOrder inPlace integerOf isAdded isAddedName
isArrayValue isBelow isBlank isCharacter isDigit isEscape isGeometryType isHex isHigh isIn isInteger
isIntegerValue isLetter isLod isLow isMinus isNullValue isNumberValue isNumeric isObjectType
isObjectValue isOne isPermitted isPoint isSame isSameAll isSecondLevel isShort isStringValue
isSurfaceType isTriple isUnsigned isZeroFraction judgeAnswer judgedButNames kioskText layAnswer
layDecimal layModel layNest layRec laySurface layThree layValue layValues leadOf linkBytes
linkFaults linkNumber linkNumbers linksFrom linksOf linksOfEach listedCount listedIn listedUnder
litStep literalOf lodCode lodMember lodOf longBT longsBT looksSecondLevel mantStep manyRoads marksOf
maybeDecimal memberRoom memberWords membersIn minimalText minorCode minorOf minusBytes modelOf
modelOfText modelRecs nameFault nameStep needsLod nestOf nextStep noFault noItems noPlus noughtStep
numberKind numberModel numberObject numbersIn numbersOf numeralOf objectBytes objectChecks
objectCodes objectKind objectLimit objectNumber objectOf objectParts objectRecs objectShape
objectType objectWords objectsIn objectsOf offsetsOf openChildren openOf openParents openedAs orBest
orFault overBoundary pairIn pairOrFault pairRange pairedAs pairsMember parentLink parsedAs partEnd
partPlace permittedIn permittedRows powerOf quickOf rawOf refusalOf roadMembers roomAfter rootChecks
rootParts rootShape rule6In rule6Of ruleNumber ruleOf sameDecimal sameInteger screenedAs
semanticParts semanticsBytes semanticsIn semanticsMember semanticsOf semanticsRecs semanticsShape
shapeBytes shapePayload sheetOf sheetOfText signBytes smallIfHex spentBy spentIn stringKind
stringsIn stringsOf surfaceBytes surfaceNamed surfaceOf surfaceParts surfacePayload surfaceRecs
surfaceShape surfaceType surfaceWords surfacesMember textAt textIn threeEntries threeOf threePairs
timesTen tooDeep transformBytes transformMember transformParts transformPayload transformShape
treeIn treeOrRefusal trimOf typeStart typeText unpairedAt unpairedFrom unpairedIn valuesBytes
valuesDepth valuesMember valuesPayload verdictOf verticesBytes verticesMember wantStep wholeFrom
wholeLength wholeNumber withBit withGeometries withObjects withPair withRoot withSurfaces
withTransform withTwo withValues withVertices wordParts zeroIfNone
""".split()

# Names that have no capital inside, or a word that the library now spells otherwise.
OTHERS = {
    "UTF8-tail": "utf8_tail",
    "getD-both": "get_or-both",
    "natAbs-signed": "nat_abs-signed",
    "natAbs-times": "nat_abs-times",
    "orNull-size": "or_null-size",
}

# Lemmas whose names port.py spelled as a definition's name is spelled from now on: they get their dash back.
LEMMAS = re.compile(r"(?<![\w.:`'-])(is_digit|text_at|object_of|numbers_of|digits_value)(?![\w'-])")

NAME = re.compile(r"[A-Za-z0-9_]+(?:-[A-Za-z0-9_+]+)*")
QUOTED = re.compile(r'"(?:[^"\\]|\\.)*"')
PAGES = ("README.md", "docs")


def snake(word):
    return re.sub(r"(?<=[a-z0-9])([A-Z]+)", lambda m: "_" + m[1].lower(), word)


TABLE = {word: snake(word) for word in WORDS}


def renamed(match):
    name = match[0]
    if name in OTHERS:
        return OTHERS[name]
    return "-".join(TABLE.get(part, part) for part in name.split("-"))


def turned(text):
    return NAME.sub(renamed, text)


def lemmas(line):
    return LEMMAS.sub(lambda m: m[1].replace("_", "-"), line)


def code(line):
    """Renames in a line of code or of an edit: not in what stands in quotation marks."""
    parts, at = [], 0
    for quoted in QUOTED.finditer(line):
        parts += [turned(line[at:quoted.start()]), quoted[0]]
        at = quoted.end()
    return "".join(parts) + turned(line[at:])


def files(top):
    for folder, folders, names in os.walk(os.path.join(top, "crates")):
        folders[:] = sorted(it for it in folders if it != "out")
        for name in sorted(names):
            if name.endswith((".rt", ".antt", ".edit")):
                yield os.path.join(folder, name), code
    for page in PAGES:
        path = os.path.join(top, page)
        for name in sorted(os.listdir(path)) if os.path.isdir(path) else [""]:
            if (name or page).endswith(".md"):
                yield os.path.join(path, name) if name else path, turned


def main():
    top = sys.argv[1] if len(sys.argv) > 1 else "."
    new = set(TABLE.values())
    there = {}
    for path, turn in files(top):
        with open(path, encoding="utf-8") as f:
            text = f.read()
        if path.endswith((".antt", ".rt")):
            bare = QUOTED.sub("", re.sub(r"(--|//).*", "", text))
            for name in new.intersection(re.findall(r"[a-z0-9_]+", bare)):
                there.setdefault(name, []).append(os.path.relpath(path, top))
        lines = text.split("\n")
        if path.endswith(".antt"):
            lines = [lemmas(line) for line in lines]
        result = "\n".join(turn(line) for line in lines)
        if result != text:
            with open(path, "w", encoding="utf-8") as f:
                f.write(result)
    for name, paths in sorted(there.items()):
        print(f"{name} was there before in {', '.join(paths)}")


if __name__ == "__main__":
    main()
