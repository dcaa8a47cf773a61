#!/usr/bin/env python3
"""Prints the functions of crates/*/src whose code differs in names and literals alone, a group to a line.

    tools/twins.py [FOLDER]

Contracts and comments are left out. Functions of less than 25 tokens are not looked at."""
import collections
import glob
import re
import sys

TOKEN = re.compile(r"b?'(?:\\.|[^'\\])'|b?\"(?:\\.|[^\"\\])*\"|\d[\w.]*|[A-Za-z_]\w*|::|->|=>|[<>=!&|+\-*/%]=?|\S")
WORDS = {"let", "mut", "if", "else", "while", "loop", "for", "in", "match", "return", "as", "fn", "pub", "break", "continue", "self", "true", "false"}


def functions(text):
    """The name and the code of each function: what stands between the braces that open on a line of their own, or after the head."""
    text = re.sub(r"//[^\n]*", "", text)
    for found in re.finditer(r"\bfn (\w+)", text):
        rest = text[found.end():]
        begin = re.search(r"^\s*\{\n", rest, re.M)
        if not begin:
            continue
        depth, at = 0, begin.end() - 2
        for k in range(at, len(rest)):
            depth += {"{": 1, "}": -1}.get(rest[k], 0)
            if depth == 0:
                yield found.group(1), rest[at:k + 1]
                break


def shape(code):
    names, tokens = {}, []
    for token in TOKEN.findall(code):
        if re.match(r"[A-Za-z_]\w*$", token) and token not in WORDS:
            tokens.append("n%d" % names.setdefault(token, len(names)))
        elif re.match(r"\d|b?['\"]", token):
            tokens.append("0")
        else:
            tokens.append(token)
    return tuple(tokens)


def main():
    root = sys.argv[1] if len(sys.argv) > 1 else "."
    groups = collections.defaultdict(list)
    for path in sorted(glob.glob(root + "/crates/*/src/*.rt")):
        crate = path.split("/")[-3]
        for name, code in functions(open(path, encoding="utf-8").read()):
            key = shape(code)
            if len(key) >= 25:
                groups[key].append(crate + "::" + name)
    twins = [names for names in groups.values() if len(names) > 1]
    for names in sorted(twins):
        print(" ~ ".join(names))
    print("%d functions in %d groups" % (sum(map(len, twins)), len(twins)))


main()
