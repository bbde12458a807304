#!/usr/bin/env python3
"""Prints the groups of functions in crates/*/src that are alike but for names, types, literals and operators.

Run it at the top of the repository. Each function, without its clauses and comments, becomes a row of tokens in which
words other than keywords are numbered by their first use, and literals and operators are each one token. Functions with
fewer tokens than the floor (24, or the first argument) and the tests of scenarios are left out.
"""
import glob
import re
import sys

FLOOR = int(sys.argv[1]) if len(sys.argv) > 1 else 24
KEYWORDS = set("fn let mut match if else for while loop in return self Self pub impl struct enum as ref where true "
               "false Ok Err Some None crate".split())
TOKEN = re.compile(r"b?\"(?:\\.|[^\"\\])*\"|b?'(?:\\.|[^'\\])'|[A-Za-z_]\w*|\d\w*|::|=>|->|\.\.=|\.\.|[-+*/%&|^<>=!]=?|\S")
OPERATOR = re.compile(r"(\+|-|\*|/|%|&&|\|\||&|\||\^|==|!=|<=|>=|<|>)$")


def functions(text):
    """Yields the name, the line and the source of each function, up to the brace that ends it."""
    text = re.sub(r"^ *(requires|ensures)\b.*$", "", text, flags=re.M)
    for start in re.finditer(r"^ *(?:pub(?:\(\w+\))? )?fn (\w+)", text, re.M):
        depth, end = 0, start.end()
        while end < len(text):
            if text[end] == "{":
                depth += 1
            elif text[end] == "}":
                depth -= 1
                if depth == 0:
                    break
            elif text[end] == ";" and depth == 0:
                break
            end += 1
        yield start.group(1), text[:start.start()].count("\n") + 1, text[start.start():end + 1]


def shape(source):
    names, tokens = {}, []
    for token in TOKEN.findall(re.sub(r"//.*", "", source)):
        if re.match(r"[A-Za-z_]", token) and token not in KEYWORDS and not re.match(r"b[\"']", token):
            tokens.append("n%d" % names.setdefault(token, len(names)))
        elif re.match(r"b?[\"']|\d", token):
            tokens.append("literal")
        elif OPERATOR.match(token):
            tokens.append("operator")
        else:
            tokens.append(token)
    # A comma that ends a list says nothing.
    return tuple(token for token, after in zip(tokens, tokens[1:] + [""]) if not (token == "," and after in ("}", ")", "]")))


groups = {}
for path in sorted(glob.glob("crates/*/src/**/*.rt", recursive=True)):
    if "/scenarios/" not in path:
        for name, line, source in functions(open(path).read()):
            tokens = shape(source)
            if len(tokens) >= FLOOR:
                groups.setdefault(tokens, []).append("%s:%d %s" % (path, line, name))
found = sorted(group for group in groups.values() if len(group) > 1)
for group in found:
    print("  ".join(group))
print("%d groups, %d functions" % (len(found), sum(map(len, found))))
