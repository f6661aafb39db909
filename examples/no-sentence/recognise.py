#!/usr/bin/env python3
"""Where a script stops being the beginning of a sentence: a recogniser after Earley (1970) over the grammar of docs/SQL.md.

It shares nothing with the program. Without words it compares the places in cases.txt with those that it finds;
with words it prints the place of each.  recognise.py 'SELECT FROM t'  prints 1:8.
"""
import pathlib
import re
import sys

RESERVED = set("""ALL AND ANTI AS ASC BETWEEN BY CASE CAST CREATE CROSS DESC DISTINCT DIV ELSE END FALSE FROM FULL GROUP
    HAVING IN INNER IS JOIN LEFT LIKE LIMIT NOT NULL NULLS OFFSET ON OR ORDER OUTER RIGHT SELECT SEMI SET THEN TRUE UNION
    USING WHEN WHERE""".split())
LARGEST = 2**63 - 1
TOKEN = re.compile(r"""(?P<blank>[ \t\r\n]+|--[^\n]*)
    |(?P<word>[A-Za-z_][A-Za-z0-9_]*)
    |(?P<quoted>`(?:[^`]|``)+`)
    |(?P<string>'(?:[^'\\]|\\.)*'|"(?:[^"\\]|\\.)*")
    |(?P<number>[0-9]+[lL]?(?![A-Za-z0-9_]))
    |(?P<mixed>[0-9][A-Za-z0-9_]*)
    |(?P<symbol><=>|==|<>|!=|<=|>=|[(),.;*+\-%=<>])""", re.S | re.X)

# A word in capitals is itself, one between quotes a symbol, one in RULES a rule, another a kind of token.
RULES = r"""
script      = statements | ends statements | ends |
statements  = statement | statement ends | statement ends statements
ends        = ";" | ";" ends
statement   = create | set | query
create      = CREATE TABLE name "(" columns ")" USING CSV tail
tail        = LOCATION string | LOCATION string options | options LOCATION string
columns     = column | column "," columns
column      = name type
type        = INT | INTEGER | BIGINT | LONG | STRING | BOOLEAN
options     = OPTIONS "(" pairs ")"
pairs       = pair | pair "," pairs
pair        = key content | key "=" content
key         = name | string
content     = string | TRUE | FALSE
set         = SET words "=" value
words       = word | word "." words
value       = any | any value
query       = union order limit offset
order       = | ORDER BY sorts
limit       = | LIMIT number
offset      = | OFFSET number
union       = core | core UNION union | core UNION ALL union | core UNION DISTINCT union
core        = "(" query ")" | SELECT repeats items from where group having
repeats     = | ALL | DISTINCT
items       = item | item "," items
item        = "*" | name "." "*" | or | or name | or AS name
from        = | FROM joineds
joineds     = joined | joined "," joineds
joined      = source | source steps
steps       = step | step steps
step        = kind JOIN source | kind JOIN source ON or
kind        = | INNER | CROSS | LEFT | LEFT OUTER | RIGHT | RIGHT OUTER | FULL | FULL OUTER | SEMI | LEFT SEMI | ANTI | LEFT ANTI
source      = relation | relation name | relation AS name
relation    = name | "(" query ")"
where       = | WHERE or
group       = | GROUP BY list
having      = | HAVING or
sorts       = sort | sort "," sorts
sort        = or way nulls
way         = | ASC | DESC
nulls       = | NULLS FIRST | NULLS LAST
list        = or | or "," list
or          = and | and OR or
and         = not | not AND and
not         = predicate | NOT not
predicate   = comparison | comparison negated BETWEEN comparison AND comparison | comparison negated IN "(" list ")" | comparison negated LIKE comparison | comparison IS negated truth
negated     = | NOT
truth       = NULL | TRUE | FALSE
comparison  = sum | sum comparing comparison
comparing   = "=" | "==" | "<=>" | "<>" | "!=" | "<" | "<=" | ">" | ">="
sum         = product | product "+" sum | product "-" sum
product     = sign | sign "*" product | sign "%" product | sign DIV product
sign        = primary | "-" sign | "+" sign
primary     = number | "-" least | string | TRUE | FALSE | NULL | name | name "." name | "(" or ")" | CAST "(" or AS type ")" | CASE tested arms otherwise END | count "(" "*" ")" | name "(" list ")"
tested      = | or
arms        = WHEN or THEN or | WHEN or THEN or arms
otherwise   = | ELSE or
"""
GRAMMAR = {}
for line in RULES.strip().split("\n"):
    rule, forms = line.split("=", 1)
    # the symbol "=" and its like are written with quotes, so a bar outside of them parts the forms
    GRAMMAR[rule.strip()] = [tuple(form.split()) for form in forms.split("|")]


def tokens_of(script):
    """The tokens as kind, text and offset. A comment /* */ holds others."""
    at, tokens = 0, []
    while at < len(script):
        if script.startswith("/*", at):
            depth, at = 1, at + 2
            while depth:
                mark = script[at : at + 2]
                depth += {"/*": 1, "*/": -1}.get(mark, 0)
                at += 2 if mark in ("/*", "*/") else 1
            continue
        match = TOKEN.match(script, at)
        if match.lastgroup != "blank":
            tokens.append((match.lastgroup, match.group(), at))
        at = match.end()
    return tokens


def fits(wanted, token):
    """Whether the token is what the rule wants at this place."""
    kind, text, _ = token
    if wanted.startswith('"'):
        return kind == "symbol" and text == wanted.strip('"')
    if wanted.isupper():
        return kind == "word" and text.upper() == wanted
    if wanted == "name":
        return kind == "quoted" or kind == "word" and text.upper() not in RESERVED
    if wanted == "count":
        return fits("name", token) and text.strip("`").lower() == "count"
    if wanted in ("number", "least"):
        number = int(text.rstrip("lL")) if kind == "number" else None
        return number is not None and (number <= LARGEST if wanted == "number" else number == LARGEST + 1)
    if wanted == "any":
        return (kind, text) != ("symbol", ";")
    return kind == wanted


def closed(state, states):
    """Adds what a set of items foresees and completes, until nothing is new."""
    size = -1
    while size != len(state):
        size = len(state)
        for rule, form, place, start in list(state):
            if place == len(form):
                for other, parts, at, begun in list(states[start]):
                    if at < len(parts) and parts[at] == rule:
                        state.add((other, parts, at + 1, begun))
            elif form[place] in GRAMMAR:
                state.update((form[place], new, 0, len(states) - 1) for new in GRAMMAR[form[place]])


def offset_of(script):
    """The offset of the token with which no sentence goes on, the script's length where it breaks off, None in a sentence."""
    tokens = tokens_of(script)
    states = [{("script", form, 0, 0) for form in GRAMMAR["script"]}]
    closed(states[0], states)
    for token in tokens:
        taken = {(rule, form, place + 1, start) for rule, form, place, start in states[-1]
                 if place < len(form) and form[place] not in GRAMMAR and fits(form[place], token)}
        if not taken:
            return token[2]
        states.append(taken)
        closed(taken, states)
    whole = any(rule == "script" and place == len(form) and start == 0 for rule, form, place, start in states[-1])
    return None if whole else len(script)


def place_of(script):
    at = offset_of(script)
    if at is None:
        return "a sentence"
    before = script[:at]
    return f"{before.count(chr(10)) + 1}:{len(before) - before.rfind(chr(10))}"


def cases():
    """The scripts of cases.txt with their places."""
    wanted, script = None, []
    path = pathlib.Path(__file__).with_name("cases.txt")
    for line in path.read_bytes().decode().split("\n") + ["> "]:
        if line.startswith("> "):
            if wanted:
                yield "\n".join(script).rstrip("\n"), wanted
            wanted, script = line.split(" ")[-1], []
        elif not line.startswith("#"):
            script.append(line)


if len(sys.argv) > 1:
    print("\n".join(map(place_of, sys.argv[1:])))
    sys.exit(0)
found = [(script, wanted, place_of(script)) for script, wanted in cases()]
differing = [case for case in found if case[1] != case[2]]
for script, wanted, place in differing:
    print(f"{script!r}: wanted {wanted}, found {place}")
print(f"{len(found)} places, {len(differing)} differ")
sys.exit(1 if differing else 0)
