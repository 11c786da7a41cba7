#!/usr/bin/env python3
"""Tells what docs/SCRIPTS.md names and no recorded run or fault case has.

    python3 bench/script_page.py

It reads the tables of the page: members and their words, calls, tests and actions of rules, causes of
faults, lines, events with their answers, refusals, and rows. Each is looked for in the recorded scripts
and reports of crates/*/data, and the causes in what script_cases prints. It prints a line for each that
is missing, then how many it looked for, and ends with status 1 where any is missing.
"""
import glob
import json
import os
import re
import sys

TOP = os.path.join(os.path.dirname(os.path.abspath(__file__)), "..")

# What the page says before the refusals that no run of the program has.
NEVER = "No run of the program has"

looked_for = 0
missing = []


def look(what, is_there):
    global looked_for
    looked_for += 1
    if not is_there:
        missing.append(what)


def read(path):
    with open(os.path.join(TOP, path), encoding="utf-8") as file:
        return file.read()


def tables_of(page):
    """The tables of the page, each by its first heading: the rows, each a list of cells."""
    tables = {}
    rows = None
    for line in page.split("\n"):
        if not line.startswith("|"):
            rows = None
        elif rows is None:
            rows = tables.setdefault(line.split("|")[1].strip(), [])
        elif not line.startswith("|---"):
            rows.append([cell.strip() for cell in line.strip("|").split(" | ")])
    return tables


def quoted(text):
    return re.findall(r"`([^`]+)`", text)


def words_in(value):
    """The members of a JSON value and of what is in it, its texts, and the letters of its handlers."""
    words = set()
    if isinstance(value, dict):
        for name, part in value.items():
            words.add(name)
            words |= words_in(part)
            if name == "handlers":
                words |= set(part)
    elif isinstance(value, list):
        for part in value:
            words |= words_in(part)
    elif isinstance(value, bool):
        words.add(str(value).lower())
    elif isinstance(value, str):
        words.add(value)
    return words


def all_words(values):
    words = set()
    for value in values:
        words |= words_in(value)
    return words


def rules_of(filters):
    for filter in filters:
        for way in ("send", "receive"):
            yield from filter.get(way, [])


def shape(word):
    """A word of a line with what differs from line to line left out."""
    if re.fullmatch(r"m|b|s|[bf]\d+", word):
        return "MODULE"
    if word.isdigit():
        return "NUMBER"
    if re.fullmatch(r"[0-9a-f/]{4,}|FRAMES", word):
        return "BYTES"
    return word


def shapes(text):
    return [shape(word) for word in text.split()]


def has_words(line, words):
    return any(line[at:at + len(words)] == words for at in range(len(line)))


def look_at_scripts(tables, scripts):
    stacks = [stack for script in scripts for stack in script["stacks"]]
    calls = [call for script in scripts for call in script["calls"]]
    filters = [filter for stack in stacks for filter in stack["filters"]]
    filters += [call["filter"] for call in calls if "filter" in call]
    objects = {
        "the script": all_words(scripts),
        "a stack": all_words(stacks),
        "a miniport": all_words(stack["miniport"] for stack in stacks),
        "a binding": all_words(binding for stack in stacks for binding in stack["bindings"]),
        "a filter": all_words(filters),
        "a call": all_words(calls),
    }
    for name, members in tables["object"]:
        for word in quoted(members):
            look(f"{name}: {word}", word in objects[name])
    for names, members, *_ in tables["call"]:
        for name in quoted(names):
            words = all_words(call for call in calls if call["call"] == name)
            look(f"call: {name}", name in words)
            for word in quoted(members):
                if name != "replace" or word != "f":
                    look(f"call {name}: {word}", word in words or word == "f")
    rules = list(rules_of(filters))
    for table, member in (("test", "test"), ("action", "action")):
        words = all_words(rule[member] for rule in rules)
        for text, _ in tables[table]:
            for item in quoted(text):
                word = re.search(r'"(\w+)"', item).group(1)
                look(f"{table}: {word}", word in words)


def look_at_causes(tables):
    told = read("crates/script_cases/stdout")
    for row in tables["cause"]:
        look(f"cause: {row[0]}", re.search(rf": {row[0]}$", told, re.M))


def look_at_turns(tables, page, turns):
    """Each turn is the words of who asked, the event and the answer."""
    for events, answers in tables["event"]:
        asked = {event.split()[0] for event in quoted(events)}
        told = {answer.split()[0] for answer in quoted(answers)}
        for name in sorted(asked):
            look(f"event: {name}", any(t[1][0] == name and t[2][0] in told for t in turns))
        for name in sorted(told):
            look(f"answer: {name}", any(t[1][0] in asked and t[2][0] == name for t in turns))
    refusals = page[page.index("Each event may be answered"):].split("\n")[0]
    refusals, never = refusals.split(NEVER)
    never = set(quoted(never))
    for cause in quoted(refusals)[1:]:
        name = cause.split()[0]
        is_told = any(t[2][:2] == ["refused", name] for t in turns)
        if name in never:
            look(f"refusal: {name} stands in a run, and the page says it never does", not is_told)
        else:
            look(f"refusal: {name}", is_told)
    for who in ("own", "call", "help"):
        look(f"turn: {who}", any(t[0][0] == who for t in turns))


def look_at_rows(tables, rows):
    for examples, told in tables["row"]:
        kind = examples.strip("`").split()[0]
        for example in quoted(examples):
            look(f"row: {example}", any(row == shapes(example) for row in rows))
        kinds = {example.split()[0] for example in quoted(examples)}
        own = [row for row in rows if row[0] in kinds]
        for item in quoted(told):
            words = shapes(item)
            look(f"row {kind}: {item}", words == ["-"] or any(has_words(row, words) for row in own))
        for status in re.findall(r"\b(Success|Dropped|Resources|Aborted|Paused|NotSupported|BadLength)\b", told):
            look(f"row {kind}: {status}", any(status in row for row in own))


def main():
    page = read("docs/SCRIPTS.md")
    tables = tables_of(page)
    scripts = [json.loads(read(name)) for name in sorted(glob.glob(f"{TOP}/crates/*/data/*.script.json"))]
    turns = []
    rows = []
    others = []
    for name in sorted(glob.glob(f"{TOP}/crates/*/data/*.report")):
        for line in read(name).split("\n"):
            if line.startswith(" "):
                rows.append(tuple(shapes(line)))
            elif line.startswith("turn "):
                asked, answer = line.rsplit(" = ", 1)
                words = asked.split()
                at = 3 if words[2] == "own" else 4
                turns.append((words[2:at], words[at:], answer.split()))
            elif line:
                others.append(shapes(line))
    rows = [list(row) for row in set(rows)]
    look_at_scripts(tables, scripts)
    look_at_causes(tables)
    look_at_turns(tables, page, turns)
    look_at_rows(tables, rows)
    for line in ("stack", "binding", "end"):
        look(f"line: {line}", any(words[0] == line for words in others))
    for what in missing:
        print(f"missing {what}")
    print(f"{looked_for} looked for, {len(missing)} missing")
    sys.exit(1 if missing else 0)


main()
