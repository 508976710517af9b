"""Prints each clause that stands in the contracts of three functions or more, with the functions."""
import collections
import glob
import re

where = collections.defaultdict(set)
for path in sorted(glob.glob("crates/*/src/**/*.rt", recursive=True)):
    function = None
    for line in open(path):
        name = re.search(r"\bfn ([a-z_]+)", line)
        if name:
            function = name.group(1)
        clause = re.match(r"\s*(?:requires|ensures)\s*[a-z_]*\s*\{(.*)\}\s*$", line)
        if clause:
            fact = re.sub(r"\.(old|new|now|entry)\b", "", clause.group(1).strip())
            where[fact].add(path.split("/")[1] + ":" + str(function))
for fact, functions in sorted(where.items(), key=lambda item: (-len(item[1]), item[0])):
    if len(functions) >= 3:
        print(len(functions), fact, *sorted(functions))
