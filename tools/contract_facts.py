#!/usr/bin/env python3
"""The facts that stand in the contracts of three or more functions, and the pairs of parameters that six or more take.

usage: python3 tools/contract_facts.py      at the top
"""
import collections
import re
import subprocess

FUNCTION = re.compile(r"(?m)^\s*(?=(?:pub )?(?:const )?fn \w+)")
HEAD = re.compile(r"(?:pub )?(?:const )?fn (\w+)\s*(?:<[^>]*>)?\(([^)]*)\)")
REQUIRES = re.compile(r"requires(?: \w+)? \{(.*?)\}\n", re.S)


def conjuncts(clause):
    """The facts of a clause: what stands between its outer `×`."""
    depth, fact, facts = 0, "", []
    for letter in re.sub(r"\s+", " ", clause):
        depth += (letter in "([{") - (letter in ")]}")
        if letter == "×" and depth == 0:
            facts.append(fact)
            fact = ""
        else:
            fact += letter
    return [one(f.strip()) for f in facts + [fact]]


def one(fact):
    while fact.startswith("(") and fact.endswith(")") and fact.count(")") == 1:
        fact = fact[1:-1].strip()
    return fact


def main():
    facts, pairs = collections.defaultdict(set), collections.defaultdict(set)
    files = subprocess.check_output(["git", "ls-files", ":(glob)crates/*/src/**"], text=True).split()
    for path in files:
        for text in FUNCTION.split(open(path).read()):
            head = HEAD.match(text)
            if not head:
                continue
            name = path.split("/")[1] + "::" + head.group(1)
            taken = [p.split(":")[0].replace("mut ", "").replace("&", "").strip() for p in head.group(2).split(",") if p.strip()]
            for i, first in enumerate(taken):
                for second in taken[i + 1:]:
                    pairs[first + ", " + second].add(name)
            for clause in REQUIRES.findall(text):
                for fact in conjuncts(clause):
                    facts[fact].add(name)
    often = {f: names for f, names in facts.items() if len(names) >= 3}
    for fact, names in sorted(often.items(), key=lambda x: -len(x[1])):
        print(len(names), fact)
    print(len(often), "facts, in", len(set().union(*often.values())), "functions")
    for pair, names in sorted(pairs.items(), key=lambda x: -len(x[1])):
        if len(names) >= 6:
            print(len(names), "functions take", pair)


if __name__ == "__main__":
    main()
