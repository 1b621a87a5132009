#!/usr/bin/env python3
"""Beside the gate: what would notice a wrong definition? A proof says that code equals its definition, so a definition that is wrong, and code
that is wrong with it, is noticed only by results from outside. For each row of noticed.txt a wrong version of the code (an edit of
crates/*/must-fail or tests/wrong) is built without proof and run by the program of the row, which must print something else than it should.
`streams` is slotrun on each stream of tests/oracle, with the Rust's answers, or those of tests/oracle/w201.
usage: noticed.py [NAME..]     the rows whose edit has one of these names (all)
"""
import glob
import os
import re
import shutil
import subprocess
import sys
import tempfile

root = os.path.dirname(os.path.dirname(os.path.dirname(os.path.abspath(__file__))))


def write(path, octets):
    with open(path, 'wb') as f:
        f.write(octets)


def streams(folder):
    """A case for `rt try` of each stream: its octets, and what must be printed."""
    for name in sorted(glob.glob(root + '/tests/oracle/*.hex') + glob.glob(root + '/tests/oracle/differences/*.hex')):
        case = os.path.basename(name)[:-4]
        by_w201 = f'{root}/tests/oracle/w201/{case}.out'
        out = by_w201 if os.path.exists(by_w201) else name[:-4] + '.out'
        write(f'{folder}/{case}', bytes.fromhex(''.join(re.sub('#.*', '', line) for line in open(name))))
        shutil.copy(out, f'{folder}/{case}.stdout')


def cases(program, work):
    """The folder of the cases of a row's program."""
    folder = f'{work}/cases/{program}'
    if not os.path.exists(folder):
        os.makedirs(folder)
        if program == 'streams':
            streams(folder)
        else:
            given = f'{root}/crates/{program}/stdin'
            write(f'{folder}/it', open(given, 'rb').read() if os.path.exists(given) else b'')
            shutil.copy(f'{root}/crates/{program}/stdout', f'{folder}/it.stdout')
    return folder


def edited(edit, crate, work):
    """Applies an edit to the copy, and answers what undoes it."""
    name = old = None
    before = {}
    for line in open(edit).read().splitlines():
        key, _, value = line.partition(': ')
        if key == 'file':
            name = f'{work}/crates/{crate}/{value}'
            before.setdefault(name, open(name).read())
        elif key == 'old':
            old = value
        elif key == 'new':
            text = open(name).read()
            assert text.count(old) == 1, (edit, old)
            open(name, 'w').write(text.replace(old, value))
    return before


def notices(program, work):
    """Whether the program prints something else than it should. A version that does not compile is no answer."""
    where = f"{work}/crates/{'slotrun' if program == 'streams' else program}"
    ran = subprocess.run(['rt', 'try', '--cases', cases(program, work)], cwd=where, capture_output=True, text=True)
    said = ran.stdout + ran.stderr
    if not re.search('^cases=', said, re.M):
        sys.exit(f'noticed: {program} was not built: {said[-300:]}')
    return ran.returncode != 0


def main():
    work = tempfile.mkdtemp()
    try:
        shutil.copytree(root + '/crates', work + '/crates', ignore=shutil.ignore_patterns('out'))
        shutil.copy(root + '/crates.txt', work)
        rows = [line.split() for line in open(root + '/tests/beside/noticed.txt') if line.strip() and not line.startswith('#')]
        bad = count = 0
        for program in sorted({row[1] for row in rows}):
            if notices(program, work):
                sys.exit(f'noticed: {program} does not print what it should')
        for where, program in (row[:2] for row in rows):
            crate, name = where.split('/')
            if len(sys.argv) > 1 and name not in sys.argv[1:]:
                continue
            found = [p for p in (f'{root}/crates/{crate}/must-fail/{name}.edit', f'{root}/tests/wrong/{where}.edit') if os.path.exists(p)]
            if len(found) != 1:
                sys.exit(f'noticed: no edit {where}')
            before = edited(found[0], crate, work)
            count += 1
            if not notices(program, work):
                print(f'noticed: {where}: {program} prints the same')
                bad += 1
            for path, text in before.items():
                open(path, 'w').write(text)
        if bad:
            sys.exit(1)
        print(f'noticed: {count} wrong versions, each noticed by the program of its row')
    finally:
        shutil.rmtree(work)


main()
