#!/usr/bin/env python3
"""Every quotation is verbatim. A quotation is a text in double quotation marks in a comment of crates/*/specs and crates/*/src, or in the
first column of a table of docs/. `..` and `[..]` stand for what is left out; the pieces between stand in
document 01 or 02 (or in a file of the Rust), one behind the other. What marks words up (* ` \\) and line ends are passed over.
usage: quotations.py PAPERS     PAPERS: the folder with the documents (01-*.md, 02-*.md) and the Rust (src/**/*.rs)"""
import glob
import re
import sys


def plain(text):
    return re.sub(r'\s+', ' ', re.sub(r'[*`\\]', '', text)).strip()


def comments(path, mark):
    """The comment blocks of a file: (line, text)."""
    block, first = [], 0
    for number, line in enumerate(open(path, encoding='utf8'), 1):
        found = re.match(r'\s*' + mark + r' ?(.*)', line)
        if found:
            first = first if block else number
            block.append(found.group(1))
        elif block:
            yield first, '\n'.join(block)
            block = []
    if block:
        yield first, '\n'.join(block)


def first_cells(path):
    """The first cells of the rows of a document's tables: (line, text)."""
    for number, line in enumerate(open(path, encoding='utf8'), 1):
        if line.startswith('|'):
            yield number, line.split('|')[1]


def quoted(first, text):
    """The quotations in a text: (line, quotation). A quotation may go over line ends."""
    marks = [m.start() for m in re.finditer('"', text)]
    for a, b in zip(marks[::2], marks[1::2]):
        yield first + text.count('\n', 0, a), text[a + 1 : b]
    if len(marks) % 2:
        yield first, None


def stands(quotation, paper):
    at = 0
    for piece in re.split(r'\[\.\.\]|\.\.', plain(quotation)):
        piece = piece.strip()
        at = paper.find(piece, at)
        if at < 0:
            return False
        at += len(piece)
    return True


def main():
    papers = sys.argv[1]
    files = sorted(glob.glob(papers + '/0[12]-*.md')) + sorted(glob.glob(papers + '/src/**/*.rs', recursive=True))
    texts = [plain(open(f, encoding='utf8').read()) for f in files]
    sources = [(f, comments(f, '--')) for f in sorted(glob.glob('crates/*/specs/**/*.antt', recursive=True))]
    sources += [(f, comments(f, '//')) for f in sorted(glob.glob('crates/*/src/**/*.rt', recursive=True))]
    sources += [(f, first_cells(f)) for f in sorted(glob.glob('docs/*.md'))]
    count = bad = 0
    for path, parts in sources:
        for first, text in parts:
            for line, quotation in quoted(first, text):
                count += 1
                if quotation is None:
                    print(f'quotations: {path}:{line}: a quotation mark without its pair')
                    bad += 1
                elif not any(stands(quotation, paper) for paper in texts):
                    print(f'quotations: {path}:{line}: not in the papers: "{plain(quotation)}"')
                    bad += 1
    if count == 0:
        print('quotations: none found')
    if bad or count == 0:
        sys.exit(1)
    print(f'quotations: {count}, each verbatim')


main()
