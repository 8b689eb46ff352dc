#!/usr/bin/env python3
"""Counts marks of stiff English, by page or with --comments by crate. CONTRIBUTING.md has the rules.

    tools/voice.py [--comments] [--show] [FILE..]

A mark is a phrase that mostly has to be read twice: `behind` for after, `where` for if, data that tell or stand, a headless
`who`. A row has the words, the marks for each 1,000 words, the sentences of more than 35 words, and the table cells of more
than 40. --show prints each marked line. With FILE only those are read, else all pages, or all crates. Code does not count.
The count finds places to look at. A page is good if it reads well aloud.
"""
import glob
import os
import re
import sys

MARKS = [re.compile(pattern) for pattern in (
    r'\bbehind\b',
    r'\b(?:stands?|stood|standing)\b',
    r'\b(?:tells?|told|telling|speaks? of|spoken of)\b',
    r'\b(?:by|of|in|from|for|to|with|at|on|behind|under|over|through|after|before) which\b',
    r'(?:^|[.;:,(] +|\b(?:and|so|but|that|for|to|of|by|if) )[Ww]ho (?!is\b.*\?)\w+|\b(?:to|by|of|for|beside|from|with) who\b',
    r'\bwhat (?:is|was|are|were|it|they|he|has|had|a|an|the|that|each|no|lies|comes|stands|follows)\b',
    r'\b[Ww]here (?:it|one|that|there|no|none|a|an|the|they|memory|its|all|nobody|what|this|these|such)\b',
    r'\b(?:anew|beside|so many|as many|so much|thereby|by itself|of its own|by themselves|for the sake of|but for|whose'
    r'|in the place of|in place of|is of no account|of no use)\b',
    r'\b(?:[Nn]othing|[Nn]obody|[Nn]one|[Nn]o) (?:\w+ )?(?:is|are|was|were|has|have|that|which|who|of|goes|reads|knows|says'
    r'|speaks|stands|can|may|needs)\b',
    r'\bthere is (?:no|none)\b|\bnot there\b|\bis there\b',
)]
LONG_SENTENCE = 35
LONG_CELL = 40


def words_of(text):
    return re.findall(r"[A-Za-z']+", text)


def plain_lines(text):
    """The lines of a page without blocks, code and the targets of links, each with its number."""
    inside = False
    for number, line in enumerate(text.split('\n'), 1):
        if re.match(r' *```', line):
            inside = not inside
        elif not inside and not line.startswith('    '):
            yield number, re.sub(r'\]\([^)]*\)', ']', re.sub(r'`[^`]*`', 'X', line))


def marks_of(line):
    return [found.group().strip() for pattern in MARKS for found in pattern.finditer(line)]


class Count:
    """The counts of a text."""

    def __init__(self, text):
        lines = [line for _, line in plain_lines(text)]
        whole = re.sub(r'\s+', ' ', ' '.join(lines))
        rows = [line.strip() for line in lines if line.strip().startswith('|')]
        # A heading, a row and an item of a list end a sentence.
        prose = '\n'.join('. ' if re.match(r' *\||#|$', it) else re.sub(r'^ *(?:[-*]|\d+\.) ', '. ', it) for it in lines)
        self.words = len(words_of(whole))
        self.marks = len(marks_of(whole))
        self.long_sentences = [it for it in re.split(r'(?<=[.!?:;])(?:\*\*)?\s', re.sub(r'\s+', ' ', prose))
                               if len(words_of(it)) > LONG_SENTENCE]
        self.long_cells = [it for row in rows for it in row.strip('| ').split(' | ') if len(words_of(it)) > LONG_CELL]

    def rate(self):
        """The marks for each 1,000 words."""
        return 1000 * self.marks / self.words if self.words else 0


def comments_of(crate):
    """The comments of a crate's code, definitions and proofs, as one text."""
    lines = []
    for pattern in ('src/**/*.rt', 'specs/**/*.antt', 'proofs/**/*.antt'):
        for path in sorted(glob.glob('crates/%s/%s' % (crate, pattern), recursive=True)):
            sign = '//' if path.endswith('.rt') else '--'
            with open(path, encoding='utf-8') as file:
                # A line of code ends a comment, and so a sentence.
                lines += [it.strip().lstrip('/-! ') if it.strip().startswith(sign) else '' for it in file]
            lines.append('')
    return '\n'.join(lines)


def pages():
    return [*sorted(glob.glob('*.md')), *sorted(glob.glob('docs/*.md')), 'examples/README.md']


def read(path):
    with open(path, encoding='utf-8') as file:
        return file.read()


def texts(names, is_comments):
    """Each name with its text."""
    if is_comments:
        crates = names or sorted(it for it in os.listdir('crates') if os.path.isdir('crates/' + it))
        return [(it, comments_of(it)) for it in crates]
    return [(it, read(it)) for it in names or pages()]


def main(words):
    if {'-h', '--help'} & set(words):
        print(__doc__.strip())
        return 0
    options = {it for it in words if it.startswith('--')}
    if options - {'--comments', '--show'}:
        print('voice.py: %s is no option; see --help' % sorted(options - {'--comments', '--show'})[0], file=sys.stderr)
        return 2
    try:
        found = texts([it for it in words if it not in options], '--comments' in options)
    except OSError as error:
        print('voice.py: %s: %s' % (error.filename, error.strerror), file=sys.stderr)
        return 2
    rows = [(name, Count(text)) for name, text in found]
    for name, count in sorted(rows, key=lambda it: -it[1].rate()):
        print('%-26s %6d words %5.1f marks per 1,000 %4d long sentences %3d long cells'
              % (name, count.words, count.rate(), len(count.long_sentences), len(count.long_cells)))
    for name, text in found if '--show' in options else []:
        for number, line in plain_lines(text):
            if marks_of(line):
                print('%s:%d: %s: %s' % (name, number, ', '.join(marks_of(line)), line.strip()[:100]))
    all_words = sum(it.words for _, it in rows)
    print('%-26s %6d words %5.1f marks per 1,000' % ('all', all_words, 1000 * sum(it.marks for _, it in rows) / max(1, all_words)))
    return 0


if __name__ == '__main__':
    try:
        ended = main(sys.argv[1:])
        sys.stdout.flush()
        sys.exit(ended)
    except BrokenPipeError:
        # The reader has seen enough.
        os.dup2(os.open(os.devnull, os.O_WRONLY), sys.stdout.fileno())
