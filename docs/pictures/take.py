#!/usr/bin/env python3
"""Takes one drawing out of a page of `garage_lab chart`, with the page's style, as a picture of its own.

usage: docs/pictures/take.py NUMBER < PAGE > PICTURE.svg      the NUMBER-th drawing of the page, from 1

docs/pictures/cut.svg is the third one of
    (cat examples/three_zones.toml; ./garage_lab layout < examples/three_zones.toml) | ./garage_lab chart layout
and docs/pictures/run.svg the one of
    ./garage_lab chart < examples/first_put_and_get.transcript
"""
import re
import sys


def picture(page, number):
    """The drawing with this number, with the rules of the page's style that have a word of it."""
    drawings = re.findall(r'<svg\b.*?</svg>', page, re.S)
    if not 1 <= number <= len(drawings):
        sys.exit(f'the page has {len(drawings)} drawings')
    drawing = drawings[number - 1]
    style = re.search(r'<style>(.*?)</style>', page, re.S)[1]
    rules = [rule for rule in style.strip().split('\n') if concerns(rule, drawing)]
    begin = re.sub(r'^<svg\b', '<svg xmlns="http://www.w3.org/2000/svg"', drawing.partition('>')[0])
    rest = drawing.partition('>')[2].lstrip('\n')
    return f'{begin}><style>\n' + '\n'.join(rules) + f'\n</style>\n<rect width="100%" height="100%" fill="#fff"/>\n{rest}\n'


def concerns(rule, drawing):
    """A rule for something that the drawing has: by its last element and all its classes."""
    for selector in rule.partition('{')[0].split(','):
        last = selector.split(':')[0].split()[-1] if selector.split(':')[0].split() else ''
        element = re.match(r'\w*', last)[0]
        names = re.findall(r'\.([\w-]+)', last)
        if (not element or f'<{element}' in drawing) and all(re.search(r'class="[^"]*\b%s\b' % name, drawing) for name in names):
            return True
    return False


if __name__ == '__main__':
    if len(sys.argv) != 2 or not sys.argv[1].isdigit():
        sys.exit(__doc__)
    sys.stdout.write(picture(sys.stdin.read(), int(sys.argv[1])))
