#!/usr/bin/env python3
"""write_schedules.py: for each example of tests/examples.txt writes schedules/NAME, as text schedules/NAME.typed, and what has to be printed
for it, schedules/NAME.txt."""
import itertools
import os
import struct
import sys

HERE = os.path.dirname(os.path.abspath(__file__))
SCHEDULES = os.path.join(os.path.dirname(HERE), 'schedules')
MOST_BYTES = 65536
FAULTS = (21, 22, 23)

# Each step's tag, and how many numbers its body has.
STEPS = {
    'open': (1, 5), 'start': (2, 1), 'look': (3, 2), 'settle': (4, 1), 'make': (5, 1),
    'swap': (6, 4), 'retire': (7, 2), 'sweep': (8, 1), 'end': (9, 1), 'tally': (10, 1),
}


def field(words):
    """The bytes of a step by its name and numbers, or of a line of bytes."""
    if words[0] == 'bytes':
        return bytes(int(word, 16) for word in words[1:])
    tag, count = STEPS[words[0]]
    if len(words) != 1 + count:
        raise ValueError('%s has %d numbers' % (words[0], count))
    return struct.pack('>BH%dI' % count, tag, 4 * count, *map(int, words[1:]))


def repeated(words):
    """The words of each field, with its answer, that a line stands for."""
    if words[1:2] == ['times']:
        return [words[2:]] * int(words[0])
    if words[0] == 'from':
        return [[str(n) if word == 'N' else word for word in words[4:]] for n in range(int(words[1]), int(words[3]) + 1)]
    return [words]


def parse(words):
    """The words of a field, and the kind and value that have to be answered, or None."""
    if '->' not in words:
        return words, None
    cut = words.index('->')
    kind, value = map(int, words[cut + 1:])
    return words[:cut], (kind, value)


def read_examples():
    """NAME: the list of (words of a field, its answer)."""
    examples, name = {}, None
    for line in open(os.path.join(HERE, 'examples.txt')):
        line = line.split('#')[0].rstrip()
        if line.endswith(':') and not line.startswith(' '):
            name = line[:-1]
            if name in examples:
                raise ValueError('two examples are called ' + name)
            examples[name] = []
        elif line:
            examples[name] += map(parse, repeated(line.split()))
    return examples


def schedule(fields):
    return b''.join(field(words) for words, _ in fields)


def steps_before(fields):
    """The fields before the first bytes that are no step's."""
    return list(itertools.takewhile(lambda field: field[0][0] != 'bytes', fields))


def typed(name, fields):
    """The text of the steps. Bytes that are no step's can't be typed, nor is what follows them read."""
    steps = steps_before(fields)
    out = ['# %s: bin/write < %s.typed' % (name, name)] + [' '.join(words) for words, _ in steps]
    if len(steps) < len(fields):
        out.append('# The schedule goes on with bytes that are no step: ' + ' '.join(fields[len(steps)][0][1:]))
    return out


def printed(name, fields):
    """What `steps` has to print."""
    out = ['step tag kind value']
    if len(schedule(fields)) > MOST_BYTES:
        return out + ['0 0 24 0']
    for step, (words, answer) in enumerate(fields, 1):
        if answer is None:
            raise ValueError('%s: step %d has no answer' % (name, step))
        out.append('%d %d %d %d' % (step, field(words)[0], *answer))
        if answer[0] in FAULTS:
            break
    return out


def written():
    """Each file under schedules/ with its content."""
    files = {}
    for name, fields in read_examples().items():
        files[name] = schedule(fields)
        for suffix, lines in ('.typed', typed(name, fields)), ('.txt', printed(name, fields)):
            files[name + suffix] = ''.join(line + '\n' for line in lines).encode()
    return files


def main():
    for name, content in written().items():
        path = os.path.join(SCHEDULES, name)
        os.makedirs(os.path.dirname(path), exist_ok=True)
        with open(path, 'wb') as out:
            out.write(content)


if __name__ == '__main__':
    sys.exit(main())
