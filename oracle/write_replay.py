#!/usr/bin/env python3
"""Writes the list of calls and questions that the program `replay` runs, and what it must print: crates/replay/stdin and crates/replay/stdout.

    ACCESSKIT_CONSUMER_SRC=.. python3 oracle/write_replay.py --seed 5 --calls 2200 --screens 40 --screens-seed 775

The program `calls` makes the calls and questions and answers them with the crate's real source (README.md). It runs three times: for histories
near 256 nodes, which have the calls of number 20, for the other calls, and for questions about made screens; it prints how many questions are left
out, and why. Everything that it prints is taken, in its order. Of each answer the list has every part, the state as a digest;
crates/replay_frame/src/lib.rt says how a call or a question is laid out. The expected output is counted from the crate's answers; the program is not
run. The same seeds give the same files. The script stops if a number from 0 to 21 has fewer than 20 calls, if there are fewer than 3,000 questions
or if one, with its side and filter, is asked fewer than 20 times.
"""
import argparse, collections, json, os, struct, subprocess, sys

HERE = os.path.dirname(os.path.abspath(__file__))
REPOSITORY = os.path.dirname(HERE)
SOURCE = 'ACCESSKIT_CONSUMER_SRC'


# ## Records and states

# The library's memory of a state: state_array/specs/Layout.
WORDS, TREES, SLOTS = 9640, 32, 320
TABLE, NODES, CHILDREN = 8, 168, 9128


def encode(b):
    if 'bytes' in b:
        return bytes(b['bytes'])
    bodies = [x['data'] for x in b['nodes']]
    entries, labels = sum(len(d['children']) for d in bodies), sum(len(d['label']) for d in bodies)
    at = 64 + 128 * len(bodies)
    out = struct.pack('<HHHHIIII', len(bodies), entries, labels, int(b['root'] is not None), 64, at, at + 8 * entries, at + 8 * entries + labels)
    out += struct.pack('<QQQQQ', *b['tree'], b['root'] or 0, b['focus'], 0)
    first = start = 0
    for x, d in zip(b['nodes'], bodies):
        out += struct.pack('<QQQQHHHHBB6x', x['id'], d['active'], *d['graft'], first, len(d['children']), start, len(d['label']), d['role'], d['flags'])
        out += struct.pack('<10Q', *d['bounds'], *d['transform'])
        first, start = first + len(d['children']), start + len(d['label'])
    return out + b''.join(struct.pack('<Q', c) for d in bodies for c in d['children']) + b''.join(bytes(d['label']) for d in bodies)


def in_memory(s):
    t, first = [0] * WORDS, 0
    for i, x in enumerate(s['nodes']):
        d, ((tree, parent), place) = x['data'], x['link'] or ((0, 0), 0)
        label = [int.from_bytes(bytes(d['label'][8 * k:8 * k + 8]), 'little') for k in range(4)]
        row = [*x['id'], tree, parent, place, int(x['link'] is not None), *d['graft'], d['flags'], first, len(d['children']), d['active'], d['role'], len(d['label'])]
        for f, word in enumerate(row + label + d['bounds'] + d['transform']):
            t[NODES + SLOTS * f + i] = word
        t[CHILDREN + first:CHILDREN + first + len(d['children'])] = d['children']
        first += len(d['children'])
    for k, x in enumerate(s['trees']):
        for j, word in enumerate([*x['id'], *(x['at'] or [0, 0]), int(x['at'] is not None)]):
            t[TABLE + TREES * j + k] = word
    t[:3] = [len(s['nodes']), len(s['trees']), int(s['host'])]
    return t


OVERFLOWS = 24
KINDS = {'start': 0, 'update': 1, 'host': 2}
LISTS = ('added', 'updated', 'removed', 'relinked')
WORD = 1 << 64


# ## The digest of a state: crates/replay_frame/src/digest.rt

def digest(t):
    d = 0xcbf29ce484222325
    for word in t:
        d = (d ^ word) * 0x100000001b3 % WORD
        d ^= d >> 32
    return d


# ## The frame of a call: crates/replay_frame/src/lib.rt

def node(x):
    return struct.pack('<HIQ', 0, 0, 0) if x is None else struct.pack('<HIQ', 1, *x)


def elements(j):
    """The elements that the lists fill; the others must be as they were lent."""
    filled = [n for k in LISTS for x in j[k] for n in x]
    lent = [900000 + i for i in range(len(j['slice']))]
    assert j['call'].get('slice', []) == lent and j['slice'] == filled + lent[len(filled):]
    return filled


def frame(j, left):
    """The bytes of a call, `left` being the state that the call before left."""
    call, filled = j['call'], elements(j)
    state = b'' if j['before'] in (None, left) else struct.pack(f'<{WORDS}Q', *in_memory(j['before']))
    after = digest(in_memory(j['after'])) if j['number'] == 0 else 0
    record = b'' if call['kind'] == 'host' else encode(call['batch'])
    head = struct.pack('<6H', KINDS[call['kind']], int(call.get('host', False)), int(state != b''), j['number'], len(record), len(j['slice']))
    head += struct.pack('<4HQ', *(len(j[k]) for k in LISTS), after)
    head += b''.join(node(j[k]) for k in ('focus_before', 'focus_after', 'extra_before', 'extra_after'))
    return head + state + record + struct.pack(f'<{len(filled)}Q', *filled)


# ## The frame of a question; its number: crates/replay_questions/src/lib.rt

QUESTION = 3
QUESTIONS = ('parent', 'filtered parent', 'first filtered child', 'last filtered child', 'deepest first filtered child',
             'deepest last filtered child', 'children', 'siblings', 'filtered children', 'filtered siblings', 'walk', 'hidden',
             'transform', 'box', 'filter')
SIDES = ('', ', following', ', preceding')
FILTERS = ('', ', common filter', ', with root exception', ', without parent checks')
# How many there are with each side and filter: 5 with neither, siblings and walks without a filter on 2 sides, 7 under 3 filters, siblings and
# walks under these on 2 sides.
ASKED = 5 + 4 + 21 + 12


def name(which):
    return QUESTIONS[which // 12] + SIDES[which % 3] + FILTERS[which // 3 % 4]


def question(k, j):
    """The bytes of question k, and its number."""
    kind, words = QUESTIONS.index(j['kind']), j['words']
    which = 12 * kind + 3 * j['filter'] + j['side']
    # a walk goes two steps past its end; another question is lent as many elements as it needs, or a few more
    room = len(words) + (4 if j['kind'] == 'walk' else (0, 1, 6)[k % 3])
    state = b'' if j['state'] is None else struct.pack(f'<{WORDS}Q', *in_memory(j['state']))
    head = struct.pack('<6H', QUESTION, which, int(state != b''), 0, 0, room) + struct.pack('<4HQ', len(words) // 2, 0, 0, 0, j['value'])
    return head + node(j['id']) + 3 * node(None) + state + struct.pack(f'<{len(words)}Q', *words), which


# ## Zeros counted

def coded(frame):
    out, zeros = bytearray(), 0
    for byte in frame + b'\1':
        while byte and zeros:
            n = min(zeros // 128 + 127, 255) if zeros >= 128 else zeros
            out += bytes([0, n])
            zeros -= n if n < 128 else 128 * (n - 127)
        if byte:
            out.append(byte)
        else:
            zeros += 1
    return bytes(out[:-1])


# ## The list

def made(*options):
    driver = os.path.join(os.environ.get('CARGO_TARGET_DIR', os.path.join(HERE, 'target')), 'release', 'calls')
    said = subprocess.run([driver, *map(str, options)], capture_output=True, text=True, check=True)
    return [json.loads(line) for line in said.stdout.splitlines()], said.stderr


def calls(count, seed):
    """The frames of the calls, and how many have each number."""
    crowded = made('--crowded', OVERFLOWS, '--seed', seed)[0]
    frames, left, counts = [], None, collections.Counter()
    for j in made('--calls', count - len(crowded), '--seed', seed)[0] + crowded:
        frames.append(frame(j, left))
        left = j['after']
        counts[j['number']] += 1
    few = [n for n in range(22) if counts[n] < 20]
    if few or len(frames) != count:
        sys.exit(f'{len(frames)} calls, fewer than 20 of the numbers {few}')
    return frames, counts


def questions(screens, seed):
    """The frames of the questions, and how many there are by their numbers."""
    lines, left_out = made('--screens', screens, '--seed', seed)
    frames, counts = [], collections.Counter()
    for k, j in enumerate(lines):
        bytes_, which = question(k, j)
        frames.append(bytes_)
        counts[which] += 1
    few = [name(n) for n in counts if counts[n] < 20]
    if few or len(counts) != ASKED or len(frames) < 3000:
        sys.exit(f'{len(frames)} questions, {len(counts)} with each side and filter, fewer than 20 of {few}')
    print(left_out, end='')
    return frames, counts


def spoiled(frames):
    """The questions with one answer of each number changed: its last word, or its value where there are no words."""
    out, seen = [], set()
    for f in frames:
        which, pairs = struct.unpack_from('<H', f, 2)[0], struct.unpack_from('<H', f, 12)[0]
        if which not in seen and (pairs or QUESTIONS[which // 12] in ('hidden', 'filter')):
            seen.add(which)
            at = len(f) - 8 if pairs else 20
            f = f[:at] + bytes([f[at] ^ 1]) + f[at + 1:]
        out.append(f)
    return out


def packed(frames):
    bodies = [coded(f) for f in frames]
    return struct.pack('<I', len(bodies)) + b''.join(struct.pack('<H', len(b)) + b for b in bodies)


def main():
    options = argparse.ArgumentParser()
    options.add_argument('--calls', type=int, default=2200)
    options.add_argument('--screens', type=int, default=40)
    options.add_argument('--seed', type=int, default=5, help='of the calls')
    options.add_argument('--screens-seed', type=int, default=775)
    options.add_argument('--spoil', metavar='FILE', help='write only this file: the list with one answer of each question changed, which the program must notice')
    o = options.parse_args()
    if not os.environ.get(SOURCE):
        sys.exit(f"{SOURCE} is not set: it must name the folder with accesskit_consumer 0.39.2's src/*.rs")
    subprocess.run(['cargo', 'build', '--release', '--offline', '--quiet', '-p', 'calls'], cwd=HERE, check=True)
    called, numbers = calls(o.calls, o.seed)
    asked, kinds = questions(o.screens, o.screens_seed)
    if o.spoil:
        open(o.spoil, 'wb').write(packed(called + spoiled(asked)))
        return
    said = ''.join(f'number {n}: {numbers[n]}\n' for n in sorted(numbers)) + ''.join(f'{name(n)}: {kinds[n]}\n' for n in sorted(kinds))
    said += f'{len(called)} calls, {len(asked)} questions, 0 differ\n'
    open(f'{REPOSITORY}/crates/replay/stdin', 'wb').write(packed(called + asked))
    open(f'{REPOSITORY}/crates/replay/stdout', 'w', encoding='ascii').write(said)
    print(said, end='')


if __name__ == '__main__':
    main()
