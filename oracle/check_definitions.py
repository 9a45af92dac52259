#!/usr/bin/env python3
"""Checks the definitions against the crate's real source.

The driver `calls` makes calls and their whole answers. Each becomes an equation in antt, `update STATE (encode BATCH) SLICE ≡ ANSWER`,
proved by computation, in a crate of its own in a copy of the repository. Exit status 0: all were compared and are equal.
"""
import argparse, collections, json, os, re, resource, shutil, subprocess, sys, tempfile, time
from crates import needed

HERE = os.path.dirname(os.path.abspath(__file__))
REPOSITORY = os.path.dirname(HERE)
CRATE = 'oraclecalls'
SOURCE = 'ACCESSKIT_CONSUMER_SRC'


# ## Calls

def made_calls(count, seed):
    """The driver's lines of JSON and its summary."""
    if not os.environ.get(SOURCE):
        sys.exit(f"{SOURCE} is not set: it must name the folder with accesskit_consumer 0.39.2's src/*.rs")
    subprocess.run(['cargo', 'build', '--release', '--offline', '--quiet'], cwd=HERE, check=True)
    target = os.environ.get('CARGO_TARGET_DIR', os.path.join(HERE, 'target'))
    run = subprocess.run([os.path.join(target, 'release', 'calls'), '--calls', str(count), '--seed', str(seed)],
                         capture_output=True, text=True)
    if run.returncode != 0:
        sys.exit('the driver failed:\n' + run.stderr)
    return run.stdout.splitlines(), run.stderr


# ## antt text

def some(x, f):
    return 'None' if x is None else f'(Some {f(x)})'


def items(xs, f=str):
    return '(' + ' ∷ '.join([f(x) for x in xs] + ['[]']) + ')' if xs else '[]'


def number(n):
    return f'(n {n})'


def full_id(x):
    return f'(i {x[0]} {x[1]})'


def bits(b):
    return f'(bits {b})' if b else 'zero64'


def data(d):
    bounds = '(r ' + ' '.join(map(bits, d['bounds'])) + ')' if any(d['bounds']) else 'no_bounds'
    transform = '(a ' + ' '.join(map(bits, d['transform'])) + ')' if any(d['transform']) else 'no_transform'
    return (f"(d {d['active']} {d['graft'][0]} {d['graft'][1]} {items(d['children'], number)} {items(d['label'])}"
            f" {d['role']} {d['flags']} {bounds} {transform})")


def state(s):
    node = lambda x: f"node {full_id(x['id'])} {some(x['link'], lambda l: f'(link {full_id(l[0])} {l[1]})')} {data(x['data'])}"
    tree = lambda x: f"tree {x['id'][0]} {x['id'][1]} {some(x['at'], lambda p: f'(at {p[0]} {p[1]})')}"
    return f"state {items(s['nodes'], node)} {items(s['trees'], tree)} {str(s['host']).lower()}"


def record(b):
    if 'bytes' in b:
        return items(b['bytes'])
    listed = lambda x: f"listed {x['id']} {data(x['data'])}"
    return f"(encode (batch {b['tree'][0]} {b['tree'][1]} {some(b['root'], number)} {b['focus']} {items(b['nodes'], listed)}))"


def equation(k, j):
    """The constants of call k, and its two sides."""
    call = j['call']
    constants = []
    def constant(word, s):
        constants.append(f'abbrev {word}_{k} : State\n{word}_{k} = {state(s)}\n')
        return f'{word}_{k}'
    before = 'blank' if j['before'] is None else constant('before', j['before'])
    if call['kind'] == 'start':
        got = f"start {record(call['batch'])} {str(call['host']).lower()}"
    elif call['kind'] == 'update':
        got = f"update {before} {record(call['batch'])} {items(call['slice'])}"
    else:
        got = f"host_focus {before} {str(call['host']).lower()}"
    if j['number']:
        handed_back = j['before'] or {'nodes': [], 'trees': [], 'host': False}
        assert j['after'] == handed_back
        return constants, got, f"refusal {j['number']} {before} {items(j['slice'])}"
    after = constant('after', j['after'])
    lists = [items(j[w], full_id) for w in ('added', 'updated', 'removed', 'relinked')]
    lengths = [str(len(j[w])) for w in ('added', 'updated', 'removed', 'relinked')]
    ends = [some(j[w], full_id) for w in ('focus_before', 'focus_after', 'extra_before', 'extra_after')]
    return constants, got, f"answer 0 {after} (changes {' '.join(lists)}) (lengths {' '.join(lengths)}) {' '.join(ends)} {items(j['slice'])}"


# Short names for the text of a call. `refusal` says every part of a refused answer by itself, without the definitions' own word for it.
WORDS = '''-- Short names for the text of the calls.
use Rattle.std.specs.Prelude.{Bool, false, List, [], ◌∷◌, ℕ, Float}
use Rattle.std.specs.Prelude.{Option, None}
use Rattle.std.specs.Float.{binary64}
use Rattle.std.specs.Float.Ieee.{of_bits}
use Rattle.ids.specs.declared.TreeId.{TreeId}
use Rattle.ids.specs.declared.NodeId.{NodeId}
use Rattle.ids.specs.declared.FullNodeId.{FullNodeId}
use Rattle.geometry.specs.declared.Rect.{Rect}
use Rattle.geometry.specs.declared.Affine.{Affine}
use Rattle.record.specs.Batch.{NodeData, Listed, Batch}
use Rattle.state.specs.State.{ParentAndIndex, NodeState, Subtree, TreeEntry, Forest, State}
use Rattle.update.specs.Reports.{Changes, Lengths}
use Rattle.update.specs.Calls.{Answer}

abbrev pub n : ℕ → NodeId
n x = record { 0 = x }

abbrev pub i : ℕ → ℕ → FullNodeId
i t x = record { tree = record { 0 = t }; node = record { 0 = x } }

abbrev pub bits : ℕ → Float
bits b = of_bits binary64 b

abbrev pub zero64 : Float
zero64 = of_bits binary64 0

abbrev pub r : Float → Float → Float → Float → Rect
r x y z w = record { x0 = x; y0 = y; x1 = z; y1 = w }

abbrev pub a : Float → Float → Float → Float → Float → Float → Affine
a x y z u v w = record { a = x; b = y; c = z; d = u; e = v; f = w }

abbrev pub no_bounds : Rect
no_bounds = r zero64 zero64 zero64 zero64

abbrev pub no_transform : Affine
no_transform = a zero64 zero64 zero64 zero64 zero64 zero64

abbrev pub d : ℕ → ℕ → ℕ → List NodeId → List ℕ → ℕ → ℕ → Rect → Affine → NodeData
d active high low children label role flags bounds transform = record {
  active_descendant = n active;
  graft = record { high = high; low = low };
  children = children;
  label = label;
  role = role;
  flags = flags;
  bounds = bounds;
  transform = transform;
}

abbrev pub link : FullNodeId → ℕ → ParentAndIndex
link p k = record { parent = p; index = k }

abbrev pub node : FullNodeId → Option ParentAndIndex → NodeData → NodeState
node x l body = record { id = x; parent_and_index = l; BODY = body }

abbrev pub at : ℕ → ℕ → Subtree
at root focus = record { root = n root; focus = n focus }

abbrev pub tree : ℕ → ℕ → Option Subtree → TreeEntry
tree high low u = record { id = record { high = high; low = low }; subtree = u }

abbrev pub state : List NodeState → List TreeEntry → Bool → State
state ns ts h = record { forest = record { nodes = ns; trees = ts }; host_focused = h }

abbrev pub blank : State
blank = state [] [] false

abbrev pub listed : ℕ → NodeData → Listed
listed x body = record { id = n x; BODY = body }

abbrev pub batch : ℕ → ℕ → Option NodeId → ℕ → List Listed → Batch
batch high low root focus ls = record { tree = record { high = high; low = low }; root = root; focus = n focus; nodes = ls }

abbrev pub changes : List FullNodeId → List FullNodeId → List FullNodeId → List FullNodeId → Changes
changes ad up re rl = record { added = ad; updated = up; removed = re; relinked = rl }

abbrev pub lengths : ℕ → ℕ → ℕ → ℕ → Lengths
lengths ad up re rl = record { added = ad; updated = up; removed = re; relinked = rl }

abbrev pub answer
  : ℕ → State → Changes → Lengths → Option FullNodeId → Option FullNodeId → Option FullNodeId → Option FullNodeId → List ℕ → Answer
answer k s cs ls fb fa eb ea slice = record {
  number = k;
  state = s;
  changes = cs;
  lengths = ls;
  focus_before = fb;
  focus_after = fa;
  extra_before = eb;
  extra_after = ea;
  slice = slice;
}

abbrev pub refusal : ℕ → State → List ℕ → Answer
refusal k s slice = answer k s (changes [] [] [] []) (lengths 0 0 0 0) None None None None slice
'''
WORD_NAMES = re.findall(r'^abbrev pub (\S+)', WORDS, re.M)
# what the definitions lean on in the kit's library
LIBRARY = {'lib.Ieee': ['of_bits', 'to_bits', 'eq']}


def opened(repository):
    """The `use` lines and the names of everything that the equations must see through: each `unfoldable` of the definitions."""
    uses, names = [], []
    modules = dict(LIBRARY)
    for layer in needed('update'):
        specs = os.path.join(repository, 'crates', layer, 'specs')
        for name in re.findall(r'^pub mod (\S+)', open(os.path.join(specs, 'Lib.antt')).read(), re.M):
            text = open(os.path.join(specs, name + '.antt')).read()
            found = re.findall(r'^ *unfoldable (?:abbrev )?pub (\S+)', text, re.M)
            if found:
                modules[f'Rattle.{layer}.specs.{name}'] = found
    for module, found in modules.items():
        parts = []
        for name in found:
            # all but the calls' own words and signs get a numbered name here, since modules share some
            plain = name in ('encode', 'start', 'update', 'host_focus') or '◌' in name
            names.append(name if plain else f'{name}_u{len(names)}')
            parts.append(name if plain else f'{name} as {names[-1]}')
        uses.append(f"use {module}.{{{', '.join(parts)}}}")
    return uses, names


def body_field(repository):
    """The field that holds a node's data, in `NodeState` and `Listed`."""
    text = open(os.path.join(repository, 'crates', 'state', 'specs', 'State.antt')).read()
    return re.search(r'pub (\S+) : NodeData', text).group(1)


HEAD = ['-- Calls and their answers, made by the driver.',
        'use Rattle.std.specs.Prelude.{Bool, true, false, List, [], ◌∷◌, ◌≡◌}',
        'use Rattle.std.specs.Prelude.{Option, None, Some}',
        'use mathlib.Core.Path.{refl}',
        'use Rattle.state.specs.State.{State}',
        'use Rattle.update.specs.Calls.{Answer}']


def write_crate(scratch, calls, group, per_file):
    """Writes the calls, (index, JSON) each, as groups; answers, by file name, the line of each group's declaration and its calls."""
    crate = os.path.join(scratch, 'crates', CRATE)
    shutil.rmtree(crate, ignore_errors=True)
    for part in ('specs', 'proofs', 'src'):
        os.makedirs(os.path.join(crate, part))
    with open(os.path.join(crate, 'src', 'lib.rt'), 'w') as f:
        f.write('// Calls and their answers: see proofs/.\n#![tactic(auto)]\n')
    with open(os.path.join(crate, 'specs', 'Words.antt'), 'w') as f:
        f.write(WORDS.replace('BODY', body_field(scratch)))
    uses, names = opened(scratch)
    head = HEAD + uses + [f"use Rattle.{CRATE}.specs.Words.{{{', '.join(WORD_NAMES)}}}", '']
    groups = [calls[k:k + group] for k in range(0, len(calls), group)]
    files = {}
    for f in range(0, len(groups), per_file):
        name = f'Calls{f // per_file}'
        lines, places = list(head), []
        for g, members in enumerate(groups[f:f + per_file]):
            first = len(lines) + 1
            sides = []
            for k, j in members:
                constants, got, answer = equation(k, j)
                lines += ''.join(c + '\n' for c in constants).splitlines()
                sides.append((got, answer))
            lines += [f'pub group_{f + g} :']
            lines += ['    ' + got + ' ∷' for got, _ in sides] + ['    []', '    ≡']
            lines += ['    ' + answer + ' ∷' for _, answer in sides] + ['    []']
            lines += ['unfolding ' + ' '.join(names), f'group_{f + g} = refl', '']
            places.append((first, len(lines), members))
        with open(os.path.join(crate, 'proofs', name + '.antt'), 'w') as out:
            out.write('\n'.join(lines) + '\n')
        files[name + '.antt'] = places
    for part, modules in (('specs', ['Words']), ('proofs', [name.removesuffix('.antt') for name in files])):
        with open(os.path.join(crate, part, 'Lib.antt'), 'w') as f:
            f.write(''.join(f'pub mod {m}\n' for m in modules))
    return files


# ## The check

def checked(scratch):
    """Runs `rt check`: whether the crate of the calls is proved, and what was printed."""
    run = subprocess.run(['rt', 'check'], cwd=os.path.join(scratch, 'crates', CRATE), stdout=subprocess.PIPE, stderr=subprocess.STDOUT, text=True)
    return run.returncode == 0 and re.search('^logic=proved ', run.stdout, re.M) is not None, run.stdout


def blamed(printed, files):
    """The groups at whose lines an error was reported."""
    out = []
    for name, line in re.findall(r'(Calls\d+\.antt):(\d+):\d+: error', printed):
        for first, last, members in files.get(name, []):
            if first <= int(line) <= last and members not in out:
                out.append(members)
    return out


def shortened(printed, most=6000):
    return '\n'.join(line[:300] for line in printed.splitlines())[:most]


def wrong_calls(scratch, calls, group, per_file):
    """The calls whose equation is refused; stops the script where an error lies elsewhere."""
    files = write_crate(scratch, calls, group, per_file)
    proved, printed = checked(scratch)
    if proved:
        return []
    groups = blamed(printed, files)
    if not groups:
        print(shortened(printed))
        sys.exit('rt check failed, and not at a call')
    if group == 1:
        return [k for members in groups for k, _ in members]
    return wrong_calls(scratch, [m for members in groups for m in members], 1, 10)


def planted(calls):
    """A refused call with another number: it must be found."""
    k, j = next((k, j) for k, j in calls if j['number'] > 2)
    return k, dict(j, number=j['number'] - 1)


def main():
    words = argparse.ArgumentParser(description=__doc__, formatter_class=argparse.RawDescriptionHelpFormatter)
    words.add_argument('--calls', type=int, default=3000)
    words.add_argument('--seed', type=int, default=1)
    words.add_argument('--group', type=int, default=10, help='calls in one declaration')
    words.add_argument('--per-file', type=int, default=10, help='declarations in one file')
    words.add_argument('--part', type=int, default=500, help='calls in one run of rt check: a greater number takes more memory')
    words.add_argument('--keep', action='store_true', help='leave the scratch folder')
    given = words.parse_args()
    begun = time.time()
    lines, summary = made_calls(given.calls, given.seed)
    calls = [(k, json.loads(line)) for k, line in enumerate(lines)]
    counts = collections.Counter(j['number'] for _, j in calls)
    print(f'{len(calls)} calls made, seed {given.seed}')
    print('number  calls')
    for k in sorted(counts):
        print(f'{k:6}  {counts[k]:5}')
    print(' calls  what they show')
    print(summary, end='', flush=True)

    scratch = tempfile.mkdtemp(prefix='oracle-calls-')
    try:
        shutil.copytree(REPOSITORY, scratch, dirs_exist_ok=True, ignore=shutil.ignore_patterns('target', 'out', '.git', 'oracle'))
        with open(os.path.join(scratch, 'crates.txt'), 'a') as f:
            f.write(f"\n{CRATE}: {' '.join(needed('update'))}\n")
        if wrong_calls(scratch, [planted(calls)], 1, 1) == []:
            sys.exit('a planted wrong answer was not refused: the check says nothing')
        wrong, compared = [], 0
        for k in range(0, len(calls), given.part):
            part = calls[k:k + given.part]
            wrong += wrong_calls(scratch, part, given.group, given.per_file)
            compared += len(part)
            print(f'{compared:6} compared, {len(wrong)} differ, {time.time() - begun:.0f} s', flush=True)
            if wrong:
                break
        for k in wrong:
            print(f'call {k} differs: {lines[k]}')
        # the greatest process, of this script's children and theirs
        memory = resource.getrusage(resource.RUSAGE_CHILDREN).ru_maxrss // 1024
        print(f'{compared} calls compared, {len(wrong)} differ; {time.time() - begun:.0f} s, at most {memory} MB')
        sys.exit(0 if not wrong and compared == len(calls) >= given.calls else 1)
    finally:
        if given.keep:
            print('scratch folder:', scratch)
        else:
            shutil.rmtree(scratch, ignore_errors=True)


if __name__ == '__main__':
    main()
