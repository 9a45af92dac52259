#!/usr/bin/env python3
"""Shows that the driver notices a library that is broken on purpose.

Each change below replaces one text of crates/*/src. The changed sources are built without their contracts to a library that stands in for
the proved archive, the driver loads it, and a short run must find calls or answers that differ. Exit status 0: every change was noticed, and the
sources without a change differ nowhere.
"""
import argparse, glob, os, re, shutil, subprocess, sys, tempfile
from crates import needed

HERE = os.path.dirname(os.path.abspath(__file__))
REPOSITORY = os.path.dirname(HERE)
SOURCE = 'ACCESSKIT_CONSUMER_SRC'
UNPROVED = 'CARTGRAVEL_UNPROVED'

# What is changed, the crate, the text, and what stands there instead. `crate/file` where the file is not lib.rt.
CHANGES = [
    ('ids sorted by node number first', 'ids',
     '    x < y\n',
     '    (x.node < y.node) | ((x.node == y.node) & (x.tree < y.tree))\n'),
    ('64 listed nodes are too many', 'record_layout', 'nodes <= 64', 'nodes < 64'),
    ('a label of 32 bytes is too long', 'record_layout', 'u16_at(batch, at + 38) <= 32', 'u16_at(batch, at + 38) < 32'),
    ('a state\'s unused flag bit is not looked at', 'state_fields', '\n        & (flags < 64)', ''),
    ('a state\'s role past the byte is not looked at', 'state_fields', '\n        & (word_at(state, state_array::ROLE, i) < 256)', ''),
    ('a state\'s recorded places are not looked at', 'state_sound/walk', ' & (l.index == j as u64)', ''),
    ('the 32nd tree is refused with 8', 'calls/rows', '(state_array::TREES <= m)', '(31 <= m)'),
    ('10 asked before the children are named, so before 9', 'calls/pass',
     '    let k = scope.listed;\n    let mut done = [0u8; 64];',
     '''    let k = scope.listed;
    if 0 < k {
        if notes::grafts_new(batch, 0) & (0 < record_reader::child_count(batch, 0)) {
            return Some(Cause::GraftOverChildren(0));
        }
    }
    let mut done = [0u8; 64];'''),
    ('12\'s clash with a graft already held judged before 14', 'calls/apply',
     '    pass::pass_rows(state, batch, scope, notes)?;\n',
     '''    let early = pass::pass_rows(state, batch, scope, notes);
    if let Err(first) = early {
        if first.number == 14 {
            write(state, batch, scope, notes, next);
            if let Err(late) = rows::last_rows(next, false) {
                if late.number == 12 {
                    return Err(late);
                }
            }
        }
    }
    early?;
'''),
    ('a listed node never goes', 'calls/gone', 'goes_if(turn <= parent_turn)', 'goes_if(turn < 1)'),
    ('a tree goes with its old graft, though another node grafts it', 'calls/gone',
     'if notes::claimed_from(state, batch, notes, k, slot) < k {\n        return STAYS;',
     'if notes::claimed_from(state, batch, notes, k, slot) < k {\n        return GOES;'),
    ('a tree whose nodes went still exists', 'calls/trees', 'if root_goes(state, notes, k, root) {', 'if root_goes(state, notes, k, root) & (k < 1) {'),
    ('floats compared by bits', 'update_bodies', 'record_wire::f64_of(x) == record_wire::f64_of(y)', 'x == y'),
    ('new bits written over equal data', 'calls/plan', '(turn - 1) as usize] == 1 {', '(turn - 1) as usize] <= 1 {'),
    ('a pane\'s root listed without tree data loses its link', 'calls/links', 'let cut = root & scope.is_root_tree;', 'let cut = root;'),
    ('a tree moved to another graft keeps its old link', 'calls/links', 'under(notes::listed_id(scope, notes, i), 0)', 'was'),
    ('256 nodes are too many', 'calls/rows', 'if state_array::MOST_NODES < state_array::slots(next) {', 'if state_array::MOST_NODES <= state_array::slots(next) {'),
    ('relinked leaves out a change to no parent', 'calls/reports', 'return was.linked != 0;', 'return false;'),
    ('the lists in descending order', 'calls/reports',
     '''if has_bit(notes[start + i], weight) {
            let x = state_array::id_at(state, i);''',
     '''let o = state_array::slots(state) - 1 - i;
        if has_bit(notes[start + o], weight) {
            let x = state_array::id_at(state, o);'''),
    ('the focus passes through one graft only', 'state_focus', 'for _ in 0..state_array::trees(state) + 1 {', 'for _ in 0..2 {'),
    ('the focus before is read after the batch', 'calls/reports', 'let before = state_focus::focus(state);', 'let before = state_focus::focus(next);'),
    ('an old focus that was updated is an extra id', 'calls/reports',
     'if is_marked(next, notes, CHANGED, UPDATED, x) | is_marked(state, notes, FATES, REMOVED, x) {', 'if is_marked(state, notes, FATES, REMOVED, x) {'),
    ('a batch sets the host flag', 'calls/writing', 'trees as u64, host);', 'trees as u64, 1);'),
    ('bytes of a label that is cut are left', 'state_array', 'low_bytes(word_at(state, LABEL + k, i), length - from)', 'word_at(state, LABEL + k, i)'),
    ('the added ids are written before 21', 'calls/reports', '    if changes.len() < words {\n', '    if changes.len() < words {\n        if 1 < changes.len() {\n            changes[0] = 0;\n        }\n'),
    ('21 hands back the blank state', 'calls', '        return replies::refused(21);', '        clear(state);\n        return replies::refused(21);'),
    ('a refused start leaves what it made', 'calls', '        state_array::clear(state);\n        return replies::refused(refusal.number);', '        return replies::refused(refusal.number);'),
]

# The same in the code of modules 6 to 8: questions about made screens must notice these.
QUESTIONS = [
    ('the child\'s transform on the left', 'question_calls/links', 'geometry_box::product(direct_transform(state, p), whole)', 'geometry_box::product(whole, direct_transform(state, p))'),
    ('a product\'s shift is not shifted', 'geometry_box', 'e: p.a * q.e + p.c * q.f + p.e,', 'e: p.a * q.e + p.c * q.f + q.e,'),
    ('a box from three corners', 'geometry_box', 'let q = apply(t, r.x0, r.y1);', 'let q = apply(t, r.x0, r.y0);'),
    ('a box with a corner that is not finite', 'geometry_box', 'if are_finite(p, q, u, v) {', 'if are_finite(p, q, u, v) | (t.a > 1.0) {'),
    ('an overlap not cut at zero', 'geometry_box', 'if 0.0 < length { length } else { 0.0 }', 'length'),
    ('hidden not inherited', 'question_calls/links', 'hidden_up(state, parents, i, state_array::SLOTS)', 'hidden_at(state, i)'),
    ('a filled graft without a child', 'question_calls/links', 'Some(_) => 1,', 'Some(_) => 0,'),
    ('the last sibling not stepped to', 'question_calls/links', 'if count - index < 2 {', 'if count - index < 3 {'),
    ('back to the first sibling', 'question_calls/links', 'child_id(state, p, index as usize - 1)', 'child_id(state, p, 0)'),
    ('a node that is not there is asked about', 'question_calls/node_asked', 'if state_array::slots(state) <= slot {', 'if state_array::slots(state) < slot {'),
    ('a question on a state that is not sound', 'question_calls/node_asked', 'if !state_sound::sound_noting(state, parents) {', 'if !state_fields::fields_are_ok(state) {'),
    ('a slice just long enough for the children refused', 'question_calls/node', 'if out.len() / 2 < length {', 'if out.len() / 2 <= length {'),
    ('a node\'s own flags mixed up', 'question_calls/own', 'hidden: flag(flags, 1),', 'hidden: flag(flags, 2),'),
    ('the ends of a tree that went', 'question_calls/node/tree_state', 'if t.exists == 0 {', 'if (t.exists == 0) & (k < 1) {'),
    ('focused though it is its own active descendant', 'question_calls/plain', 'if a == i {\n        return n;', 'if a == i {\n        return i;'),
    ('focused without the host', 'question_calls/plain', 'if state_array::host(state) == 0 {', 'if state_array::host(state) == 7 {'),
    ('a text run is listed', 'question_calls/plain', ' | (role == 1)', ''),
    ('a neighbour inside a container not met', 'question_calls/plain', 'FilterResult::ExcludeNode => steps::into(state, parents, side, at),', 'FilterResult::ExcludeNode => steps::after(state, parents, side, at),'),
    ('the parent\'s filter not asked', 'question_calls/filters', 'if is_exclude_subtree(common_filter(state, parents, focused, p)) {', 'if is_exclude_subtree(common_filter(state, parents, focused, p)) & (p < 1) {'),
    ('the neighbour before not asked', 'question_calls/filters', '    !is_first_sibling_in_parent_bbox(state, parents, focused, Side::Preceding, at, parent_bbox)', '    true'),
    ('clips where the node, not its parent, clips', 'question_calls/filters', 'if !clips_children(state, p) {', 'if !clips_children(state, i) {'),
    ('no exception for the root', 'question_calls/filters', '    if is_root(state, i) {\n        return FilterResult::Include;', '    if is_root(state, i) {\n        return common_filter_or_hidden(state, parents, focused, i);'),
    ('what is known of one node believed of another', 'question_calls/filters', 'if p == known.slot {', 'if known.slot <= p {'),
    ('a node above a dropped one is not looked for', 'question_calls/filters', 'included: above.included,', 'included: n,'),
    ('a walk climbs one level less', 'question_calls/steps', 'in (0..=at.level).rev() {', 'in (at.level.min(1)..=at.level).rev() {'),
    ('a level not counted on the way down', 'question_calls/steps', 'level: one_more(at.level),', 'level: at.level,'),
    ('the siblings before in order', 'question_calls/lists', 'run.index - 1 - k', 'k'),
    ('filtered siblings of its own parent alone', 'question_calls/shown', 'let level = up.level;', 'let level = 0usize;'),
    ('the deepest child one level down', 'question_calls/shown', 'if n <= next {', 'if n <= next + n {'),
    ('a walk one behind its count', 'question_calls/shown', 'for _ in 0..count {', 'for _ in 1..count {'),
    ('a slice just long enough for a list refused', 'question_calls/iterators', 'if out.len() < words {', 'if out.len() <= words {'),
    ('an element beyond the list written', 'question_calls/iterators', '&ids[..words]);', '&ids[..words]);\n    if (words < out.len()) & (words < ids.len()) {\n        out[words] = ids[words];\n    }'),
]

# The same in the code that says why: the driver's own tests of the reasons must notice these.
REASONS = [
    ('2: another offset', 'record_layout', 'keeps(15, at + 38,', 'keeps(15, at + 36,'),
    ('5: the places the other way round', 'calls/why_rows', 'place: again.second,\n        other: again.first,', 'place: again.first,\n        other: again.second,'),
    ('6: told of ROOT', 'calls/why_rows', 'return of_tree(6, id);', 'return of_tree(6, TreeId { high: 0, low: 0 });'),
    ('9: the namers the other way round', 'calls/why_pass', 'of_nodes(9, child, by, also)', 'of_nodes(9, child, also, by)'),
    ('10: the first listed node', 'calls/why_pass', 'of_nodes(10, x, ', 'of_nodes(10, notes::listed_id(scope, notes, i / 64), '),
    ('11: the first listed node', 'calls/why_pass', 'of_nodes(11, x, ', 'of_nodes(11, notes::listed_id(scope, notes, i / 64), '),
    ('12: the claims the other way round', 'calls/why_pass', 'claimed_twice(batch, scope, notes, i, m),', 'claimed_twice(batch, scope, notes, m, i),'),
    ('12: the holder told as the claimer', 'calls/why_outcome', 'return claimed_why(tree, y, x);', 'return claimed_why(tree, x, y);'),
    ('13: another place', 'calls/why_pass', 'place: i,', 'place: i / 64,'),
    ('14: the first listed node names the child', 'calls/why_pass', 'let by = namer(state, batch, scope, notes, j);', 'let by = namer(state, batch, scope, notes, j / 256);'),
    ('15: told of ROOT', 'update_focus', 'way::last_graft(next));', 'TreeId { high: 0, low: 0 });'),
    ('15 and 17: the way backwards', 'update_focus', 'way.iter_mut().enumerate()', 'way.iter_mut().rev().enumerate()'),
    ('17: the way is not written', 'calls/explain', '(why.number == 15) | (why.number == 17)', 'why.number == 15'),
    ('18: the node itself told as the one that lost its place', 'calls/why_outcome/climb', '!= gone::AS_PARENT {', '!= gone::AS_PARENT + 9 {'),
    ('18: nobody dropped it', 'calls/why_outcome/climb', 'by: listed_parent(notes, at, l.parent),', 'by: None,'),
    ('19: the largest absent node', 'reasons_shape/links', 'if ids::is_before(y, x) {', 'if ids::is_before(x, y) {'),
    ('19: a node met twice told later', 'reasons_shape/links', 'if twice.rule != 0 {', 'if twice.rule == 9 {'),
    ('19: the node itself told as the topmost', 'reasons_shape/links', 'if !is_lost(state, marks, p) {', 'if !is_lost(state, marks, p) | (0 < n) {'),
    ('19: the parents the other way round', 'reasons_shape/links', 'parent_of(l),\n                parent_of(first),', 'parent_of(first),\n                parent_of(l),'),
    ('19: nodes three steps down are not reached', 'reasons_shape/reached', 'for _ in 0..n {\n        marks', 'for _ in 0..n.min(2) {\n        marks'),
    ('1: the next slot', 'reasons_shape', 'return of_node(1, 14, i,', 'return of_node(1, 14, i + 1,'),
    ('1: a tree\'s number told wrong', 'reasons_shape/trees', 'place: k,', 'place: 0,'),
    ('20: the limit told as the count', 'update_focus', 'place: n,', 'place: 256,'),
    ('21: the room told as the need', 'calls/why_rows', 'place: most,', 'place: room,'),
    ('the words of the way keep what they held', 'calls/explain', 'clear(way);\n    if rows::first_rows', 'if rows::first_rows'),
    ('a start\'s memory keeps what was worked in it', 'calls/explain', 'let why = start_why(memory, batch, way);\n    state_array::clear(memory);', 'let why = start_why(memory, batch, way);'),
]

# The library's functions after `cartgravel_`: what C's answer is called, and the arguments.
FUNCTIONS = {
    'start': ('reply', 'state batch number'), 'update': ('reply', 'state batch changes'), 'host_focus': ('reply', 'state number'),
    'explain': ('explanation', 'asked batch room way'), 'explain_start': ('explanation', 'state batch way'),
    'focus': ('found', 'asked'), 'root': ('found', 'asked'), 'counts': ('counts_answer', 'asked'),
    'tree_id': ('tree_answer', 'asked index'), 'tree_index': ('index_answer', 'asked tree'), 'tree_ends': ('ends_answer', 'asked index'),
    'node': ('node_answer', 'asked id'), 'label': ('listed', 'asked id label'),
    'parent': ('found', 'asked id'), 'children': ('listed', 'asked id ids'),
    'hidden': ('flag', 'asked id'), 'transform': ('transform_answer', 'asked id'), 'bounding_box': ('box_answer', 'asked id'),
    'filter': ('filter_answer', 'asked id number'), 'filtered_parent': ('found', 'asked id number'),
    'first_filtered_child': ('found', 'asked id number'), 'last_filtered_child': ('found', 'asked id number'),
    'deepest_first_filtered_child': ('found', 'asked id number'), 'deepest_last_filtered_child': ('found', 'asked id number'),
    'siblings': ('listed', 'asked id number ids'), 'filtered_children': ('listed', 'asked id number ids'),
    'filtered_siblings': ('listed', 'asked id number other ids'), 'next': ('found', 'walk asked'),
}
# An argument as the program below gives it.
GIVEN = {'state': '&mut state', 'asked': '&state', 'batch': '&b', 'changes': '&mut lent', 'ids': '&mut lent', 'label': '&mut bytes', 'number': '1', 'other': '1',
         'index': 'ids::TreeIndex(1)', 'tree': 'ids::TreeId { high: 0, low: 0 }', 'id': 'ids::FullNodeId { tree: ids::TreeIndex(0), node: ids::NodeId(1) }',
         'walk': '&mut walk', 'room': '1', 'way': '&mut way'}


def path_of(name):
    """Where the library has a function: in lib.rt or in a module."""
    folder = f'{REPOSITORY}/crates/cartgravel/src'
    found = [f[:-3] for f in os.listdir(folder) if re.search(rf'\bfn cartgravel_{name}\b', read(f'{folder}/{f}'))]
    module = '' if found == ['lib'] else f'{found[0]}::'
    return f'cartgravel::{module}cartgravel_{name}'


def program():
    """Reaches the library's functions, so that they are compiled."""
    lines = [f'    said += {path_of(name)}({", ".join(GIVEN[a] for a in words.split())}).number as u64;' for name, (_, words) in FUNCTIONS.items()]
    return '''fn main() {
    let b = [0u8; 3];
    let mut lent = [0u64; 9];
    let mut bytes = [0u8; 9];
    let mut way = [0u64; 66];
    let mut state = [0u64; 9640];
    let mut said = 0u64;
    let mut walk = questions::Walk {
        node: ids::FullNodeId { tree: ids::TreeIndex(0), node: ids::NodeId(1) },
        side: 0,
        filter: 0,
        count: 0,
    };
''' + '\n'.join(lines) + '''
    io::print_decimal(1, said);
}
'''

# An argument in C, in a build without proofs (where slices and small structs are taken apart), and how one becomes the other.
CROSSES = {
    'state': ('cartgravel_state *state', 'void *', 'state'), 'asked': ('const cartgravel_state *state', 'const void *', 'state'),
    'batch': ('const uint8_t *batch, size_t length', 'const void *, size_t', 'batch, length'),
    'changes': ('uint64_t *changes, size_t room', 'void *, size_t', 'changes, room'),
    'ids': ('uint64_t *out, size_t room', 'void *, size_t', 'out, room'), 'label': ('uint8_t *out, size_t room', 'void *, size_t', 'out, room'),
    'number': ('uint32_t number', 'uint32_t', 'number'), 'other': ('uint32_t other', 'uint32_t', 'other'), 'index': ('uint32_t index', 'uint32_t', 'index'),
    'tree': ('cartgravel_uuid tree', 'uint64_t, uint64_t', 'tree.high, tree.low'), 'id': ('cartgravel_node_id id', 'uint32_t, uint64_t', 'id.tree, id.node'),
    'walk': ('cartgravel_walk *walk', 'void *', 'walk'), 'room': ('size_t room', 'size_t', 'room'), 'way': ('uint64_t *way', 'void *', 'way'),
}
# The answers that such a build gives in two registers; the others it writes where its first argument points.
PAIRS = {'listed', 'flag', 'filter_answer'}


def boundary():
    """The functions as C has them, over those of a build without proofs, which are loaded from the file that UNPROVED names."""
    out = ['#include <dlfcn.h>', '#include <stdlib.h>', '#include "cartgravel.h"', 'struct pair { uint64_t first, second; };',
           'static void *loaded(const char *name) {', '    static void *library;', f'    if (!library) library = dlopen(getenv("{UNPROVED}"), RTLD_NOW);',
           '    void *found = library ? dlsym(library, name) : 0;', '    if (!found) exit(3);', '    return found;', '}']
    for name, (answer, words) in FUNCTIONS.items():
        c, unproved, given = (', '.join(parts) for parts in zip(*(CROSSES[a] for a in words.split())))
        is_pair = answer in PAIRS
        out += [f'cartgravel_{answer} cartgravel_{name}({c}) {{',
                f'    static struct pair (*unproved)({unproved});' if is_pair else f'    static void (*unproved)(cartgravel_{answer} *, {unproved});',
                f'    if (!unproved) *(void **)&unproved = loaded("unproved_{name}");']
        if is_pair:
            out += [f'    struct pair pair = unproved({given});', f'    return (cartgravel_{answer}){{pair.first, pair.second}};', '}']
        else:
            out += [f'    cartgravel_{answer} answer;', f'    unproved(&answer, {given});', '    return answer;', '}']
    return '\n'.join(out) + '\n'


# ## The library, built without proofs

def source_file(where):
    crate, _, name = where.partition('/')
    return f'{REPOSITORY}/crates/{crate}/src/{name or "lib"}.rt'


def read(path):
    with open(path, encoding='utf-8') as f:
        return f.read()


def write(path, text):
    with open(path, 'w', encoding='utf-8') as f:
        f.write(text)


def copy_sources(folder, change):
    """The crates of the library with the change, in a repository of their own, as libraries whose modules are public: the program names them."""
    crates = needed('cartgravel')
    for crate in crates:
        top = f'{REPOSITORY}/crates/{crate}'
        for name in glob.glob('src/**/*.rt', root_dir=top, recursive=True) + glob.glob('specs/**/*.antt', root_dir=top, recursive=True):
            path = f'{folder}/crates/{crate}/{name}'
            os.makedirs(os.path.dirname(path), exist_ok=True)
            text = read(f'{top}/{name}')
            if change and source_file(change[1]) == f'{top}/{name}':
                text = text.replace(change[2], change[3])
            write(path, re.sub(r'^mod ', 'pub mod ', text, flags=re.M) if name.endswith('.rt') else text)
    os.makedirs(f'{folder}/crates/program/src')
    write(f'{folder}/crates/program/src/main.rt', program())
    lines = re.sub(r'^(\w+) staticlib:', r'\1:', read(f'{REPOSITORY}/crates.txt'), flags=re.M).splitlines()
    kept = [line for line in lines if line.partition(':')[0] in crates]
    write(f'{folder}/crates.txt', '\n'.join(kept + [f'program: {" ".join(crates)} io', '']))


def build(folder, change):
    """Writes folder/unproved.so."""
    copy_sources(folder, change)
    subprocess.run([f'{REPOSITORY}/tools/bitcode', f'{folder}/library.bc', 'program', folder], check=True)
    kit = os.path.dirname(subprocess.run(['rt', 'doc'], capture_output=True, text=True, check=True).stdout.strip())
    clang = f'{kit}/toolchain/bin/clang'
    subprocess.run([clang, '-S', '-emit-llvm', '-x', 'ir', f'{folder}/library.bc', '-o', f'{folder}/library.ll', '-O0', '-Xclang', '-disable-llvm-passes'], check=True, stderr=subprocess.DEVNULL)
    text = re.sub(r'define internal ([^\n]*@"cartgravel::(?:\w+::)?cartgravel_\w+")', r'define \1', read(f'{folder}/library.ll'))
    text = re.sub(r'define ([^\n]*@main\()', r'define internal \1', text)
    write(f'{folder}/library.ll', re.sub(r'@"cartgravel::(?:\w+::)?cartgravel_(\w+)"', r'@unproved_\1', text))
    subprocess.run([clang, '--target=x86_64-unknown-linux-gnu', '-march=x86-64', '-c', '-x', 'ir', f'{folder}/library.ll', '-o', f'{folder}/library.o', '-fPIC', '-O1'], check=True)
    subprocess.run(['cc', '-shared', f'{folder}/library.o', '-o', f'{folder}/unproved.so'], check=True)


def write_archive(folder):
    """Writes folder/libcartgravel.a, which a driver links once for all changes."""
    os.makedirs(folder, exist_ok=True)
    write(f'{folder}/boundary.c', boundary())
    subprocess.run(['cc', '-O2', '-fPIC', '-c', f'{folder}/boundary.c', '-I', f'{REPOSITORY}/include', '-o', f'{folder}/boundary.o'], check=True)
    subprocess.run(['ar', 'rcs', f'{folder}/libcartgravel.a', f'{folder}/boundary.o'], check=True)


# ## The runs

def noticed(driver, words, environment, seconds):
    """How many calls differ, or how the run ended; and the first call that differs."""
    try:
        said = subprocess.run([driver] + words, capture_output=True, text=True, timeout=seconds, env=environment)
    except subprocess.TimeoutExpired:
        return 'no end', ''
    first = re.search(r'^(?:call|question) (\d+), the first (?:that differs|whose reason is false)', said.stdout, re.M)
    counts = re.findall(r'; (\d+) (?:differ|are false)$', said.stdout, re.M)
    if not counts:
        return f'ended with {said.returncode}', first[1] if first else ''
    return sum(map(int, counts)), first[1] if first else ''


def tried(change, driver, options):
    """Builds the library with a change and answers what the runs noticed: of calls, of small batches, of questions; none where there is no run."""
    seed = ['--seed', str(options.seed)]
    runs = [['--batches', str(options.batches)] + seed, ['--exhaustive', '--every', str(options.every)], ['--questions', str(options.screens)] + seed]
    wanted = [change not in QUESTIONS, change not in QUESTIONS, change not in CHANGES + REASONS]
    with tempfile.TemporaryDirectory() as folder:
        build(folder, change)
        environment = {**os.environ, UNPROVED: f'{folder}/unproved.so'}
        return [noticed(driver, words, environment, options.seconds) if run else (0, None) for words, run in zip(runs, wanted)]


def main():
    options = argparse.ArgumentParser()
    options.add_argument('--batches', type=int, default=20000)
    options.add_argument('--seed', type=int, default=1)
    options.add_argument('--every', type=int, default=50, help='of the small batches')
    options.add_argument('--screens', type=int, default=600, help='made screens that questions are asked about')
    options.add_argument('--questions', action='store_true', help='the changes in modules 6 to 8 alone')
    options.add_argument('--reasons', action='store_true', help='the changes in what says why alone')
    options.add_argument('--seconds', type=int, default=600, help='the most that a run may take')
    options.add_argument('--only', default='', help='changes whose description has these words')
    o = options.parse_args()
    if not os.environ.get(SOURCE):
        sys.exit(f"{SOURCE} is not set: it must name the folder with accesskit_consumer 0.39.2's src/*.rs")
    for what, where, text, _ in CHANGES + QUESTIONS + REASONS:
        count = read(source_file(where)).count(text)
        if count != 1:
            sys.exit(f'{what}: the text stands {count} times in {source_file(where)}')
    target = os.path.join(os.environ.get('CARGO_TARGET_DIR', os.path.join(HERE, 'target')), 'broken')
    archive = os.path.join(target, 'archive')
    write_archive(archive)
    environment = {**os.environ, 'CARGO_TARGET_DIR': target, 'CARTGRAVEL_LIB': archive}
    subprocess.run(['cargo', 'build', '--release', '--offline', '--quiet', '-p', 'driver'], cwd=HERE, env=environment, check=True)
    driver = os.path.join(target, 'release', 'driver')
    print('| what was changed | in | made calls that differ, the first | small calls that differ, the first | answers about screens that differ, the first |\n|---|---|---|---|---|', flush=True)
    good = True
    chosen = QUESTIONS if o.questions else REASONS if o.reasons else CHANGES + QUESTIONS + REASONS
    for change in [None] + [c for c in chosen if o.only in c[0]]:
        runs = tried(change, driver, o)
        what, where = (change[0], os.path.relpath(source_file(change[1]), REPOSITORY)) if change else ('nothing', '')
        cells = ['' if x[1] is None else '{}, {}'.format(*x) if x[1] else str(x[0]) for x in runs]
        print(f'| {what} | {where} | {" | ".join(cells)} |', flush=True)
        good &= all(x[0] == 0 for x in runs) == (change is None)
    sys.exit(not good)


if __name__ == '__main__':
    main()
