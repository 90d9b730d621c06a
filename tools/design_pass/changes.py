#!/usr/bin/env python3
"""Prints, as Markdown, the clauses, signatures and definitions that changed since a commit: the old lines, then the new ones.

    python3 tools/design_pass/changes.py COMMIT

The crates of the commit are first given the names that they have today, so that each function is found again.
The comparison itself is the kit's /opt/rattle/port/contracts.py.
"""
import glob, io, json, os, subprocess, sys, tarfile, tempfile

sys.path.insert(0, '/opt/rattle/port')
import contracts

# the crates of the commit that have another name today, and those that stood beside them as twins
RENAMED = [('filings', 'older_filings'), ('kept_plans', 'filings'), ('worked', 'older_worked'), ('worked_answers', 'worked'),
           ('random_calls', 'older_random'), ('random_answers', 'random_calls')]
# functions that became methods of a struct, or stand in another crate, where the comparison doesn't find them again
MOVED = [(('tables', name), ('tables', "Table<'a, W>", name)) for name in ('entry', 'set_entry', 'set_joint', 'clear')]
MOVED += [(('rows', name), ('tables', "Table<'a, W>", name)) for name in ('add_link', 'merge_rows')]
MOVED += [(('rows', name), ('tables', "Graph<'g, W>", name)) for name in ('lightest', 'is_lighter')]
MOVED += [(('passes', name), ('passes', "Pair<'p, 'g, W>", name)) for name in ('is_apex', 'is_triangle', 'is_neighbourhood')]
MOVED += [(('passes', 'ground_of'), ('passes', "Pair<'p, 'g, W>", 'ground'))]
MOVED += [(('passes', 'within_twice'), ('passes', "Pair<'p, 'g, W>", 'is_within_twice'))]
MOVED += [(('writers', name), ('writers', "Pen<'a>", name)) for name in ('put_byte', 'put_bytes')]
MOVED += [(('writers', name), ('writers', "Pen<'_>", name)) for name in ('put_head', 'put_code', 'put_codes', 'put_weight', 'put_link', 'put_links')]
MOVED += [(('contractions', name), ('contractions', "Contraction<'t, 'm, 'e, W>", name)) for name in ('goes_on', 'note_best', 'merge', 'merge_found', 'round')]
TESTS = ('worked', 'random_calls', 'round_trips', 'older_', 'conformance')


def old_tree(commit):
    folder = tempfile.mkdtemp()
    data = subprocess.run(['git', 'archive', commit, 'crates', 'crates.txt'], capture_output=True, check=True).stdout
    tarfile.open(fileobj=io.BytesIO(data)).extractall(folder)
    for old, new in RENAMED:
        os.rename(f'{folder}/crates/{old}', f'{folder}/crates/{new}')
    for p in glob.glob(folder + '/crates/**/*', recursive=True) + [folder + '/crates.txt']:
        if p.endswith(('.rt', '.antt', 'crates.txt')):
            text = open(p, encoding='utf-8').read()
            for word, name in (('kept_plans', 'filings'), ('worked_answers', 'worked'), ('random_answers', 'random_calls')):
                text = text.replace(word, name)
            open(p, 'w', encoding='utf-8').write(text)
    return folder


def clauses(kind, pairs):
    return [f'{kind} {name} {{ {text} }}' if name else f'{kind} {{ {text} }}' for name, text in pairs]


def block(title, old, new):
    print(f'`{title}`\n\n```diff')
    for line in old:
        if line not in new:
            print('- ' + line)
    for line in new:
        if line not in old:
            print('+ ' + line)
    print('```\n')


def written(functions, crate, name, place=None):
    """The signature and clauses of a function, and where it stands."""
    for key, found in functions.items():
        if key[0] == crate and key[3] == name and place in (None, key[2]):
            f = found[0]
            return ' '.join(part for part in key if part), ['fn ' + ' '.join(f['sign'].split())] + clauses('requires', [c[1:] for c in f['requires']]) + clauses('ensures', [c[1:] for c in f['ensures']])
    return None, []


def moved(old, new):
    before, after = contracts.read(old)[1], contracts.read(new)[1]
    for (crate, name), (to, place, as_name) in MOVED:
        was, old_lines = written(before, crate, name)
        now, new_lines = written(after, to, as_name, place)
        if was and now and not written(after, crate, name, '')[0]:
            block(f'{was}` is now `{now}', old_lines, new_lines)


def main():
    tree = old_tree(sys.argv[1])
    told = subprocess.run(['python3', '/opt/rattle/port/contracts.py', tree, '.', '--json'], capture_output=True, text=True).stdout
    data = json.loads(told)
    signatures = {name: (old, new) for name, old, new in data['signatures changed']}
    print('### Contracts\n')
    shown = set()
    for name, old_asks, old_gives, new_asks, new_gives in data['contracts changed']:
        if name.startswith(TESTS):
            continue
        shown.add(name)
        old = clauses('requires', old_asks) + clauses('ensures', old_gives)
        new = clauses('requires', new_asks) + clauses('ensures', new_gives)
        if name in signatures:
            before, after = signatures[name]
            old, new = ['fn ' + ' '.join(before.split())] + old, ['fn ' + ' '.join(after.split())] + new
        block(name, old, new)
    print('### Functions that are methods now, or stand elsewhere\n')
    moved(tree, '.')
    print('### Signatures whose clauses stayed\n')
    for name, (before, after) in signatures.items():
        if name not in shown and not name.startswith(TESTS):
            block(name, ['fn ' + ' '.join(before.split())], ['fn ' + ' '.join(after.split())])
    print('### Definitions and ghost items\n')
    for crate, item, old, new in data['definitions']['changed']:
        block(f'{crate} {item}', old, new)
    for crate, place, item, old, new in data['ghost items and constants']['changed']:
        block(f'{crate} {place} {item}', old, new)
    print('### Edits whose text changed\n\nEach keeps its name and its wrong meaning.\n')
    for crate, path, old, new in data['edits and outputs']['changed']:
        if path.endswith('.edit'):
            block(f'{crate} {os.path.basename(path)}', [old], [new])


if __name__ == '__main__':
    main()
