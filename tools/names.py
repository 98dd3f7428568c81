#!/usr/bin/env python3
"""Brings the repository's own definitions and lemmas to snake case, after port.py: `binSize` and `bin-size` become `bin_size`.

Run once at the top of the checkout, right after `python3 /opt/rattle/port/port.py`. Types, modules, functions of src/ and library names keep
their spelling. Where a definition and a lemma would fall together, the lemma ends in `_law`. `names.py --report` changes nothing and prints
what would fall together.
"""
import collections
import glob
import os
import re
import sys

WORD = re.compile(r"[^\s(){}\[\]:;,.«»\"`|]+")
LEMMAS_THAT_FELL = {  # port.py respelled these lemmas to a definition's name: the files where the lemma is meant
    'is_zero': 'crates/laws/proofs/Zeros.antt',
    'number_of': 'crates/floats/proofs/Keys.antt',
    'place_of': 'crates/laws/proofs/Places.antt',
    'past_end': 'crates/idx_3d_offset/proofs/',
    'cells_at': 'crates/twopoint_cartesian/proofs/Placewise.antt',
    'offset_at': 'crates/twopoint_cartesian/proofs/Placewise.antt',
    'read_back': 'crates/capi/proofs/',
    'two_blocks': 'crates/capi/proofs/',
    'value_found': ('crates/unstructured/proofs/Batches.antt', 'crates/unstructured/proofs/value_bins/'),
}
IN_SOURCE = {  # a parameter there is called `state_size`
    'crates/state/src/lib.rt': [('{stateSize}', '{state_size as size_of_kind}'), (' stateSize ', ' size_of_kind ')],
}
# lemmas whose names are a definition's but for the spelling
LAWS = """added-at auto-left axis-fits batch-number bits-then cells-in-mean cloud-sum consumed-at cross-left cross-sum edges-read flat-map
in-bin int-of is-whole last-rules made-edges mean-added new-number none-broken numbered-pair offset-cells one-bin one-block over-numbers
over-pack over-sets pack-fits pair-at pair-placed pair-term places-added row-left run-number state-merged sure-number table-bin
the-setup three-read valid-accepted valid-number value-size weights-read""".split()


def odd(word):
    return re.match(r"[a-z]", word) and (re.search(r"[a-z0-9][A-Z]", word) or re.search(r"[A-Za-z0-9']-[A-Za-z0-9]", word))


def snake(word):
    word = word.replace('-', '_')
    return re.sub(r"([a-z0-9])([A-Z])", lambda m: m.group(1) + '_' + m.group(2).lower(), word)


def antt_files():
    return sorted(glob.glob('crates/*/specs/**/*.antt', recursive=True) + glob.glob('crates/*/proofs/**/*.antt', recursive=True))


def plain(text):
    """The text without comments and strings."""
    return re.sub(r'"[^"\n]*"', '""', re.sub(r'(?m)(^|\s)--.*', '', text))


def library_names():
    own = set(os.listdir('crates'))
    names = set()
    for f in antt_files() + glob.glob('crates/*/src/*.rt'):
        for path, listed in re.findall(r"use ([^\s{]+)\.\{([^}]*)\}", open(f).read()):
            parts = path.split('.')
            if parts[0] == 'Rattle' and len(parts) > 1 and parts[1] in own:
                if 'Goals' in parts or 'Given' in parts or 'Statement' in parts or 'Tie' in parts:
                    names.update(n.strip() for n in listed.split(','))
                continue
            names.update(n.strip().split(' ')[0] for n in listed.split(','))
    return names


def main():
    report = '--report' in sys.argv
    texts = {f: open(f).read() for f in antt_files()}
    library = library_names()
    counts = collections.Counter()
    for f, t in texts.items():
        if not f.endswith('/Proof.antt'):
            counts.update(WORD.findall(plain(t)))
    turned = {w: snake(w) for w in counts if odd(w) and w not in library}
    for w in LAWS:
        turned[w] = snake(w) + '_law'
    inverse = collections.defaultdict(list)
    for a, b in turned.items():
        inverse[b].append(a)
    together = {b: v for b, v in inverse.items() if len(v) > 1}
    if report:
        print('fall together:', together)
        print('in use already:', sorted((a, b, counts[b]) for a, b in turned.items() if b in counts))
        for f, t in texts.items():
            ws = set(WORD.findall(plain(t)))
            both = sorted(a for a in ws if a in turned and turned[a] in ws)
            if both:
                print(f, both)
        return
    if together:
        sys.exit(f'fall together: {together}')

    camel = {a: b for a, b in turned.items() if '-' not in a and '_' not in a}

    def respell(text, words, other=lambda word: word):
        def one(m):
            word = m.group(0)
            if '_' in word and m.start() > 0 and text[m.start() - 1] == '.':
                return word  # a function of src/ or a step named after one
            if word in words:
                return words[word]
            return other(word) if re.fullmatch(r"[a-z][a-z0-9]*([A-Z][a-z0-9]*)+", word) else word
        return WORD.sub(one, text)

    for f, t in texts.items():
        words = dict(turned)
        for word, files in LEMMAS_THAT_FELL.items():
            if f.startswith(files):
                words[word] = word + '_law'
        write(f, t, respell(t, words))
    for f in sorted(glob.glob('crates/*/src/*.rt')) + sorted(glob.glob('crates/*/must-fail/*.edit')):
        t = open(f).read()
        for old, new in IN_SOURCE.get(f, []):
            t = t.replace(old, new)
        write(f, open(f).read(), re.sub(r'("[^"\n]*")|([^"\n]+)', lambda m: m.group(1) or respell(m.group(2), turned if 'specs/' in t else camel, snake), t))
    for f in ['README.md'] + sorted(glob.glob('docs/*.md')):
        t = open(f).read()
        write(f, t, re.sub(r'`[^`\n]+`', lambda m: respell(m.group(0), turned, snake), t))


def write(f, old, new):
    if new != old:
        open(f, 'w').write(new)


if __name__ == '__main__':
    main()
