#!/usr/bin/env python3
"""Counts, in the sources of the house (crates/*/src/*.rt), the places that seven points of a rewrite are about.

  count_places.py TOP                    a table: each point, each kind of place, how many
  count_places.py TOP --point N          every place of point N, a line each: `crate file:line what`
  count_places.py TOP --point Na         only the places of the kind `Na` (for example 1d)
  count_places.py TOP --lists DIR        writes DIR/point1.txt .. point7.txt

It only reads text, and is deterministic. Where a pattern can say what a place is, a pattern finds it; so a later tree is recounted
by the same command. Where it takes judgement, a list of names below says which ones count and why in a word; a name that no longer
stands no longer counts, and what a pattern finds that the list does not know is counted and marked `UNJUDGED`. A place that is
marked `no` is shown (as why it does not count) but not counted.
"""
import glob
import os
import re
import sys

# ---------------------------------------------------------------- reading the tree


def cut_comment(line):
    """A line without its comment; quotes are honoured."""
    out, quote, i = [], None, 0
    while i < len(line):
        c = line[i]
        if quote:
            if c == '\\':
                out.append(line[i:i + 2])
                i += 2
                continue
            if c == quote:
                quote = None
        elif c == '"':
            quote = c
        elif c == "'" and re.match(r"'(\\.|[^\\'])'", line[i:]):
            m = re.match(r"'(\\.|[^\\'])'", line[i:])
            out.append(m.group(0))
            i += len(m.group(0))
            continue
        elif line.startswith('//', i):
            break
        out.append(c)
        i += 1
    return ''.join(out)


def braces(line):
    """How much deeper a line goes in braces, without those in quotes."""
    bare = re.sub(r"b?'(\\.|[^\\'])'|b?\"(\\.|[^\"\\])*\"", '', line)
    return bare.count('{') - bare.count('}')


def split_top(text, mark):
    """Splits a text at a mark that stands in no bracket."""
    parts, depth, last, i = [], 0, 0, 0
    while i < len(text):
        c = text[i]
        if c in '([{<' and not (c == '<' and mark != ','):
            depth += 1
        elif c in ')]}>' and not (c == '>' and (mark != ',' or text[i - 1] == '-')):
            depth -= 1
        elif depth == 0 and text.startswith(mark, i):
            parts.append(text[last:i])
            i += len(mark)
            last = i
            continue
        i += 1
    parts.append(text[last:])
    return [p.strip() for p in parts if p.strip()]


class Fn:
    pass


class Crate:
    pass


def read_file(top, path):
    """The functions, structs and enums of one file."""
    c = Crate()
    c.crate = path.split(os.sep)[-3]
    c.file = 'src/' + os.path.basename(path)
    c.raw = open(path, encoding='utf-8').read().split('\n')
    c.lines = [cut_comment(x) for x in c.raw]
    c.fns, c.structs, c.enums = [], [], []
    i = 0
    while i < len(c.lines):
        line = c.lines[i]
        head = re.match(r'\s*(?:pub(?:\(\w+\))? )?(?:const )?(?:unsafe )?(?:extern "C" )?fn (\w+)', line)
        if head:
            f = Fn()
            f.crate, f.file, f.name, f.line, f.pub = c.crate, c.file, head.group(1), i + 1, 'pub ' in line
            sig, j = '', i
            # the signature: up to the first clause or the body's brace
            while j < len(c.lines):
                part = c.lines[j]
                if re.match(r'\s*(requires|ensures)\b', part) or part.strip() == '{':
                    break
                sig += ' ' + part.strip()
                if part.rstrip().endswith(('{', '}', ';')):
                    break
                j += 1
            # a body on the line of the signature, or none (of a trait)
            inline = re.search(r'\{(.*)\}$', c.lines[j].rstrip()) if j < len(c.lines) and not re.match(r'\s*(requires|ensures)\b', c.lines[j]) else None
            bodiless = j < len(c.lines) and c.lines[j].rstrip().endswith(';')
            f.requires, f.ensures = [], []
            while not inline and not bodiless and j < len(c.lines) and c.lines[j].strip() != '{' \
                    and not (not re.match(r'\s*(requires|ensures)\b', c.lines[j]) and re.search(r'(->[^{]*|\)\s*|where .*)\{$', c.lines[j])):
                clause, first = c.lines[j], j
                while re.match(r'\s*(requires|ensures)\b', clause) and braces(clause) > 0 and j + 1 < len(c.lines):
                    j += 1  # a clause of several lines
                    clause += ' ' + c.lines[j].strip()
                q = re.match(r'\s*(requires|ensures)\s*(\w+)?\s*\{(.*)\}\s*;?$', clause)
                bodiless = bodiless or bool(q and clause.endswith(';'))
                if q:
                    (f.requires if q.group(1) == 'requires' else f.ensures).append((first + 1, q.group(2), q.group(3).strip()))
                if bodiless or clause.rstrip().endswith(';'):
                    bodiless = True
                    break
                j += 1
            start = j
            depth = 0
            while not inline and not bodiless and j < len(c.lines):
                depth += braces(c.lines[j]) if j > start else 1
                if depth == 0:
                    break
                j += 1
            f.body_first, f.last = start + 2, j  # lines of the body, counted from 1, both included
            f.body = ['    ' + inline.group(1).strip()] if inline else [] if bodiless else c.lines[start + 1:j]
            if inline:
                f.body_first = start + 1
            sig = re.sub(r'(\{[^{}]*\}|\{|;)\s*$', '', sig).rstrip()
            k = sig.index('fn ' + f.name) + 3 + len(f.name)
            depth = 0
            # past the generics, where there are some
            while k < len(sig) and not (sig[k] == '(' and depth == 0):
                depth += {'<': 1, '>': -1 if sig[k - 1] != '-' else 0}.get(sig[k], 0)
                k += 1
            if k >= len(sig):
                i += 1
                continue
            depth, e = 0, k
            while True:
                depth += {'(': 1, ')': -1}.get(sig[e], 0)
                if depth == 0:
                    break
                e += 1
            f.params = []
            for p in split_top(sig[k + 1:e], ','):
                if ':' in p:
                    n, t = p.split(':', 1)
                    f.params.append((n.strip(), re.sub(r"'\w+ ", '', t.strip())))
            f.ret = sig[e + 1:].strip().lstrip('->').strip()
            c.fns.append(f)
            i = j + 1
            continue
        m = re.match(r'\s*(?:pub(?:\(\w+\))? )?(struct|enum) (\w+)', line)
        if m:
            s = Fn()
            s.crate, s.file, s.kind, s.name, s.line, s.items = c.crate, c.file, m.group(1), m.group(2), i + 1, []
            j = i + 1
            short = re.search(r'[({](.*)[)}];?\s*$', line)
            if short or line.rstrip().endswith(';'):
                s.items = [re.sub(r'^pub ', '', x) for x in split_top(short.group(1), ',')] if short else []
                (c.structs if s.kind == 'struct' else c.enums).append(s)
                i += 1
                continue
            while j < len(c.lines) and c.lines[j].strip() != '}':
                t = c.lines[j].strip().rstrip(',')
                if t:
                    s.items.append(re.sub(r'^pub ', '', t))
                j += 1
            (c.structs if s.kind == 'struct' else c.enums).append(s)
            i = j + 1
            continue
        i += 1
    return c


def read_tree(top):
    return [read_file(top, p) for p in sorted(glob.glob(os.path.join(top, 'crates', '*', 'src', '*.rt')))]


# ---------------------------------------------------------------- what is found

PLACES = []  # (kind, counted, crate, file, line, what)


def put(kind, crate, file, line, what, counted=True):
    PLACES.append((kind, counted, crate, file, line, what))


TITLES = {}


def title(kind, text):
    TITLES[kind] = text


# ---------------------------------------------------------------- 1: own Option and Result

title('1a', 'own enums of the shape of Option or Result')
ENUMS = {
    ('verdict', 'Verdict'): (True, 'Result<(), Refusal>'),
    ('mean', 'Mean'): (True, 'Option<i64>'),
    ('newick_form', 'End'): (True, 'Option<usize>'),
    ('planner', 'Choice'): (True, 'Result<Which, Refusal>'),
    ('streams', 'Reading'): (True, 'Over(Taken) ends the loop: Result / ControlFlow'),
    ('shortest', 'Lead'): (True, 'End and Broken carry nothing: Result<usize, Why> (or Option<Option<usize>>)'),
    ('shortest', 'Came'): (True, 'Whole or why not: Result<(), Why>; is handed on by hand in passed_by'),
    ('verdict', 'Place'): (True, 'Nowhere beside four places: Option<Place> (borderline)'),
    ('desk_lines', 'Line'): (True, 'Wrong is handed on by hand: Result<Line, Wrong> (borderline)'),
    ('desk_heads', 'Kind'): (True, 'Wrong beside five words: Option<Kind> (borderline)'),
}


def point_1_enums(crates):
    for c in crates:
        for e in c.enums:
            pays = [x for x in e.items if '(' in x]
            shape = len(e.items) == 2 and len(pays) in (1, 2)
            known = ENUMS.get((c.crate, e.name))
            text = 'enum %s { %s }' % (e.name, ', '.join(e.items[:5]) + (', ..' if len(e.items) > 5 else ''))
            if known:
                put('1a', c.crate, c.file, e.line, text + ': ' + known[1], known[0])
            elif shape:
                put('1a', c.crate, c.file, e.line, text + ': UNJUDGED (two cases, one with a value)')


title('1b', 'structs with a flag or a Verdict beside values that mean something only by it')
STRUCTS = {
    # a Verdict beside values that are zeros where it refuses
    ('comparison', 'TreeLength'): (True, 'zeros where refused'),
    ('direct_fit', 'DirectFit'): (True, 'zeros where refused'),
    ('front', 'Front'): (True, 'zeros where refused'),
    ('lengths', 'Proposed'): (True, 'zeros where refused'),
    ('long_reading', 'LongSheet'): (True, 'zeros where refused'),
    ('matrix', 'Measured'): (True, 'zeros where refused'),
    ('matrix', 'Survey'): (True, '`missing` says something only where it passes'),
    ('names', 'Named'): (True, 'count 0 where refused'),
    ('newick_read', 'Sizes'): (True, 'zeros where refused'),
    ('newick_sheet', 'Fitting'): (True, 'zeros where refused'),
    ('newick_survey', 'Survey'): (True, 'zeros where refused'),
    ('newick_write', 'Written'): (True, 'length 0 where refused'),
    ('phylip_survey', 'Head'): (True, 'values only where it passes'),
    ('phylip_survey', 'Survey'): (True, 'strains only where it passes'),
    ('phylip_write', 'Written'): (True, 'length 0 where refused'),
    ('reading', 'Outline'): (True, 'zeros where refused'),
    ('reading', 'Proposal'): (True, 'zeros where refused'),
    ('reading', 'Sheet'): (True, 'zeros where refused'),
    ('records', 'Layout'): (True, 'zeros where refused'),
    ('reporting', 'FitReport'): (True, 'zeros where refused'),
    ('tree', 'Planted'): (True, 'zeros where refused'),
    ('desk_posting', 'Corrected'): (True, 'the posting is used only where accepted'),
    ('sheet', 'SheetFit'): (True, 'zeros where its report is refused'),
    ('unfitted_sheet', 'UnfittedFit'): (True, 'zeros where its fit is refused'),
    ('desk', 'Answered'): (False, 'the desk counts either way'),
    ('shortest_run', 'Stepped'): (False, 'the run counts either way'),
    # a flag beside values
    ('cells', 'Cell'): (True, 'entry 0 where out'),
    ('cells', 'RowRead'): (True, 'end and out only where not bad'),
    ('desk', 'Bench'): (True, 'zeros where none stands'),
    ('desk', 'Desk'): (True, 'posting and tables only where posted'),
    ('desk_feed', 'Found'): (True, 'end and next only where whole'),
    ('desk_lines', 'Bench'): (True, 'bench 0 where not found'),
    ('desk_posts', 'Front'): (True, 'zeros where not found'),
    ('desk_posts', 'Back'): (True, 'zero where not found'),
    ('desk_posts', 'Post'): (True, 'zeros where not found; once a Line::Posting it is always found'),
    ('desk_words', 'Number'): (True, 'value 0 where not found'),
    ('desk_words', 'Signed'): (True, 'value 0 where not found'),
    ('long_reporting', 'LongMean'): (True, 'zeros where there is none'),
    ('phylip_lines', 'LineEnd'): (True, 'next only where not bad'),
    ('phylip_lines', 'Count'): (True, 'strains only where there is a count'),
    ('shortest_run', 'Run'): (True, 'number, length, bytes only where found'),
    ('streams', 'Taken'): (True, 'every reader drops count where not whole (borderline)'),
    ('shortest', 'Next'): (True, 'the run is used only where on (borderline)'),
    ('desk_calls', 'Turn'): (True, 'the desk is used only where written (borderline)'),
    ('two_benches', 'Turned'): (True, 'the desk is used only where written (borderline)'),
    ('two_benches', 'Left'): (True, 'the rest is used only where written (borderline)'),
    ('two_benches', 'Rest'): (False, 'count counts either way'),
    ('long_numbers', 'Wide'): (False, 'a sign, not a flag of validity'),
    ('matrix', 'Seen'): (False, 'two answers, neither says whether the other counts'),
}


# the flag that makes one of these count; without it the struct has two answers and no flag
NEEDS = {('cells', 'RowRead'): 'bad: bool', ('two_benches', 'Left'): 'written: bool'}


def point_1_structs(crates):
    verdicts = set()
    for c in crates:
        for s in c.structs:
            if len(s.items) > 1 and any(x.endswith(': Verdict') for x in s.items):
                verdicts.add(s.name)
    for c in crates:
        for s in c.structs:
            if len(s.items) < 2:
                continue
            types = [x.split(':', 1)[1].strip() for x in s.items if ':' in x]
            flag = 'Verdict' if 'Verdict' in types else 'bool' if 'bool' in types else None
            # a struct around one that has the Verdict, with tables beside it
            nested = [t for t in types if t in verdicts]
            known = STRUCTS.get((c.crate, s.name))
            if not flag and not nested:
                continue
            need = NEEDS.get((c.crate, s.name))
            if need and need not in [x.replace('pub ', '') for x in s.items]:
                continue
            text = 'struct %s { %s }' % (s.name, '; '.join(s.items[:4]) + ('; ..' if len(s.items) > 4 else ''))
            if known:
                put('1b', c.crate, c.file, s.line, text + ': ' + known[1], known[0])
            else:
                put('1b', c.crate, c.file, s.line, text + ': UNJUDGED')


title('1c', 'a value of zeros built for a refusal or for "not found" (struct literal)')


STATE = ('Answered', 'Stepped', 'Taken')  # no zeros are made up here: the desk, the run, the count go on


def point_1_zeros(crates):
    for c in crates:
        for i, line in enumerate(c.lines):
            m = re.match(r'\s*(verdict: Verdict::Refused\(|report: reporting::silent\(|(found|whole|standing|posted|some): false,|(bad|out|none): true,)', line)
            if m:
                of = re.search(r'(\w+)(\(\w+)? \{$', c.lines[i - 1])
                name = of.group(2)[1:] if of and of.group(2) else of.group(1) if of else '?'
                if name == '?' and i > 1:
                    # a field before the flag: the literal's name stands a line higher
                    of = re.search(r'(\w+) \{$', c.lines[i - 2])
                    name = of.group(1) if of else '?'
                put('1c', c.crate, c.file, i + 1, '%s { .. %s .. }%s' % (name, line.strip(), ' no zeros: the rest is kept' if name in STATE else ''), name not in STATE)


title('1d', 'hand-written propagation of the very refusal: `?` as it stands')
title('1l', 'hand-written propagation of a refusal packed in another value (zeros, a Choice, a number): `?` once 1b is a Result')
title('1e', 'the same for other flags: not found, bad, Nowhere, Cut, Failed')
title('1f', 'a refusal taken apart only to print it (`refusal.place`, `verdict::number`, refused_line)')


def point_1_propagation(crates):
    for c in crates:
        n = len(c.lines)
        for i, line in enumerate(c.lines):
            nxt = c.lines[i + 1].strip() if i + 1 < n else ''
            m = re.match(r'\s*if let (Verdict|Choice)::Refused\((\w+)\) = (\w+) \{', line)
            if m:
                var = m.group(2)
                block, j, depth = [], i + 1, 1
                while depth > 0:
                    depth += braces(c.lines[j])
                    if depth > 0:
                        block.append(c.lines[j].strip())
                    j += 1
                text = ' '.join(block)
                if re.search(r'refused_line', text):
                    put('1f', c.crate, c.file, i + 1, 'if let .. = %s { return lines::refused_line(..) }' % m.group(3))
                elif re.match(r'return Verdict::Refused\(%s\);' % var, text):
                    put('1d', c.crate, c.file, i + 1, 'if let .. = %s { return Verdict::Refused(..) }: the very refusal' % m.group(3))
                elif text.startswith('return'):
                    put('1l', c.crate, c.file, i + 1, 'if let .. = %s { %s }' % (m.group(3), text[:70]))
                else:
                    put('1l', c.crate, c.file, i + 1, 'if let .. = %s { %s }: is printed, no propagation' % (m.group(3), text[:50]), False)
                continue
            m = re.match(r'\s*(Verdict|Choice)::Refused\((\w+)\) => (.*)', line)
            if m:
                arm, j = m.group(3), i + 1
                depth = braces(line)
                while depth > 0:
                    depth += braces(c.lines[j])
                    arm += ' ' + c.lines[j].strip()
                    j += 1
                inside = m.group(2)
                if 'refused_line' in arm or (inside != '_' and 'reason_number' in arm):
                    put('1f', c.crate, c.file, i + 1, 'Refused(%s) => %s' % (inside, arm[:60]))
                elif inside == '_':
                    put('1l', c.crate, c.file, i + 1, 'Refused(_) => %s' % arm[:60],
                        bool(re.search(r'verdict: answer|&s\[0\.\.0\]', arm)))
                elif re.match(r'Verdict::Refused\(%s\),?$' % inside, arm.strip()):
                    put('1d', c.crate, c.file, i + 1, 'Refused(%s) => %s' % (inside, arm[:70]))
                else:
                    # where the state goes on beside it (Stepped) it is no propagation
                    put('1l', c.crate, c.file, i + 1, 'Refused(%s) => %s' % (inside, arm[:70]), 'Stepped {' not in arm)
                continue
            m = re.match(r'\s*if (!\w+\.(found|whole|standing)|\w+\.(bad|none)) \{', line)
            if m and nxt.startswith('return'):
                text = ' '.join(x.strip() for x in c.lines[i + 1:i + 7])
                text = text[:text.find('}') + 1] if '}' in text[:90] else text[:60]
                hand = re.match(r'return (Line::Wrong|no_post\(\)|cells::bad_row\(\)|\w+ \{ (found|bad): |0;|Came::|Lead::)', text)
                put('1e', c.crate, c.file, i + 1, 'if %s { %s' % (m.group(1), text[:60]), bool(hand) or 'Bench {' in text or 'Signed {' in text or 'Front {' in text)
                continue
            if re.match(r'\s*let End::\w+\(\w+\) = \w+ else \{', line):
                put('1e', c.crate, c.file, i + 1, line.strip() + ' ' + nxt, 'End::' in nxt)
                continue
            m = re.match(r'\s*Came::(Cut|Failed) => \{', line)
            if m and nxt == 'return Came::%s;' % m.group(1):
                put('1e', c.crate, c.file, i + 1, 'Came::%s => { return Came::%s; }' % (m.group(1), m.group(1)))


title('1g', 'answers put in order by verdict::or_else (all are worked, the first refusal counts)')


def point_1_or_else(crates):
    for c in crates:
        for i, line in enumerate(c.lines):
            for _ in re.finditer(r'verdict::or_else\(', line):
                put('1g', c.crate, c.file, i + 1, line.strip())


title('1h', 'numbers for kinds and refusals: parameters and fields')
title('1i', 'numbers for kinds and refusals: results')
title('1j', 'numbers for kinds and refusals: comparisons with a literal')
CODES = re.compile(r'^(kind|bench|won|number)$')


def point_1_numbers(crates):
    for c in crates:
        for f in c.fns:
            for n, t in f.params:
                if n in ('kind', 'bench', 'won') and re.match(r'(&mut )?(u8|u32|usize)$', t):
                    put('1h', c.crate, c.file, f.line, '%s(%s: %s)' % (f.name, n, t))
                if n == 'count' and (c.crate, f.name) in (('front', 'read_front'), ('reading', 'held'), ('reading', 'read_into'), ('reading', 'read'),
                                                        ('records', 'records'), ('paths_pages', 'print_pairs')):
                    put('1h', c.crate, c.file, f.line, '%s(count: %s): 2, 3 or 4 records say which form, handed on' % (f.name, t))
                if n == 'number' and f.name == 'refused_line':
                    put('1h', c.crate, c.file, f.line, '%s(%s: %s): the number of a refusal' % (f.name, n, t))
                if n == 'count' and re.search(r'\bcount (==|>|<=) [23]\b', '\n'.join(f.body)):
                    put('1h', c.crate, c.file, f.line, '%s(count: %s): 2, 3 or 4 records say which form' % (f.name, t))
            text = ' '.join(x[2] for x in f.ensures)
            if f.ret == 'u32' and re.search(r'result ≡ (reason_)?number|number_of|NumberAnswer|LengthsAnswer', text) and f.crate != 'endian':
                put('1i', c.crate, c.file, f.line, '%s -> u32: the number of a refusal, 0 where accepted' % f.name)
            if f.name == 'kind_of' and f.ret in ('usize', 'u32', 'u8'):
                put('1i', c.crate, c.file, f.line, '%s -> %s: a kind of record' % (f.name, f.ret))
            for k, line in enumerate(f.body):
                for m in re.finditer(r'\b(kind|bench)\b (==|!=) (\d+|Layout::\w+)', line):
                    put('1j', c.crate, c.file, f.body_first + k, '%s: %s' % (f.name, m.group(0)))
                for m in re.finditer(r'\bcount (==|>|<=) [23]\b', line):
                    if any(n == 'count' for n, _ in f.params) and f.crate not in ('digits',):
                        put('1j', c.crate, c.file, f.body_first + k, '%s: %s (which form)' % (f.name, m.group(0)))
                for m in re.finditer(r'\*won = \d', line):
                    put('1j', c.crate, c.file, f.body_first + k, '%s: %s' % (f.name, m.group(0)))
        for s in c.structs + c.enums:
            for k, item in enumerate(s.items):
                if re.match(r'(bench|kind): (u8|u32|usize)$|Withdrawing\(u32\)', item):
                    put('1h', c.crate, c.file, s.line, '%s %s { %s }' % (s.kind, s.name, item))
        for i, line in enumerate(c.lines):
            m = re.match(r'\s*pub const (LONG|NAMES): usize = (\d+)', line)
            if m:
                put('1j', c.crate, c.file, i + 1, 'const %s = %s: a kind of record' % (m.group(1), m.group(2)))


title('1k', 'a place or a count that stands for "none" (Option<usize> by a value)')
NONE_BY_VALUE = {
    ('correcting', 'first_emptied'): 'edges where none',
    ('gaps', 'first_unseen'): 'edges where none',
    ('lengths', 'first_at_fault'): 'the count where none',
    ('long_lengths', 'first_out'): 'edges where none',
    ('long_writing', 'first_digit'): 'levels where none',
    ('tree', 'first_parent_out'): 'edges where none',
    ('tree', 'first_children_out'): 'vertices where none',
    ('name_keys', 'find_strain'): 'n where none',
    ('names', 'strain_of'): 'n where none',
    ('name_keys', 'no_strains'): '255 where no strain has the key',
    ('newick_words', 'name_end'): 'the place itself where none',
    ('newick_words', 'length_end'): 'the place itself where none',
    ('newick_words', 'edge_end'): 'the place itself where none',
    ('cells', 'decimal_size'): '0 where none',
    ('cells', 'cell_size'): '0 where none',
    ('phylip_lines', 'line_end_size'): '0 where none',
    ('phylip', 'strains_for'): '0 where too many',
    ('newick_write', 'strains'): 'one more than the most where too many',
    ('newick_fill', 'byte_of'): '255 where no byte holds it',
    ('desk_words', 'field'): '`above` where too large',
    ('digits', 'byte_at'): '0 behind the end',
    ('pages', 'print_by'): '0 where the buffer is too small',
    ('pages', 'unfitted_print'): '0 where the buffer is too small',
    ('long_pages', 'print_by'): '0 where the buffer is too small',
    ('newick_pages', 'newick_print'): '0 where the buffer is too small',
    ('paths_pages', 'paths_print'): '0 where the buffer is too small',
    ('programs', 'answer'): '0 where a read failed',
    ('long_programs', 'answer'): '0 where a read failed',
}


title('1m', 'a distance compared with Matrix::MISSING, the number that stands for "not measured" (Option<u16>; RULES has the number)')


def point_1_missing(crates):
    for c in crates:
        for i, line in enumerate(c.lines):
            if re.search(r'[=!]= Matrix::MISSING|entry: Matrix::MISSING', line):
                put('1m', c.crate, c.file, i + 1, line.strip())


def named(kind, table, crates, counted=True):
    """Places by name: a function that still stands counts."""
    for c in crates:
        for f in c.fns:
            why = table.get((c.crate, f.name))
            if why:
                put(kind, c.crate, c.file, f.line, '%s: %s' % (f.name, why), counted)


# ---------------------------------------------------------------- 2: twins

# Families of functions and types. True: its members differ only in a type, a size or a constant (a callee or a predicate that is one of a
# fixed few counts as a constant); False: looser kin, with other terms or a step more, shown and not counted. A member counts while it
# stands; a family counts while two of its members stand.
FAMILIES = [
    (True, 'a slice copied into a table of zeros (type, size)', ['lengths::copied', 'matrix::copied', 'tree::copied', 'shortest_run::held']),
    (True, 'a buffer filled from a table (type)', ['newick_read::put_parents', 'newick_read::put_numerators', 'tables::copy_out']),
    (True, 'an entry put where the table has room (type)', ['newick_fill::put_parent', 'newick_fill::put_numerator']),
    (True, 'the limits stated (constants)', ['lengths::stated_limits', 'matrix::stated_limits', 'tree::stated_limits', 'long_lengths::stated_levels']),
    (True, 'struct Limits (types)', ['lengths::Limits', 'matrix::Limits', 'tree::Limits']),
    (True, 'what a table has between a mask and a strain (which is first of the pair)', ['splits::before', 'splits::behind']),
    (True, 'numbers of a line into a table (type, reader)', ['desk_words::numbers', 'desk_words::numerators']),
    (True, 'struct {found, value, end} (type)', ['desk_words::Number', 'desk_words::Signed']),
    (True, 'struct Written {verdict, length} (nothing)', ['newick_write::Written', 'phylip_write::Written']),
    (True, 'struct {count, end} (nothing)', ['records::Walk', 'desk_words::Taken']),
    (True, 'struct {r, h} (nothing)', ['edge_numbers::Squared', 'fit_numbers::SquareSums']),
    (True, 'struct Pair {i, j} (nothing)', ['pairs::Pair', 'desk_tables::Pair']),
    (True, 'the pair behind another (the limit of the contract)', ['pairs::next_pair', 'desk_tables::next_pair']),
    (True, 'struct {desk, written} (nothing)', ['desk_calls::Turn', 'two_benches::Turned']),
    (True, 'struct of a check and what passed it (type)', ['matrix::Measured', 'tree::Planted', 'lengths::Proposed']),
    (True, 'a check, then its struct or zeros (type)', ['matrix::new', 'tree::new', 'lengths::new']),
    (True, 'a refusal with 0 beside it (type; three are the same)', ['names::refused', 'newick_write::unjudged', 'sheet_names::unlabelled', 'newick_sheet::untold']),
    (True, 'the lesser of two (nothing)', ['desk_calls::least', 'shortest::least']),
    (True, 'x as a wider number (type)', ['corrections::whole', 'fit_lines::whole', 'newick_tree::whole', 'endian::wide', 'figures::wide', 'name_keys::wide']),
    (True, '1 where a distance was measured (type)', ['correcting::count_of', 'keeping::one_of']),
    (True, 'by how much a correction moves (callee)', ['correcting::count_change', 'correcting::sum_change']),
    (True, '0 on the diagonal, else the entry of the pair (type)', ['inner_paths::apart', 'phylip_put::value']),
    (True, 'whether a count is not one of strains (type)', ['newick_survey::strains_out', 'phylip_survey::strains_out']),
    (True, 'where bytes of a kind end (predicate)', ['digits::blanks_end', 'digits::digits_end', 'names::name_end', 'desk_words::letters_end', 'cells::gap_end', 'desk_feed::feed_end']),
    (True, 'numbers from bytes into a table (width, type)', ['decoding::numerators_into', 'long_decoding::digits_into']),
    (True, 'numbers from bytes in a table of its own (width, type, size)', ['long_decoding::denominator_digits', 'desk_calls::distances_of']),
    (True, 'the number of n bytes (width, type)', ['endian::u32_at', 'endian::u64_at']),
    (True, 'two\'s complement (width, type)', ['endian::signed', 'endian::i32_at']),
    (True, 'an answer as its number (callee)', ['sheet::sheet_number', 'long_sheet::long_number', 'newick_read::newick_read', 'phylip_read::phylip_read']),
    (True, 'the answer as a number and the length beside it (arguments)', ['newick_write::newick_write', 'phylip_write::phylip_write']),
    (True, 'an entry for each rule (constant)', ['sheet::sheet_verdict', 'sheet::sheet_verdict0', 'long_sheet::long_verdict', 'long_sheet::long_verdict0',
                                                 'pages::sheet_print', 'pages::sheet_print0', 'long_pages::long_print', 'long_pages::long_print0']),
    (True, 'a print on a page, or nothing where it is too small (size, what is printed)', ['pages::print_by', 'pages::unfitted_print', 'long_pages::print_by',
                                                                                       'newick_pages::newick_print', 'paths_pages::paths_print']),
    (True, 'the verdict on lengths and on long lengths (types)', ['judging::judge', 'long_judging::judge_long']),
    (True, 'programs that only name a print or a rule (constant)', ['report::main', 'report0::main', 'resolved::main', 'long_report::main', 'long_report0::main']),
    (True, 'programs that read a sheet and print it (callee)', ['newick::main', 'pair_paths::main']),
    (True, 'programs that read an input and print their answer to it (callee)', ['newick_tree::main', 'phylip::main']),
    (True, 'a mark and a number behind it (mark, callee)', ['long_fields::short_field', 'newick_put::put_edge']),
    (True, 'programs that read all their input and go through it (callee)', ['corrections::main', 'desk_calls::main', 'figures::main']),
    (True, 'the whole of a program by a choice (type of the choice, sizes)', ['programs::show', 'long_programs::show']),
    (True, 'ok or the line of a refusal (nothing)', ['desk_answers::answer_line', 'desk_calls::line_of']),
    (True, 'a line for each edge (the values of a line)', ['fit_lines::edge_lines', 'fit_lines::fraction_lines', 'newick_tree::edge_lines']),
    (False, 'the line of an answer (another word where accepted)', ['corrections::answer_line', 'shortest_lines::answer_line']),
    (False, 'a line for each edge of a long fit', ['long_fit_lines::edge_lines', 'fit_lines::edge_lines']),
    (False, 'exports to C that only hand on (C wants each by its name)', [
        'sheet_c::sheet_verdict', 'sheet_c::sheet_verdict0', 'long_sheet_c::long_verdict', 'long_sheet_c::long_verdict0', 'pages_c::sheet_print', 'pages_c::sheet_print0',
        'pages_c::unfitted_print', 'long_pages_c::long_print', 'long_pages_c::long_print0', 'newick_pages_c::newick_print', 'paths_pages_c::paths_print',
        'direct_fit_c::resolved_lengths', 'newick_read_c::newick_read', 'newick_write_c::newick_write', 'phylip_read_c::phylip_read', 'phylip_write_c::phylip_write']),
    (False, 'the tables of a sheet taken apart and lent (ten lines alike)', ['sheet::sheet_judge', 'sheet::sheet_report', 'newick_sheet::fit_of', 'paths_pages::print_pairs',
                                                                        'unfitted_sheet::unfitted_fit']),
    (False, 'the digits of a long sheet taken apart and lent (nine lines alike)', ['long_prints::print_long', 'long_sheet::long_judge']),
    (False, 'a posting taken apart and lent', ['desk_benches::judged', 'desk_pairs::pairs_of', 'desk_report::numbers_of']),
    (False, 'the verdict beside a posting (one asks the signs too)', ['judging::judge_proposal', 'long_judging::judge_long_proposal']),
    (False, 'a refusal with zeros everywhere (other fields)', ['front::refused', 'reading::unread', 'reading::refused', 'long_reading::refused', 'records::refused', 'newick_survey::refused',
                                                           'newick_sheet::unfitted', 'reporting::silent', 'sheet::unfitted', 'unfitted_sheet::refused', 'matrix::unread']),
    (False, 'what was read printed, or nothing (two arms, three arms)', ['programs::answer', 'long_programs::answer']),
    (False, 'a sum over the strains of a mask (other terms)', ['splits::rows_between', 'meeting::carry', 'meeting::row', 'meeting::join']),
    (False, 'two masks put in the order that takes fewer rows (four lines alike)', ['meeting::meet', 'splits::crossed']),
    (False, 'write: check, then put (other arguments)', ['newick_write::write', 'phylip_write::write']),
    (False, 'a sheet with fewer fields', ['reading::Outline', 'reading::Sheet', 'front::Front', 'reading::Proposal']),
    (False, 'an enum of what a pass asks, its fault, its first', ['balancing::Pass', 'lengths::Ask', 'long_lengths::Find', 'balancing::at_fault', 'lengths::at_fault', 'long_lengths::is_found',
                                                              'balancing::pass_over', 'lengths::first_at_fault', 'long_lengths::some_digit']),
    (False, 'a loop over levels, each a slice from `at` on', ['long_levels::total_levels', 'long_levels::f_levels', 'long_sums::long_sums', 'long_sums::long_tops']),
    (False, 'a loop over levels, entry by entry', ['long_levels::times_levels', 'long_levels::negated']),
    (False, 'a number in digits by Horner, cut off', ['long_lengths::compare', 'long_numbers::sign']),
    (False, 'columns of a triangle, one behind the other', ['decoding::distances_into', 'phylip_grid::take_distances', 'splits::totals', 'decoding::column', 'phylip_grid::column', 'splits::add_row']),
    (False, 'its own table filled by the `_into` of it', ['inner_paths::inner_paths', 'reading::read', 'decoding::numerators']),
    (False, 'F, R, H by edges and by pairs', ['edge_numbers::square_sums', 'fit_numbers::squares_by_pairs', 'fit_numbers::sum_squares', 'edge_numbers::numbers', 'fit_numbers::figures']),
    (False, 'the remainder of a pair (other paths)', ['fit_numbers::remainder', 'meeting::remainder_by_ways']),
    (False, 'sums over pairs by next_pair', ['fit_numbers::sum_f', 'fit_numbers::sum_x']),
    (False, 'room for other than so many', ['newick_read::room_out', 'phylip_read::room_out']),
    (False, 'a reader into two buffers', ['newick_read::read', 'phylip_read::read']),
    (False, 'the length of an outer and of an inner edge', ['edge_lengths::outer_length', 'edge_lengths::inner_length']),
]
title('2a', 'functions that are a table of one value, `[0; N]` (zeros, room, page)')
title('2b', 'other families of twins: members that differ only in a type, a size or a constant')
title('2c', 'looser kin: same steps with other callees, terms or a step more (not counted)')
title('2e', 'constants of one number that stand twice under one name')
title('2d', 'groups of functions with one normalised body (found by pattern; a check of 2a to 2c, not counted)')


def point_2(crates):
    fns, types, consts = {}, {}, {}
    for c in crates:
        for f in c.fns:
            fns.setdefault('%s::%s' % (c.crate, f.name), (c, f.line))
            body = [x.strip() for x in f.body if x.strip()]
            if len(body) == 1 and re.match(r'\[-?\w+; [\w:+ -]+\]$', body[0]) and not f.params:
                put('2a', c.crate, c.file, f.line, '%s() -> %s = %s' % (f.name, f.ret, body[0]))
        for s in c.structs + c.enums:
            types['%s::%s' % (c.crate, s.name)] = (c, s.line)
        for i, line in enumerate(c.lines):
            m = re.match(r'\s*(?:pub )?const (\w+): \w+ = (.*)', line)
            if m:
                consts['%s::%s' % (c.crate, m.group(1))] = (c, i + 1, m.group(2))
    number = 0
    for strict, what, members in FAMILIES:
        found = [(m, fns.get(m) or types.get(m)) for m in members if fns.get(m) or types.get(m)]
        if len(found) < 2:
            continue
        number += 1
        for m, (c, line) in found:
            put('2b' if strict else '2c', c.crate, c.file, line, '[%d: %s] %s' % (number, what, m), strict)
    twice = {}
    for k in sorted(consts):
        c, line, value = consts[k]
        if re.match(r'[\d_]+;', value):
            twice.setdefault((k.split('::')[1], value), []).append((c, line))
    for (n, value), where in sorted(twice.items()):
        if len(where) > 1:
            for c, line in where:
                put('2e', c.crate, c.file, line, 'const %s = %s' % (n, value))
    # the pattern: names of locals, callees, types, constants and numbers are taken out of a body
    groups = {}
    for c in crates:
        for f in c.fns:
            body = ' '.join(x.strip() for x in f.body if x.strip())
            if not body or len([x for x in f.body if x.strip()]) < 2:
                continue
            groups.setdefault(shape(body), []).append((c, f))
    n = 0
    for k in sorted(groups, key=lambda k: (groups[k][0][0].crate, groups[k][0][1].line)):
        if len(groups[k]) < 2:
            continue
        n += 1
        for c, f in groups[k]:
            put('2d', c.crate, c.file, f.line, '[group %d] %s' % (n, f.name), False)


KEYWORDS = set('let mut if else while match return for in as true false loop'.split())


def shape(body):
    """A body with its own names taken out: what is left tells twins."""
    text = re.sub(r'b?"(\\.|[^"\\])*"', 'S', body)
    text = re.sub(r"b?'(\\.|[^\\'])'", 'N', text)
    text = re.sub(r'\b(\w+)::(\w+)\b(?!\()', lambda m: 'K', text)
    names, out = {}, []
    # every callee is F, by whatever path; a struct's literal is C
    text = re.sub(r'\b(?!if\b|while\b|match\b|return\b)(\w+::)?[a-z]\w*\(', r'F(', text)
    text = re.sub(r'\b[A-Z][a-z]\w* \{', 'C {', text)
    for t in re.findall(r'\w+|[^\w\s]', text):
        if t in KEYWORDS:
            out.append(t)
        elif re.match(r'\d', t):
            out.append('N')
        elif re.match(r'(u|i)(8|16|32|64|size)$', t):
            out.append('T')
        elif re.match(r'[A-Z_0-9]+$', t):
            out.append('K')
        elif re.match(r'\w', t):
            out.append(names.setdefault(t, 'v%d' % len(names)))
        else:
            out.append(t)
    return ' '.join(out)


# ---------------------------------------------------------------- 3: loops

title('3a', '`while` with a step up by one')
title('3b', '`while` with a step down by one')
title('3c', '`while` over pairs by next_pair')
title('3d', '`while` over the bits of a mask (lowest_strain)')
title('3e', 'other `while` and `loop`: an index or a cursor moved by more than one')
title('3f', 'other `while` that no index drives (Euclid, halving, a climb): does not count')
title('3g', 'among 3a to 3d: a second index or cursor kept beside (at, first, next, end, i/j)')


def point_3(crates):
    for c in crates:
        for f in c.fns:
            for k, line in enumerate(f.body):
                m = re.match(r'(\s*)(while (.*)|loop) \{$', line)
                if not m:
                    continue
                indent, cond = m.group(1), m.group(3) or ''
                block = []
                for x in f.body[k + 1:]:
                    if x.startswith(indent + '}'):
                        break
                    block.append(x)
                text = '\n'.join(block)
                words = set(re.findall(r'\w+', cond))
                up = [v for v in re.findall(r'^\s*(\w+) \+= 1;', text, re.M) if v in words]
                down = [v for v in re.findall(r'^\s*(\w+) -= 1;', text, re.M) if v in words]
                moved = []
                for v in re.findall(r'^\s*(\w+) (?:\+=|-=|=) ', text, re.M):
                    if v not in moved and v not in up and v not in down:
                        moved.append(v)
                cursors = [v for v in moved if v in ('at', 'first', 'next', 'end', 'from', 'left', 'i', 'j', 'row', 'count')]
                if re.search(r'next_pair\(', text) and not up:
                    kind = '3c'
                elif 'lowest_strain(' in text:
                    kind = '3d'
                elif up:
                    kind = '3a'
                elif down:
                    kind = '3b'
                elif [v for v in moved if v in words and v in ('at', 'end', 'first', 'left', 'count', 'low', 'high')] and 'low + 1 < high' not in cond \
                        or m.group(2) == 'loop':
                    kind = '3e'
                else:
                    kind = '3f'
                what = use_of(text, up or down)
                note = '%s: %s%s%s' % (f.name, m.group(2), ' [%s]' % what if kind in ('3a', '3b') else '',
                                       ' beside: ' + ', '.join(moved) if moved else '')
                put(kind, c.crate, c.file, f.body_first + k, note, kind != '3f')
                if kind in ('3a', '3b') and cursors or kind == '3a' and 'next_pair(' in text:
                    put('3g', c.crate, c.file, f.body_first + k, '%s: %s' % (f.name, ', '.join(cursors)), False)


def use_of(text, step):
    """What a counted loop does, by its text."""
    if re.search(r'return (true|false);', text):
        return 'any or all'
    if step and re.search(r'return %s( - 1)?;' % step[0], text):
        return 'find'
    if re.search(r'^\s*(next|end) = [\w:]+\(\s*(text|$)', text, re.M):
        return 'write one behind the other'
    lines = [x.strip() for x in text.split('\n') if x.strip()]
    rest = [x for x in lines if not (step and re.match(r'%s [+-]= 1;' % step[0], x))]
    if len(rest) == 1 and re.match(r'\w+\[[^\]]*\] = \w+\[[^\]]*\];$', rest[0]):
        return 'copy'
    if any(re.match(r'\w+\[.*\] (\+=|=) ', x) for x in lines):
        return 'fill'
    if any(re.match(r'(\w+) (\+=|-=|=) ', x) for x in rest):
        return 'fold'
    if 'return' in text:
        return 'until'
    return 'for each'


# ---------------------------------------------------------------- 4: by hand

title('4a', 'equality by hand')
EQUALITY = {
    ('digits', 'same'): '`==` of two slices',
    ('comparison', 'same_rows'): '`==` of two slices, two bytes at a time',
    ('long_lengths', 'is_zero'): 'all entries 0',
    ('cells', 'is_missing'): 'starts with `-1`',
    ('newick_form', 'count_is'): 'a count of a byte compared',
    ('newick_survey', 'unused'): 'contains 0',
    ('phylip_grid', 'row_off'): 'a row compared with a column',
    ('phylip_grid', 'halves_off'): 'the same for all rows',
}
title('4b', 'order by hand: min, max, clamp, saturating, sort of two')
ORDER = {
    ('comparison', 'less'): 'order of two fractions (Ord)',
    ('desk_calls', 'least'): 'min',
    ('shortest', 'least'): 'min',
    ('corrections', 'sheet_end'): 'min of what a length says and the end',
    ('figures', 'length_at'): 'min of what a length says and what is left',
    ('newick_tree', 'record_end'): 'min of what a length says and the end',
    ('digits', 'longer'): 'min(MOST)',
    ('long_sums', 'next_digit'): 'clamp(-MOST, MOST)',
    ('mean', 'left'): 'saturating_sub',
    ('newick_fill', 'byte_of'): 'min(255) as u8',
    ('newick_write', 'strains'): 'min(most + 1) as u32',
    ('desk_words', 'field'): 'number or `above`: min where above is most + 1 or most',
    ('moving', 'ordered'): 'min and max',
    ('matrix', 'pair_place'): 'min and max',
    ('name_keys', 'first_strains'): 'min into a table (`if strain < firsts[key]`)',
    ('long_lengths', 'compare'): 'a number whose sign alone counts: Ordering',
    ('long_numbers', 'sign'): 'a number whose sign alone counts: Ordering',
    ('long_rounding', 'reach'): 'a number whose sign alone counts: Ordering',
    ('edge_lengths', 'edge_length'): None,
    ('meeting', 'meet'): 'swap of two by an if',
    ('splits', 'crossed'): 'swap of two by an if',
}
title('4c', 'ranges and classes of bytes by ifs')
RANGES = {
    ('digits', 'is_digit'): 'is_ascii_digit',
    ('digits', 'is_blank'): 'matches!(32 | 9)',
    ('names', 'is_letter'): 'is_ascii_alphabetic',
    ('names', 'is_name_byte'): 'digit, letter or _',
    ('phylip_rows', 'name_out'): '!(32..=126).contains',
    ('cells', 'in_gap'): 'matches!',
    ('newick_survey', 'strains_out'): '!(3..=64).contains',
    ('phylip_survey', 'strains_out'): '!(3..=64).contains',
    ('tree', 'count_out'): '!(needed..=needed + spare).contains',
    ('desk', 'no_bench'): 'not 1 or 2',
    ('phylip_lines', 'line_end_size'): 'match of two bytes',
    ('digits', 'digit'): 'to_digit',
}
title('4d', '`&&` and `||` by early returns (fn -> bool without a loop that has `return true;` or `return false;`)')
title('4e', 'slices copied in a loop')
title('4f', 'conversion: a function that is only `x as T`')
title('4g', 'conversion and sign by hand')
CONVERT = {
    ('arithmetic', 'magnitude'): 'unsigned_abs',
    ('arithmetic', 'accumulate'): 'wrapping_add_signed',
    ('arithmetic', 'thousandths'): 'sign put back (signum)',
    ('arithmetic', 'lowest'): 'sign put back (signum)',
    ('desk_words', 'numerator'): 'sign put back',
    ('newick_words', 'length_at'): 'sign put back',
    ('edge_numbers', 'product'): 'wrapping_mul',
    ('edge_numbers', 'gather'): 'wrapping_add of a signed product',
    ('long_carrying', 'lifted'): 'wrapping / checked add of a signed number',
    ('long_carrying', 'parted'): 'div_euclid, rem_euclid by a lift',
    ('endian', 'u16_at'): 'from_le_bytes',
    ('endian', 'u32_at'): 'from_le_bytes',
    ('endian', 'u64_at'): 'from_le_bytes',
    ('endian', 'i64_at'): 'from_le_bytes',
    ('endian', 'i32_at'): 'from_le_bytes',
    ('endian', 'signed'): 'u64 as i64 (two\'s complement)',
    ('figures', 'length_at'): 'from_le_bytes of three bytes',
    ('correcting', 'count_of'): 'bool as i64',
    ('correcting', 'distance_of'): 'Option<u16> or 0',
    ('keeping', 'one_of'): 'bool as u16',
    ('gaps', 'bit_of'): 'bool as u64 << i',
    ('digits', 'byte_at'): 'get(k).unwrap_or(0)',
    ('desk_posts', 'word'): 'u32::try_from(..).unwrap_or(MAX)',
    ('clusters', 'strains_below'): 'only u64::count_ones',
    ('newick_words', 'minus_size'): 'bool as usize',
    ('desk_feed', 'without_cr'): 'strip_suffix of CR',
    ('newick_fill', 'put_parent'): 'if let Some(..) = get_mut(..)',
    ('newick_fill', 'put_numerator'): 'if let Some(..) = get_mut(..)',
    ('inner_paths', 'apart'): '0 on the diagonal, else a lookup',
    ('phylip_put', 'value'): '0 on the diagonal, else a lookup',
    ('phylip_grid', 'due'): '0 on the diagonal, else a lookup',
}
title('4h', 'printing and reading of numbers by hand')
PRINT = {
    ('writing', 'put'): 'one byte (push)',
    ('writing', 'put_word'): 'extend_from_slice',
    ('writing', 'put_number'): 'Display of u64',
    ('writing', 'put_signed'): 'Display of i64',
    ('long_writing', 'put_six'): '{:06}',
    ('long_writing', 'put_sixes'): '{:06} each',
    ('long_writing', 'put_digits'): 'Display of a number in digits',
    ('newick_put', 'put_thousandths'): '{}.{:03}',
    ('newick_put', 'put_length'): 'Display with a minus',
    ('phylip_put', 'put_cell'): '{}.{:04} or -1',
    ('lines', 'fields'): 'Display of a list, a space before each',
    ('lines', 'named'): 'a word and a number',
    ('long_fields', 'field'): 'a minus, then digits',
    ('labels', 'numbers'): 'the decimals of 0 to 63 written out',
    ('digits', 'number'): 'str::parse, cut',
    ('newick_words', 'digits_at'): 'str::parse, cut',
    ('cells', 'decimal'): 'parse of a decimal',
    ('cells', 'scaled'): 'zeros put behind a number',
    ('desk_words', 'digits_at'): 'str::parse of a word',
    ('desk_words', 'signed_at'): 'str::parse of a signed word',
}
title('4i', 'text or number of an enum by a match, and an enum by its text')
ENUM_TEXT = {
    ('verdict', 'reason_number'): '29 arms: the number of a Reason (a discriminant)',
    ('verdict', 'number'): 'the number of a Verdict',
    ('lines', 'place_fields'): 'the text of a Place',
    ('lines', 'mean_line'): 'the text of a Mean',
    ('long_lines', 'mean_line'): 'the text of a LongMean',
    ('fit_lines', 'fit_line'): 'the word of a Rule',
    ('long_lines', 'rule_word'): 'the word of a Rule',
    ('desk_heads', 'kind_of'): 'a Kind by its word (six comparisons)',
    ('desk_meaning', 'read_line'): 'a Line by its Kind',
    ('balancing', 'reason_of'): 'the Reason of a Pass',
    ('records', 'kind_of'): 'the kind of record k',
    ('answer_lines', 'report_text'): 'the text of a report or a refusal',
    ('answer_lines', 'direct_text'): 'the text of a fit or a refusal',
    ('corrections', 'answer_line'): 'the text of a Verdict',
    ('desk_answers', 'answer_line'): 'the text of a Verdict',
    ('desk_calls', 'line_of'): 'the text of a Verdict',
    ('shortest_lines', 'answer_line'): 'the text of a Verdict',
    ('long_prints', 'print_lengths'): 'the text of a report or a refusal',
}
title('4j', 'calls of digits::same, of digits::byte_at, of lines::refused_line, and `as` casts (for scale, not counted)')
title('4k', 'a field copied into a local of its name (`let x = y.x;`; for scale, not counted)')


def point_4(crates):
    for kind, table in (('4a', EQUALITY), ('4b', ORDER), ('4c', RANGES), ('4g', CONVERT), ('4h', PRINT), ('4i', ENUM_TEXT)):
        named(kind, {k: v for k, v in table.items() if v}, crates)
    for c in crates:
        for f in c.fns:
            body = '\n'.join(f.body)
            key = (c.crate, f.name)
            if f.ret == 'bool' and not re.search(r'\b(while|loop|for)\b', body) and re.search(r'return (true|false);', body):
                if key in RANGES or key in EQUALITY or key in ORDER:
                    put('4d', c.crate, c.file, f.line, f.name + ': is in 4a to 4c already', False)
                elif f.name in ('say_unless', 'read', 'is_text'):
                    put('4d', c.crate, c.file, f.line, f.name + ': tests in turn, no logic of two', f.name != 'say_unless')
                else:
                    put('4d', c.crate, c.file, f.line, f.name)
            elif f.ret == 'bool' and key == ('cells', 'either'):
                put('4d', c.crate, c.file, f.line, f.name)
            lines = [x.strip() for x in f.body if x.strip()]
            if len(lines) == 1 and len(f.params) == 1 and re.match(r'%s as \w+$' % f.params[0][0], lines[0]):
                put('4f', c.crate, c.file, f.line, '%s(%s: %s) -> %s' % (f.name, f.params[0][0], f.params[0][1], f.ret))
            for k, line in enumerate(f.body):
                m = re.match(r'(\s*)while .* \{$', line)
                if m:
                    block = []
                    for x in f.body[k + 1:]:
                        if x.startswith(m.group(1) + '}'):
                            break
                        block.append(x.strip())
                    block = [x for x in block if x]
                    if len(block) == 2 and re.match(r'\w+ \+= 1;', block[1]) and \
                            re.match(r'\w+\[[^\]]*\] = (\w+\[[^\]]*\])( as \w+)?;$', block[0]):
                        # a matrix read across (a stride) is no slice
                        stride = ' * ' in block[0]
                        put('4e', c.crate, c.file, f.body_first + k, '%s: %s%s' % (f.name, block[0], ' (a stride: no slice)' if stride else ''), not stride)
    counts = {}
    for c in crates:
        text = '\n'.join(c.lines)
        for n, pat in (('digits::same(', r'digits::same\('), ('digits::byte_at(', r'\bbyte_at\('), ('lines::refused_line(', r'lines::refused_line\('),
                       (' as T', r' as (u|i)(8|16|32|64|size)\b')):
            for i, line in enumerate(c.lines):
                for _ in re.finditer(pat, line):
                    if not re.match(r'\s*(pub )?fn ', line):
                        put('4j', c.crate, c.file, i + 1, n, False)
        for i, line in enumerate(c.lines):
            if re.match(r'\s*let (mut )?(\w+) = \w+\.\2;', line):
                put('4k', c.crate, c.file, i + 1, line.strip(), False)


# ---------------------------------------------------------------- 5: facts, groups of parameters, clauses

title('5a', 'groups of 3 or more parameters that stand together in 3 or more signatures (closed groups, by name)')
title('5b', 'requires clauses that stand word for word in 3 or more functions')
title('5c', 'facts (parts of a requires joined by ×) that stand in the requires of 3 or more functions')
title('5d', 'facts that stand in the ensures of 3 or more functions')
title('5f', 'facts of 5c by shape (names put aside, kinds of types in place) that stand in the requires of 3 or more functions')
title('5g', 'the widest groups of 5a: no wider group stands in 3 signatures')
title('5e', 'signatures with 3 or more of such parameters (members of some group of 5a)')


def plain(text):
    """A clause in one spelling: `.old` of a lent buffer and `.now` are one, spaces squeezed."""
    return re.sub(r'\s+', ' ', text.replace('.old', '.now')).strip()


def parts(clause):
    """The facts of a clause: split at × where it stands in no bracket and behind no arrow."""
    clause = plain(clause)
    if split_top(clause, '→') != [clause]:
        return [clause]
    out = []
    for p in split_top(clause, '×'):
        while p.startswith('(') and p.endswith(')') and balanced(p[1:-1]):
            p = p[1:-1].strip()
        if '×' in p and split_top(p, '×') != [p] and split_top(p, '→') == [p]:
            out += parts(p)
        else:
            out.append(p)
    return out


def balanced(text):
    depth = 0
    for ch in text:
        depth += {'(': 1, ')': -1}.get(ch, 0)
        if depth < 0:
            return False
    return depth == 0


def coarse(t):
    """A type by its kind: any whole number, any slice or table, else itself."""
    t = t.replace('&mut ', '').replace('&', '')
    if re.match(r'[ui](8|16|32|64|size)$', t):
        return 'int'
    if t.startswith('['):
        return '[%s]' % re.match(r'\[(\w+)', t).group(1)
    return t


def groups_of(crates):
    """Closed groups: sets of parameters (name, kind of type) that are all that some signatures share, 3 and 3 or more."""
    sigs = [(c, f, frozenset((n, coarse(t)) for n, t in f.params)) for c in crates for f in c.fns if len(f.params) >= 3]
    closed, fresh = set(), {s for _, _, s in sigs}
    while fresh:
        nxt = set()
        for a in fresh:
            for _, _, s in sigs:
                x = a & s
                if len(x) >= 3 and x not in closed and x not in fresh:
                    nxt.add(x)
        closed |= fresh
        fresh = nxt
    out = []
    for g in closed:
        who = [(c, f) for c, f, s in sigs if g <= s]
        if len(g) >= 3 and len(who) >= 3:
            out.append((g, who))
    return sigs, sorted(out, key=lambda x: (-len(x[1]), -len(x[0]), sorted(x[0])))


def in_order(group, who):
    f = who[0][1]
    return ', '.join('%s: [..]' % n if coarse(t).startswith('[') and n == 'd' else n for n, t in f.params if (n, coarse(t)) in group)


def by_shape(fact, f):
    """A fact with the function's own names put aside: what is left says which kinds of values it is about."""
    kinds = {n: coarse(t) for n, t in f.params}
    out = re.sub(r'\w+', lambda m: '<%s>' % kinds[m.group(0)] if m.group(0) in kinds else m.group(0), fact)
    return out.replace('.now', '').replace('.new', '')


def point_5(crates):
    _, groups = groups_of(crates)
    inside = set()
    for g, who in groups:
        c, f = who[0]
        names = sorted({'%s::%s' % (x.crate, y.name) for x, y in who})
        put('5a', c.crate, c.file, f.line, '(%s) in %d signatures: %s' % (in_order(g, who), len(who), ' '.join(names)))
        if not any(g < h for h, _ in groups):
            put('5g', c.crate, c.file, f.line, '(%s) in %d signatures' % (in_order(g, who), len(who)), False)
        for x, y in who:
            inside.add((x.crate, x.file, y.line, y.name, len(y.params)))
    for x in sorted(inside):
        put('5e', x[0], x[1], x[2], '%s, %d parameters' % (x[3], x[4]), False)
    for kind, get in (('5b', lambda f: [plain(t) for _, _, t in f.requires]),
                      ('5c', lambda f: [p for _, _, t in f.requires for p in parts(t)]),
                      ('5d', lambda f: [p for _, _, t in f.ensures for p in parts(t)]),
                      ('5f', lambda f: [by_shape(p, f) for _, _, t in f.requires for p in parts(t)])):
        table = {}
        for c in crates:
            for f in c.fns:
                for t in sorted(set(get(f))):
                    table.setdefault(t, []).append((c, f))
        for t in sorted(table, key=lambda t: (-len(table[t]), t)):
            if len(table[t]) >= 3:
                c, f = table[t][0]
                put(kind, c.crate, c.file, f.line, '%d functions in %d crates: %s' %
                    (len(table[t]), len({x.crate for x, _ in table[t]}), t))


# ---------------------------------------------------------------- 6: buffers, parallel arrays, arenas

title('6a', 'structs with a length beside an array')
LENGTHS = re.compile(r'^(n|edges|pairs|length|count|strains|levels): (usize|u32|u64)$')
NO_LENGTH = {
    ('records', 'Layout'): 'one array',
    ('desk', 'Bench'): 'its length is the posting\'s edges',
}
title('6b', 'structs with parallel arrays (two or more of one length)')
title('6c', 'structs that have a count of a buffer that was lent (the buffer is elsewhere)')
COUNTS = {
    ('desk_posts', 'Post'): 'pairs and edges of lent tables',
    ('desk_posts', 'Front'): 'pairs of a lent table',
    ('desk_posts', 'Back'): 'edges of a lent table',
    ('desk_lines', 'Propose'): 'count of a lent table',
    ('desk_words', 'Taken'): 'count of a lent table',
    ('streams', 'Taken'): 'count of a lent buffer',
    ('desk_answers', 'Told'): 'length on a lent page',
    ('newick_write', 'Written'): 'length of a lent text',
    ('phylip_write', 'Written'): 'length of a lent text',
    ('shortest_run', 'Answered'): 'end on a lent text',
    ('front', 'Front'): 'pairs of a lent table; parents and end among the sheet\'s bytes',
    ('reading', 'Outline'): 'pairs and edges of lent tables; parents and end among the sheet\'s bytes',
    ('phylip_survey', 'Survey'): 'strains of a lent grid and table',
    ('two_benches', 'Rest'): 'count of a lent space',
    ('two_benches', 'Left'): 'the first byte that is not answered in a lent space',
}
title('6d', 'parameter pairs: a text or bytes and a place in it')
title('6e', 'parameter pairs: a table and how many of it count')
CURSORS = {('text', 'at'), ('line', 'at'), ('s', 'at'), ('list', 'at'), ('text', 'from'), ('s', 'from'), ('names', 'from'), ('space', 'from'), ('names', 'start'),
           ('names', 'first')}
# a length, and the tables of which it says how many entries count
BESIDE = {
    'edges': ('parents', 'numerators', 'lengths', 'x', 'y', 'sums', 'counts', 'splits', 'table', 'own', 'from', 'to', 'taken', 'level', 'tops'),
    'k': ('numerators', 'rounded', 'tops', 'bottoms', 'parents', 'thousandths'),
    'levels': ('digits', 'd', 'f', 'over', 'total'),
    'count': ('distances', 'held', 'space', 'text', 'into', 'rest'),
    'pairs': ('distances', 's', 'rest'),
    'n': ('names', 'starts', 'grid'),
}
BESIDE_NOT = {
    # the name means something else there: a count of records, of a byte, of children; or the length itself is what is tested
    ('newick_form', 'count_is'), ('paths_pages', 'print_pairs'), ('front', 'posted'), ('front', 'read_front'), ('reading', 'held'), ('reading', 'read_into'),
    ('neighbours', 'child'), ('lengths', 'new'), ('lengths', 'check_lengths'),
}
title('6i', 'parameter pairs: n beside distances (a matrix in two)')
title('6f', 'flat tables of two indices by arithmetic (`a * n + b`, triangles)')
FLAT = {
    ('matrix', 'place'): 'triangle by strains',
    ('matrix', 'pair_place'): 'triangle by strains',
    ('matrix', 'row_place'): 'triangle by rows',
    ('matrix', 'row_below'): 'triangle by rows, next row',
    ('inner_paths', 'apart'): 'triangle of inner vertices',
    ('inner_paths', 'reach'): 'triangle of inner vertices',
    ('neighbours', 'child'): '3 * w + k',
    ('neighbours', 'child_table'): '3 * p + k',
    ('phylip_grid', 'due'): '64 * j + i',
    ('phylip_grid', 'row_off'): '64 * i + j',
    ('phylip_grid', 'column'): '64 * i + j',
    ('phylip_rows', 'row'): '64 * i, 10 * i',
    ('phylip_put', 'put_row'): '10 * i',
    ('long_lengths', 'compare'): 'k * edges + v',
    ('long_lengths', 'some_digit'): 'k * edges + v',
    ('long_fields', 'magnitudes'): 'k * edges + v',
    ('long_levels', 'total_levels'): 'levels from `at` on',
    ('long_levels', 'f_levels'): 'levels from `at` on',
    ('long_sums', 'long_sums'): 'levels from `at` on',
    ('long_sums', 'long_tops'): 'levels from `at` on',
    ('decoding', 'column'): 'triangle by rows into triangle by strains',
    ('splits', 'add_row'): 'triangle by strains, first + i',
}
title('6g', 'lists searched by hand')
SEARCHED = {
    ('names', 'strain_of'): 'linear, names one behind the other',
    ('name_keys', 'find_strain'): 'a table of keys (a hash table by hand), then linear',
    ('name_keys', 'first_strains'): 'makes that table',
    ('names', 'names_out'): 'known keys (a set by hand)',
    ('names', 'key_of'): 'the hash',
    ('long_rounding', 'greatest'): 'halving (partition_point) over numbers; no list, and the only search by halving',
    ('correcting', 'first_emptied'): 'position',
    ('lengths', 'first_at_fault'): 'position',
    ('long_lengths', 'first_out'): 'position',
    ('long_writing', 'first_digit'): 'position',
    ('tree', 'first_parent_out'): 'position',
    ('tree', 'first_children_out'): 'position',
    ('gaps', 'first_unseen'): 'position',
    ('newick_survey', 'unused'): 'contains',
    ('phylip_write', 'name_byte_out'): 'any',
    ('long_lengths', 'too_high'): 'any',
    ('newick_put', 'put_vertex'): 'the children of a vertex by going through all parents',
}
title('6h', 'arenas of indices: parameters that are a tree or links as a table of indices')


def point_6(crates):
    for c in crates:
        for s in c.structs:
            arrays = [x for x in s.items if re.match(r'\w+: \[', x)]
            lens = [x for x in s.items if LENGTHS.match(x)]
            if arrays and lens and (c.crate, s.name) not in NO_LENGTH:
                put('6a', c.crate, c.file, s.line, 'struct %s { %s | %s }' % (s.name, '; '.join(lens), '; '.join(arrays)))
            elif (c.crate, s.name) in NO_LENGTH or [x for x in s.items if x.endswith(': FitReport')] and arrays:
                put('6a', c.crate, c.file, s.line, 'struct %s { .. | %s }: %s' % (s.name, '; '.join(arrays), NO_LENGTH.get((c.crate, s.name), 'its length is the report\'s edges')),
                    (c.crate, s.name) != ('records', 'Layout'))
            sizes = {}
            for a in arrays:
                sizes.setdefault(re.search(r'; (.*)\]', a).group(1), []).append(a)
            for size in sorted(sizes):
                if len(sizes[size]) > 1:
                    put('6b', c.crate, c.file, s.line, 'struct %s { %s }' % (s.name, '; '.join(sizes[size])))
            if (c.crate, s.name) in COUNTS:
                put('6c', c.crate, c.file, s.line, 'struct %s: %s' % (s.name, COUNTS[(c.crate, s.name)]))
        for f in c.fns:
            p = dict(f.params)
            buffers = [n for n in ('text', 'line', 's', 'list', 'names', 'space') if n in p and re.match(r'&(mut )?\[u8', p[n])]
            places = [n for n in ('at', 'from', 'start', 'first', 'k') if p.get(n) == 'usize']
            pairs = [(x, y) for x in buffers for y in places if (x, y) in CURSORS]
            # `from` is a place in the text only where no other bytes are lent beside it, and no level
            if ('text', 'from') in pairs and (len(buffers) > 1 or 'levels' in p):
                pairs.remove(('text', 'from'))
            if (c.crate, f.name) in (('digits', 'byte_at'), ('figures', 'blank')):
                pairs.append(('text', 'k'))
            if pairs:
                put('6d', c.crate, c.file, f.line, '%s%s' % (f.name, ' '.join('(%s, %s)' % x for x in pairs)))
            for length in BESIDE:
                if p.get(length) in ('usize', 'u32') and (c.crate, f.name) not in BESIDE_NOT:
                    hit = [t for t in BESIDE[length] if t in p and re.search(r'\[', p[t])]
                    if hit:
                        put('6e', c.crate, c.file, f.line, '%s(%s beside %s)' % (f.name, length, ', '.join(hit)))
            if p.get('n') in ('usize', 'u32') and 'distances' in p:
                put('6i', c.crate, c.file, f.line, '%s(n, distances)' % f.name)
            links = [n for n, t in f.params if n in ('parents', 'children', 'starts', 'firsts') and re.match(r'&(mut )?\[(u8|usize)', t)]
            if links:
                put('6h', c.crate, c.file, f.line, '%s(%s)' % (f.name, ', '.join(links)))
    named('6f', FLAT, crates)
    named('6g', SEARCHED, crates)


# ---------------------------------------------------------------- 7: a switch on the step

title('7a', 'an enum handed in that only says which step a loop or a pass runs')
title('7b', 'an enum handed in and matched on (which print, which rule, which view)')
title('7c', 'an enum handed on unchanged to the one that matches (carriers)')
title('7d', 'a bool handed in that says which step runs')
title('7e', 'a number handed in that says which step runs (kind, bench, count of records, spare)')
title('7f', 'tables of functions, fn pointers, dyn')
STEP = {'Ask', 'Pass', 'Find'}


def point_7(crates):
    units = {}
    for c in crates:
        for e in c.enums:
            if len(e.items) > 1 and not any('(' in x for x in e.items):
                units[e.name] = c.crate
    for c in crates:
        for f in c.fns:
            body = '\n'.join(f.body)
            for n, t in f.params:
                if t in units and t not in ('Reason', 'Came'):
                    matched = re.search(r'match %s \{' % n, body)
                    if t in STEP:
                        put('7a', c.crate, c.file, f.line, '%s(%s: %s)%s' % (f.name, n, t, ' matches' if matched else ' hands on'))
                    elif matched:
                        put('7b', c.crate, c.file, f.line, '%s(%s: %s)' % (f.name, n, t))
                    else:
                        put('7c', c.crate, c.file, f.line, '%s(%s: %s)' % (f.name, n, t), False)
                if t == 'bool' and re.search(r'if !?%s \{' % n, body):
                    why = {'either': 'no step: logic', 'test': 'no step: the test itself', 'say_unless': 'no step: a report'}.get(f.name)
                    put('7d', c.crate, c.file, f.line, '%s(%s: bool)%s' % (f.name, n, ' ' + why if why else ''), not why)
                if n in ('kind', 'bench', 'spare') and t in ('u8', 'u32', 'usize') or n == 'count' and re.search(r'\bcount (==|>|<=) [23]\b', body):
                    here = n == 'spare' or re.search(r'\b%s (==|!=|>|<=) ' % n, body)
                    put('7e', c.crate, c.file, f.line, '%s(%s: %s)%s' % (f.name, n, t, '' if here else ' hands on'), bool(here))
        for i, line in enumerate(c.lines):
            if re.search(r'\bfn\(|\bdyn\b', line) and not line.strip().startswith('ghost'):
                put('7f', c.crate, c.file, i + 1, line.strip())


# ---------------------------------------------------------------- the whole


def main():
    args = sys.argv[1:]
    if not args:
        print(__doc__)
        return 2
    top, rest = args[0], args[1:]
    crates = read_tree(top)
    point_1_enums(crates)
    point_1_structs(crates)
    point_1_zeros(crates)
    point_1_propagation(crates)
    point_1_or_else(crates)
    point_1_numbers(crates)
    named('1k', NONE_BY_VALUE, crates)
    point_1_missing(crates)
    point_2(crates)
    point_3(crates)
    point_4(crates)
    point_5(crates)
    point_6(crates)
    point_7(crates)

    def lines_of(kind):
        for k, counted, crate, file, line, what in PLACES:
            if k == kind:
                yield '%s %s:%d %s%s' % (crate, file, line, '' if counted else 'no: ', what)

    if '--lists' in rest:
        where = rest[rest.index('--lists') + 1]
        for p in '1234567':
            with open(os.path.join(where, 'point%s.txt' % p), 'w', encoding='utf-8') as out:
                for kind in sorted(k for k in TITLES if k[0] == p):
                    rows = list(lines_of(kind))
                    yes = sum(1 for x in PLACES if x[0] == kind and x[1])
                    out.write('## %s %s: %d\n' % (kind, TITLES[kind], yes))
                    out.write(''.join(r + '\n' for r in rows))
                    out.write('\n')
        return 0
    if '--point' in rest:
        want = rest[rest.index('--point') + 1]
        for kind in sorted(k for k in TITLES if k.startswith(want)):
            for r in lines_of(kind):
                print(kind, r)
        return 0
    for p in '1234567':
        kinds = sorted(k for k in TITLES if k[0] == p)
        total = sum(1 for x in PLACES if x[0] in kinds and x[1])
        print('point %s: %d counted%s' % (p, total, ' (kinds overlap: 5b, 5c and 5f are three views of one thing)' if p == '5' else
                                         ' (kinds overlap: a function or a struct may stand in several)' if p in '16' else ''))
        for kind in kinds:
            yes = sum(1 for x in PLACES if x[0] == kind and x[1])
            no = sum(1 for x in PLACES if x[0] == kind and not x[1])
            print('  %s %4d%s  %s' % (kind, yes, ' (%d shown, not counted)' % no if no else '', TITLES[kind]))
    return 0


if __name__ == '__main__':
    sys.exit(main())
