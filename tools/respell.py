#!/usr/bin/env python3
"""Brings the repository's own definition and lemma names to the newer spelling.

    python3 tools/respell.py            renames, everywhere
    python3 tools/respell.py --list     prints the table, changes nothing
    python3 tools/respell.py --check    looks whether each name that an import cites stands in that module

Run it at the top of the repository. A second run changes nothing. Where two names would fall together it prints them
and changes nothing: give one of them another name in EXCEPTIONS.
"""
import os
import re
import subprocess
import sys

# Names that the rules would spell so that they fall together with another, or badly: (module or '*', old): new.
EXCEPTIONS = {
    # both are in scope
    ('Rattle.protocol.proofs.Memory', 'refused-by'): 'setup_refused_by',
    # a function of the .rt file that imports it has the plain spelling
    ('Rattle.composition.specs.Composition', 'childrenOf'): 'composed_children',
    ('Rattle.fnv.specs.Fnv', 'timesPrime'): 'prime_multiple',
    ('Rattle.fnv.specs.Fnv', 'hashStep'): 'next_hash',
    ('Rattle.fnv.specs.Fnv', 'hashFrom'): 'hash_onward',
    ('Rattle.fnv.specs.Fnv', 'blockId'): 'id_of_block',
    ('Rattle.heard.specs.Heard', 'saidBy'): 'said_of_message',
    ('Rattle.heard.specs.Heard', 'announcedOf'): 'announced_of_message',
    ('Rattle.message.specs.Words', 'isEnd'): 'is_end_word',
    ('Rattle.message.specs.Words', 'bytesWord'): 'word_of_bytes',
    ('Rattle.message.specs.Words', 'carriesThree'): 'carries_three_bytes',
    ('Rattle.message.specs.Words', 'carriesTwo'): 'carries_two_bytes',
    ('Rattle.message.specs.Words', 'carriesOne'): 'carries_one_byte',
    ('Rattle.message.specs.Reading', 'openingAt'): 'opening_by_places',
    ('Rattle.most_blocks.specs.Most', 'mostBlocks'): 'most_blocks_of',
    ('Rattle.sketch.specs.Opening', 'noneTwice'): 'no_shingle_twice',
    ('Rattle.sketch.specs.Opening', 'allIn'): 'all_held',
    ('Rattle.sketch.specs.Opening', 'noneIn'): 'none_held',
    ('Rattle.rcds.specs.Calls', 'settingsOf'): 'settings_of_call',
    ('Rattle.reply.specs.Parts', 'queryOf'): 'query_of_message',
    ('Rattle.shingle.specs.Table', 'shingleAt'): 'shingle_in_table',
    ('Rattle.shingle.specs.Steps', 'withCount'): 'entry_with_count',
    ('Rattle.strata.specs.Steps', 'eachOwn'): 'each_held',
}

# Facts (results in `Type 0`) with a lower-case name: (module, old): new.
FACTS = {
    ('Rattle.handover.proofs.Outcomes', 'says'): 'Says',
}

# Pairs (file, new name) that were looked at: the two never meet.
LOOKED_AT = {
    # the field is another file's
    ('crates/protocol/proofs/Witness.antt', 'own_cells_lem'),
}

# On a page, a name of several modules where nothing on the line says which: (file, old): new.
PAGES = {
    ('docs/changes/05.md', 'childrenOf'): 'composed_children',
    ('docs/DECISIONS.md', 'new-list'): 'new_list_lem',
    ('docs/SPEC.md', 'new-list'): 'new_list_lem',
    ('docs/DEMAND3.md', 'left-by-setup'): 'left_by_setup_lem',
}

# Words of std and of the list library that a lemma's name may join with a dash.
STD = set('''length take drop append set map sum get_or replicate mul add sub div mod pow cond leb eqb reverse filter
concat slice_index slice_get zip sets max min suc'''.split())

RESERVED = set('''data record deriving module where use mod pub package open as unfoldable abbrev axiom unfold unfolding
ruleset mutual infix infixl infixr elim let in do Type coe fcoe tcoe hcom com search omega simp rw grind cc arith rules
ground assumption must'''.split())

AS = re.compile(r'(?m)^[ \t]*(?:pub[ \t]+)?(?:ghost[ \t]+)?use[ \t]+([^\s{};]+)[ \t]+as[ \t]+([^\s;]+)')
TOKEN = r'[^\s(){}\[\];,."`⌜⌝“”]+'
USE = re.compile(r'(?m)^[ \t]*(?:pub[ \t]+)?(?:ghost[ \t]+)?use[ \t]+([^\s{};]+?)\.\{([^{}]*)\}')


def listed(*globs):
    out = subprocess.run(['git', 'ls-files', '-co', '--exclude-standard', '--', *globs], stdout=subprocess.PIPE, check=True)
    return sorted(f for f in out.stdout.decode().split('\n') if f and os.path.isfile(f) and '/out/' not in f and '/target/' not in f)


def read(f):
    with open(f, encoding='utf-8', newline='') as h:
        return h.read()


# ---------------------------------------------------------------- text

def antt_pieces(text):
    """(kind, piece): 'c' a comment, 's' a string, 't' a token, ' ' other."""
    for m in re.finditer(r'(?P<c>(?:(?<=\s)|^)--[^\n]*|\{-.*?-\})|(?P<s>"(?:\\.|[^"\\\n])*")|(?P<t>' + TOKEN + r')|(?P<o>.)',
                         text, re.S | re.M):
        kind = m.lastgroup
        yield (' ' if kind == 'o' else kind), m.group()


RUST = re.compile(r'''(?P<c>//[^\n]*|/\*.*?\*/)|(?P<s>b?"(?:\\.|[^"\\])*")|(?P<l>b?'(?:\\.[^']*|[^'\\\n])'(?![\w']))|(?P<o>.)''', re.S)


def ghost_spans(text):
    """The ghost text of a .rt file, as spans: the imports, the clauses, ghost members."""
    mask = list(text)
    for m in RUST.finditer(text):
        if m.lastgroup in 'csl':
            for i in range(m.start(), m.end()):
                if mask[i] != '\n':
                    mask[i] = ' '
    plain = ''.join(mask)
    spans = []
    for m in re.finditer(r'\b(?:pub\s+)?ghost\s+use\b[^;]*;', plain):
        spans.append(m.span())
    heads = r'\b(?:requires|ensures|decreases|invariant|measure)\b(?:[ \t]+[A-Za-z_]\w*)?\s*(?=\{)|\bghost\b[^;{}]*?(?=\{)'
    at = 0
    for m in re.finditer(heads, plain):
        if m.end() < at or re.match(r'(?:pub\s+)?ghost\s+use\b', m.group()):
            continue
        depth, i = 0, m.end()
        while i < len(plain):
            if plain[i] == '{':
                depth += 1
            elif plain[i] == '}':
                depth -= 1
                if depth == 0:
                    break
            i += 1
        spans.append((m.end(), i + 1))
        at = i + 1
    return sorted(spans), plain


# ---------------------------------------------------------------- what is declared

class Module:
    def __init__(self, file):
        self.file = file
        parts = file[:-len('.antt')].split('/')
        self.crate, self.where = parts[1], parts[2]
        self.path = 'Rattle.' + '.'.join(parts[1:])
        # A function's own proof files lie in a folder below proofs/.
        self.local = self.where == 'proofs' and parts[-1] in ('Proof', 'Answers', 'Invariants') and len(parts) > 4
        self.text = read(file)
        self.defs = {}      # name: kind
        self.fields = {}    # name: 'field'
        self.said = {}      # name: its signature
        self.uses = [(m.group(1), names(m.group(2))) for m in USE.finditer(strip(self.text))]
        self.parse()

    def parse(self):
        lines = strip(self.text).split('\n')
        blocks = [0]
        record = None
        pending = False
        i = 0
        while i < len(lines):
            line = lines[i]
            i += 1
            if not line.strip():
                continue
            indent = len(line) - len(line.lstrip(' '))
            body = line.strip()
            if record is not None and indent <= record[0]:
                record = None
            if record is not None:
                if record[1] is None and re.match(r'(pub\s+)?[^\s(){}]+(\s+[^\s(){}:]+)*\s+:(\s|$)', body):
                    record[1] = indent
                if indent == record[1]:
                    m = re.match(r'(?:pub\s+)?((?:[^\s(){}:]+\s+)+):(?:\s|$)', body)
                    if m:
                        for n in m.group(1).split():
                            (self.fields if record[2] == 'record' else self.defs)[n] = 'field' if record[2] == 'record' else 'constructor'
                continue
            if indent < blocks[-1] and not pending:
                while indent < blocks[-1]:
                    blocks.pop()
            if pending:
                # the header of a module goes on until its `where`
                if re.search(r'(^|\s)where$', body):
                    pending = False
                    blocks.append(pend_indent + 2)
                continue
            if re.match(r'module\b', body):
                if re.search(r'(^|\s)where$', body):
                    blocks.append(indent + 2)
                else:
                    pending, pend_indent = True, indent
                continue
            if indent != blocks[-1]:
                continue
            m = re.match(r'(?:pub\s+)?(record|data)\s+(?:pub\s+)?(' + TOKEN + ')', body)
            if m:
                self.defs[m.group(2)] = m.group(1)
                record = [indent, None, m.group(1)]
                continue
            m = re.match(r'((?:(?:pub|abbrev|unfoldable|axiom)\s+)*)(' + TOKEN + r')((?:\s+' + TOKEN + r')*)\s+:(?:\s|$)', body)
            if not m or m.group(2) in ('use', 'mod', 'infix', 'infixl', 'infixr', 'unfolding', 'ruleset'):
                continue
            signature = body[m.end():]
            j = i
            while j < len(lines) and (not lines[j].strip() or len(lines[j]) - len(lines[j].lstrip(' ')) > indent):
                signature += ' ' + lines[j].strip()
                j += 1
            kind = 'definition' if re.search(r'abbrev|unfoldable', m.group(1)) else 'lemma'
            if self.where == 'specs':
                kind = 'definition'
            if re.search(r'(^|→\s*|\s)Type \d+\s*$', signature) and not re.match(r'\{?\(', signature.strip()[-1:]):
                kind = 'fact'
            for n in [m.group(2)] + m.group(3).split():
                self.defs[n] = kind
                self.said[n] = signature


def strip(text):
    """Without comments and strings, of the same length."""
    out = []
    for kind, piece in antt_pieces(text):
        out.append(re.sub(r'[^\n]', ' ', piece) if kind in 'cs' else piece)
    return ''.join(out)


def names(inner):
    """The names between an import's braces: (name, the name it gets here)."""
    out = []
    for item in inner.split(','):
        words = item.split()
        if not words:
            continue
        out.append((words[0], words[2] if len(words) == 3 and words[1] == 'as' else words[0]))
    return out


# ---------------------------------------------------------------- the spelling

def snake(name):
    """Words in snake case. A part that begins with a capital is a fact's or a type's name and stays."""
    name = name.replace('′', "'")
    parts = re.split(r'(-)', name)
    out = []
    for p in parts:
        if p[:1].isupper():
            out.append(p)
        else:
            p = re.sub(r'(?<=[a-z0-9₀-₉])([A-Z])(?=[A-Z][a-z])', lambda m: '_' + m.group(1).lower() + '_', p)
            p = re.sub(r'(?<=[a-z0-9₀-₉])([A-Z])', lambda m: '_' + m.group(1).lower(), p)
            out.append(p)
    return ''.join(out)


SIGNS = {'append': '◌++◌ ++', 'add': '+', 'mul': '*', 'sub': '-', 'div': '/', 'mod': '%', 'pow': '^', 'suc': 'suc',
         'eqb': 'eqb ==', 'leb': 'leb ≤', 'and': '&&', 'or': '||'}


def dashes(name, known, signature, here):
    """A dash stays between two names, each of a definition that the lemma's own statement cites; else it is `_`."""
    cited = {here.get(t, t) for t in tokens(signature)}
    cited |= {word for word, signs in SIGNS.items() if set(signs.split()) & cited}
    known = known & cited
    if '-' not in name.strip('-') or not re.search(r'[a-z]', name):
        return name
    parts = name.split('-')
    if any(not p for p in parts):
        return name
    out = parts[0]
    for right in parts[1:]:
        left = out.rsplit('-', 1)[-1]
        words = right.split('_')
        begins = any('_'.join(words[:k]) in known for k in range(1, len(words) + 1))
        out += ('-' if left in known and begins else '_') + right
    return out


# ---------------------------------------------------------------- the table

def load():
    modules = {}
    for f in listed('crates/*.antt'):
        m = Module(f)
        modules[m.path] = m
    return modules


def table(modules):
    """{module path: {old: new}} and the fields' {old: new}."""
    imported = {}
    for m in modules.values():
        for path, ns in m.uses:
            imported.setdefault(path, set()).update(n for n, _ in ns)
    words = {}      # the words a dash may join, of definitions and facts, as they are spelled afterwards
    for m in modules.values():
        words[m.path] = {EXCEPTIONS.get((m.path, n), FACTS.get((m.path, n), snake(n))) for n, k in m.defs.items()
                         if k in ('definition', 'fact', 'record', 'data', 'constructor') and '-' not in n}
    maps, fields = {}, {}
    new_of = {}     # the definitions without a dash, as they are spelled afterwards
    for m in modules.values():
        new_of[m.path] = {n: EXCEPTIONS.get((m.path, n)) or FACTS.get((m.path, n)) or snake(n) for n, k in m.defs.items()
                          if k in ('definition', 'fact', 'constructor') and '-' not in n}
    for m in modules.values():
        here = scope(m.uses, new_of, new_of[m.path])
        known = STD | set(SIGNS) | words[m.path]
        for path, ns in m.uses:
            if path in modules:
                known |= {new_of[path].get(n, n) for n, _ in ns} & words[path]
        maps[m.path] = {}
        for n, kind in m.defs.items():
            if m.local and (n not in imported.get(m.path, set()) or re.search(r'[-_]spec$', n)):
                continue
            new = EXCEPTIONS.get((m.path, n)) or EXCEPTIONS.get(('*', n)) or FACTS.get((m.path, n))
            if new is None:
                if n[0].isupper() and kind in ('record', 'data', 'fact'):
                    continue
                new = dashes(snake(n), known, m.said.get(n, ''), here)
            if new != n:
                maps[m.path][n] = new
        for n in m.fields:
            new = EXCEPTIONS.get((m.path, n)) or EXCEPTIONS.get(('*', n)) or snake(n).replace('-', '_')
            if new != n:
                fields[n] = new
        # a name given at an import
        for path, ns in m.uses:
            for n, here in ns:
                if here != n and not m.local and not here[0].isupper():
                    new = EXCEPTIONS.get((m.path, here)) or snake(here).replace('-', '_')
                    if new != here:
                        maps[m.path][here] = new
    return maps, fields


def fields_in(m, modules, maps, fields):
    """The fields to rename in this file: not a name that it declares or imports itself."""
    other = {n for n in m.defs if n not in maps[m.path]}
    other |= {here for path, ns in m.uses for _, here in ns if path not in modules}
    return {o: n for o, n in fields.items() if o not in other}


def scope(uses, maps, own=None):
    here = dict(own or {})
    for path, ns in uses:
        for n, alias in ns:
            if n in maps.get(path, {}):
                if alias == n:
                    here[n] = maps[path][n]
    return here


def pages(modules, maps, fields):
    """Names in camel case or with dashes, for pages and comments: those of one spelling, and those of several."""
    foreign = {n for m in modules.values() for p, ns in m.uses if p not in modules for n, _ in ns}
    found = {}
    for p, m in modules.items():
        for o, n in maps[p].items():
            if o in m.defs and not m.local:
                found.setdefault(o, {})[p] = n
        # what port.py has turned already stands in the pages as it was
        for n in m.defs:
            if not m.local and '_' in n and n not in maps[p] and m.where == 'specs' and n[0].islower():
                old = re.sub(r'_([a-z])', lambda x: x.group(1).upper(), n)
                if camel(old) and old not in m.defs:
                    found.setdefault(old, {}).setdefault(p, n)
    for o, n in fields.items():
        found.setdefault(o, {}).setdefault('.' + o, n)
    for (p, o), n in EXCEPTIONS.items():
        if p in modules:
            found.setdefault(o, {})[p] = n
    # and lemmas whose dashes went before: by the names as they are spelled afterwards
    after = {}
    for p, m in modules.items():
        for n in m.defs:
            if not m.local:
                after.setdefault(maps[p].get(n, n), set()).add(p)
    for n, ps in after.items():
        old = re.sub(r'_lem$', '', n).replace('_', '-')
        if '_' in n and '-' not in n and '-' in old and n[0].islower():
            for p in ps:
                found.setdefault(old, {}).setdefault(p, n)
    for o in after:
        if o in found:
            for p in after[o]:
                found[o].setdefault(p, o)
    found = {o: by for o, by in found.items() if o not in foreign and (camel(o) or '-' in o)}
    return ({o: next(iter(by.values())) for o, by in found.items() if len(set(by.values())) == 1},
            {o: by for o, by in found.items() if len(set(by.values())) > 1})


# ---------------------------------------------------------------- renaming

def in_use(path, inner, maps):
    """The text between an import's braces."""
    if path not in maps:
        return None
    def one(m):
        words = m.group().split()
        return re.sub(TOKEN, lambda t, first=[True]: (maps[path].get(t.group(), t.group()) if first.pop() else t.group()) if first else t.group(), m.group(), count=1)
    return ','.join(one(re.match(r'.*', item, re.S)) for item in inner.split(','))


def camel(n):
    return bool(re.search(r'[a-z0-9][A-Z]', n)) and n[0].islower()


def modules_as(text, maps):
    """The modules that a file names by a word: {word: their names}."""
    return {m.group(2): maps[m.group(1)] for m in AS.finditer(text) if m.group(1) in maps}


def respell(text, here, fields, maps, more=None, local=None):
    """The text of an antt file or a clause. `more`: for its comments."""
    by = modules_as(strip(text), maps)
    # imports first: each name by its module
    def use(m):
        inner = in_use(m.group(1), m.group(2), maps)
        if inner is None:
            return m.group()
        return m.group()[:m.start(2) - m.start()] + inner + m.group()[m.end(2) - m.start():]
    spans = []
    out, at = [], 0
    for m in USE.finditer(text):
        out.append(words(text[at:m.start()], here, fields, more, by, local))
        done = use(m)
        # an alias is a name of this file
        done = re.sub(r'(\bas\s+)(' + TOKEN + ')', lambda a: a.group(1) + here.get(a.group(2), a.group(2)), done)
        out.append(done)
        at = m.end()
    out.append(words(text[at:], here, fields, more, by, local))
    return ''.join(out)


def words(text, here, fields, more=None, by=None, local=None):
    """`by`: modules named by a word. `local`: the file's other names in camel case."""
    by, local = by or {}, local or {}
    out = []
    last, before = '', ''
    for kind, piece in antt_pieces(text):
        if kind == 't':
            base = piece.rstrip("'")
            field = fields.get(piece) or fields.get(base, base) + piece[len(base):]
            if before == '.':
                piece2 = by[last].get(piece, piece) if last in by else field
            elif piece in here:
                piece2 = here[piece]
            else:
                piece2 = local.get(piece, field)
            out.append(piece2)
        elif kind == 'c' and more is not None:
            out.append(comment(piece, {**more, **fields, **here}))
        else:
            out.append(piece)
        last, before = before, piece
    return ''.join(out)


def comment(piece, here):
    """In a comment only what stands in backticks, and camel case."""
    def tick(m):
        return re.sub(TOKEN, lambda t: here.get(t.group(), t.group()), m.group())
    piece = re.sub(r'`[^`\n]*`', tick, piece)
    return re.sub(r"[\w']+", lambda t: here.get(t.group(), t.group()) if camel(t.group()) else t.group(), piece)


def respell_rt(text, maps, fields, flat):
    spans, plain = ghost_spans(text)
    uses = [(m.group(1), names(m.group(2))) for m in USE.finditer(plain)]
    here = scope(uses, maps)
    by = modules_as(plain, maps)
    out, at = [], 0
    for a, b in spans:
        out.append(rt_comments(text[at:a], {**flat, **here}))
        piece = text[a:b]
        if USE.match(piece):
            out.append(respell(piece, {}, {}, maps))
        else:
            out.append(re.sub(r'(?m)//[^\n]*|[^/]+|/', lambda m: comment(m.group(), {**flat, **here}) if m.group().startswith('//')
                              else words(m.group(), here, fields, None, by), piece))
        at = b
    out.append(rt_comments(text[at:], {**flat, **here}))
    return ''.join(out)


def rt_comments(text, here):
    return re.sub(r'(?m)//[^\n]*', lambda m: comment(m.group(), here), text)


def respell_edit(file, text, modules, maps, fields, flat):
    """Names of specs/ in the texts of an edit. In Rust code no name has capitals or dashes as these have."""
    crate = file.split('/')[1]
    blocks, now = [], []
    for line in text.split('\n'):
        if line.startswith('#') and now:
            blocks.append(now)
            now = []
        now.append(line)
    blocks.append(now)
    out = []
    for block in blocks:
        target, field = None, None
        for line in block:
            m = re.match(r'file:\s*(\S+)', line)
            if m:
                target = 'crates/%s/%s' % (crate, m.group(1))
        here, mine, by = {}, {}, {}
        if target and os.path.isfile(target):
            if target.endswith('.antt'):
                p = 'Rattle.' + '.'.join(target[:-5].split('/')[1:])
                here, mine = scope(modules[p].uses, maps, maps[p]), fields_in(modules[p], modules, maps, fields)
                by = modules_as(strip(modules[p].text), maps)
            else:
                plain = ghost_spans(read(target))[1]
                here, mine = scope([(m.group(1), names(m.group(2))) for m in USE.finditer(plain)], maps), fields
                by = modules_as(plain, maps)
                here = {o: n for o, n in here.items() if camel(o) or '-' in o}
                mine = {o: n for o, n in mine.items() if camel(o)}
        here = {**{o: n for o, n in flat.items() if camel(o)}, **here}
        for line in block:
            k = re.match(r'(old|new|file|refused):', line)
            if k:
                field = k.group(1)
            if line.startswith('#'):
                out.append(re.sub(r"[\w'-]+", lambda t: here.get(t.group(), t.group()) if camel(t.group()) else t.group(), line))
            elif field in ('old', 'new'):
                head, rest = (line[:4], line[4:]) if k else ('', line)
                rest = rest.replace('′', "'")
                out.append(head + words(rest, here, mine, {}, by))
            else:
                out.append(line)
    return '\n'.join(out)


def respell_page(file, text, flat, several):
    """In backticks and blocks of code. A name of several modules goes by the module's name before it on its line."""
    out = []
    code = False
    for line in text.split('\n'):
        def token(t, base):
            old = t.group()
            if (file, old) in PAGES:
                return PAGES[(file, old)]
            if old in several:
                before = line[:base + t.start()]
                best = max(((before.rfind(p.split('.')[-1] + ':'), before.rfind('`' + p.split('.')[1] + '`')), n)
                           for p, n in several[old].items())
                if best[0][0] < 0 and best[0][1] < 0:
                    print('left, of several modules: %s: %s' % (file, old))
                    return old
                return best[1]
            return flat.get(old, old)
        def piece(m):
            return re.sub(TOKEN, lambda t: token(t, m.start()), m.group()).replace('′', "'")
        if re.match(r'\s*```', line):
            code = not code
            out.append(line)
        elif code:
            out.append(re.sub(TOKEN, lambda t: token(t, 0), line).replace('′', "'"))
        else:
            out.append(re.sub(r'`[^`\n]*`', piece, line))
    return '\n'.join(out)


# ---------------------------------------------------------------- names that fall together

def tokens(text):
    """The tokens of antt text that are not projections."""
    seen, before = set(), ''
    for kind, piece in antt_pieces(text):
        if kind == 't' and not before.endswith('.'):
            seen.add(piece)
        if kind == 't':
            before = piece
        else:
            before = piece
    return seen


def together(modules, maps, fields):
    said = []
    for m in modules.values():
        own = maps[m.path]
        here = scope(m.uses, maps, own)
        used = tokens(m.text)
        mine = fields_in(m, modules, maps, fields)
        full = {**mine, **here}
        got = {}
        for old in here:
            if old in mine and mine[old] != here[old] and (m.file, here[old]) not in LOOKED_AT:
                said.append((m.file, old, here[old], 'is a field too, which becomes ' + mine[old], None))
        for old, new in full.items():
            if old not in used:
                continue
            if new in RESERVED:
                said.append((m.file, old, new, 'a reserved word', None))
            if new in got and got[new] != old:
                said.append((m.file, old, new, 'and ' + got[new] + ' become the same', got[new]))
            got[new] = old
            if new in used and new not in full and (m.file, new) not in LOOKED_AT:
                said.append((m.file, old, new, 'stands there already', new))
        if m.where == 'specs':
            low = {}
            for n in m.defs:
                w = own.get(n, n)
                if w.lower() in low and low[w.lower()][1] != w and (w != n or low[w.lower()][0] != low[w.lower()][1]):
                    said.append((m.file, n, w, 'only its case differs from ' + low[w.lower()][1], None))
                low[w.lower()] = (n, w)
    for f in listed('crates/*.rt'):
        text = read(f)
        spans, plain = ghost_spans(text)
        uses = [(m.group(1), names(m.group(2))) for m in USE.finditer(plain)]
        here = scope(uses, maps)
        code = list(plain)
        for a, b in spans:
            for i in range(a, b):
                code[i] = ' '
        code = set(re.findall(r"\b[A-Za-z_]\w*", ''.join(code)))
        for old, new in here.items():
            if new in code and (f, new) not in LOOKED_AT:
                said.append((f, old, new, 'is a word of the code', None))
    for m in modules.values():
        if m.where != 'specs':
            continue
        code = set()
        for f in listed('crates/%s/src/*.rt' % m.crate):
            code |= set(re.findall(r'\b(?:const|struct|enum|type|trait|ghost)\s+(\w+)', read(f)))
        for old, new in maps[m.path].items():
            if new in code and (m.file, new) not in LOOKED_AT:
                said.append((m.file, old, new, 'is an item of the crate\'s src', None))
    return said


def suffixed(modules, maps, fields):
    """A lemma that would have the name of a definition where both are in scope gets `_lem`."""
    done = {}
    files = {m.file: m for m in modules.values()}
    for _ in range(6):
        news = {}
        for file, old, new, why, other in together(modules, maps, fields):
            if other is None or file not in files:
                continue
            m = files[file]
            for n in (old, other):
                home = m.path if n in m.defs else next((p for p, ns in m.uses if p in modules and (n, n) in ns), None)
                if home and modules[home].defs.get(n) == 'lemma' and not (modules[home].local):
                    news[(home, n)] = maps[home].get(n, n)
                    break
        news = {k: v for k, v in news.items() if k not in done}
        if not news:
            break
        for (home, n), v in sorted(news.items()):
            maps[home][n] = done[(home, n)] = v + '_lem'
    return done


# ---------------------------------------------------------------- --check

def check(modules):
    bad = 0
    for f in listed('crates/*.antt', 'crates/*.rt'):
        text = read(f)
        plain = strip(text) if f.endswith('.antt') else ghost_spans(text)[1]
        for m in USE.finditer(plain):
            path = m.group(1)
            if path not in modules:
                continue
            has = set(modules[path].defs) | set(modules[path].fields)
            has |= {n for p, ns in modules[path].uses for _, n in ns}
            for n, _ in names(m.group(2)):
                if n not in has:
                    bad += 1
                    print('%s: %s has no %s' % (f, path, n))
        for m in AS.finditer(plain):
            path, word = m.group(1), m.group(2)
            if path in modules:
                has = set(modules[path].defs) | set(modules[path].fields)
                inside = text if f.endswith('.antt') else '\n'.join(text[a:b] for a, b in ghost_spans(text)[0])
                for n in re.findall(r'(?<![^\s(){}])' + re.escape(word) + r'\.(' + TOKEN + ')', inside):
                    if n not in has:
                        bad += 1
                        print('%s: %s has no %s' % (f, path, n))
    print('%d names cited by imports do not stand in their module' % bad)
    return 1 if bad else 0



def main():
    modules = load()
    if '--check' in sys.argv:
        return check(modules)
    maps, fields = table(modules)
    lem = suffixed(modules, maps, fields)
    if '--list' in sys.argv:
        for p in sorted(maps):
            for o, n in maps[p].items():
                print('%-12s %s  %s -> %s' % (modules[p].defs.get(o, 'alias'), p, o, n))
        for (p, o), n in sorted(lem.items()):
            print('LEM', p, o, '->', n)
        for o, n in fields.items():
            print('field', o, '->', n)
        for p in sorted(modules):
            for n, k in modules[p].defs.items():
                if k in ('fact', 'record', 'data') and not n[0].isupper():
                    print('LOWER', k, p, n)
                if k not in ('fact', 'record', 'data') and n[0].isupper():
                    print('UPPER', k, p, n)
    said = together(modules, maps, fields)
    for s in said:
        print('falls together: %s: %s -> %s (%s)' % s[:4])
    if '--list' in sys.argv or said:
        return 1 if said else 0
    flat, several = pages(modules, maps, fields)
    after = {}
    for m in modules.values():
        mine = fields_in(m, modules, maps, fields)
        here = scope(m.uses, maps, maps[m.path])
        used = tokens(m.text)
        other = {n for _, ns in m.uses for pair in ns for n in pair} | set(m.defs)
        local = {n: snake(n) for n in used if camel(n) and n not in other and n not in here and snake(n) not in used}
        after[m.file] = (m.text, respell(m.text, here, mine, maps, flat, local))
    for f in listed('crates/*.rt'):
        text = read(f)
        after[f] = (text, respell_rt(text, maps, fields, flat))
    for f in listed('crates/*.edit'):
        text = read(f)
        after[f] = (text, respell_edit(f, text, modules, maps, fields, flat))
    for f in listed('README.md', 'docs/*.md'):
        text = read(f)
        after[f] = (text, respell_page(f, text, flat, several))
    changed = 0
    for f, (a, b) in after.items():
        if a != b:
            changed += 1
            with open(f, 'w', encoding='utf-8', newline='') as h:
                h.write(b)
    kinds = {}
    for p, mp in maps.items():
        for o in mp:
            k = modules[p].defs.get(o, 'alias')
            kinds[k] = kinds.get(k, 0) + 1
    kinds['field'] = len(fields)
    print('%d files changed; names: %s' % (changed, ', '.join('%s %d' % x for x in sorted(kinds.items()))))
    return 0


if __name__ == '__main__':
    sys.exit(main())
