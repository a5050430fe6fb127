"""The terms in crates/*/specs, crates/*/proofs and in clauses of contracts, as tuples. A word that can't stand where
it does is an error.

Terms: ('var', name) ('num', n) ('str', s) ('app', f, [args]) ('iarg', name, e) as an argument {name = e}
('lam', [binders], e) ('let', pat, type|None, e, e) ('pi', [(names, type, implicit)], e) ('sig', [(name|None, type)..])
('tup', [e..]) ('proj', e, field) ('rec', base|None, [(f, e)..]) ('fields', [(f, type)..])
('elim', e|None, motive|None, [(pat, e)..]) ('tac', name, text) ('if', c, a, b) ('raw', what Coq is to read)
"""
import re

OPS = {  # name: (level, associativity)
    '^': (75, 'r'), '*': (70, 'l'), '/': (70, 'l'), '%': (70, 'l'), '+': (65, 'l'), '-': (65, 'l'), '∷': (67, 'r'),
    '++': (65, 'l'), '==': (50, 'n'), '<': (50, 'n'), '≤': (50, 'n'), '≤ℤ': (50, 'n'), '<ℤ': (50, 'n'), '∣': (50, 'n'),
    '+ℤ': (6, 'l'), '-ℤ': (6, 'l'), '*ℤ': (7, 'l'), '&&': (35, 'r'), '||': (30, 'r'), '∙': (30, 'r'), '≡': (4, 'n'),
    '≢': (4, 'n'), '⊎': (1, 'r'), '↔': (0, 'n'), '⊕': (6, 'l'), '⊖': (6, 'l'), '⊗': (7, 'l'),
    'and_then': (10, 'l'), 'gives': (10, 'l'), '>>=': (10, 'l'),
}
CONSTRUCTORS = ('⊕', '⊖', '⊗')  # operators that stand in patterns too
KEY = {'λ', 'let', 'in', '→', '×', '=', '↦', '|', ':', '[', ']', 'elim', 'record', 'as', 'if', 'then', 'else', 'where',
       '∀'}


class Bad(Exception):
    """A text has what this doesn't know."""


TOKEN = re.compile(r'\s+|(--[^\n]*)|("(?:[^"\\]|\\.)*")|([(){},;«»@])|(\.)|([^\s(){}.;,@"«»]+)')


def lex(text):
    """(token, preceded by a space, position) for each."""
    out, at, spaced = [], 0, True
    while at < len(text):
        if text.startswith('--', at) and (at == 0 or text[at - 1].isspace() or text[at-1] in '(){};,'):
            at = text.find('\n', at)
            if at < 0:
                break
            spaced = True
            continue
        if text[at].isspace():
            at += 1
            spaced = True
            continue
        m = TOKEN.match(text, at)
        if not m:
            raise Bad(f'character {text[at]!r}')
        tok = m.group(0)
        if m.group(1):
            at = m.end()
            continue
        if tok == '«':
            end = text.index('»', at)
            out.append((text[at + 1:end], spaced, at, True))
            at = end + 1
        else:
            out.append((tok, spaced, at, False))
            at = m.end()
        spaced = False
    return out


class Parser:
    def __init__(self, text, tactics=()):
        self.toks = lex(text)
        self.i = 0
        self.text = text

    def peek(self, k=0):
        return self.toks[self.i + k][0] if self.i + k < len(self.toks) else None

    def quoted(self):
        return self.i < len(self.toks) and self.toks[self.i][3]

    def is_(self, *words):
        return self.i < len(self.toks) and not self.toks[self.i][3] and self.toks[self.i][0] in words

    def next(self):
        if self.i >= len(self.toks):
            raise Bad('end of text')
        self.i += 1
        return self.toks[self.i - 1][0]

    def want(self, word):
        if not self.is_(word):
            near = ' '.join(t[0] for t in self.toks[max(0, self.i - 6):self.i + 6])
            raise Bad(f'wanted {word!r} near {near!r}')
        self.i += 1

    # ---- terms
    def term(self):
        if self.is_('λ'):
            return self.lam()
        if self.is_('let'):
            return self.let()
        pi = self.binders_ahead()
        if pi == '→':
            groups = []
            while self.binders_ahead() == '→' or (groups and self.is_('(', '{') and self.group_ahead()):
                groups.append(self.group())
                if self.is_('→'):
                    self.next()
                    break
                if not self.is_('(', '{'):
                    raise Bad('binders')
            return ('pi', groups, self.term())
        left = self.level(0)
        if self.is_('→'):
            self.next()
            return ('pi', [([None], left, False)], self.term())
        return left

    def group_ahead(self):
        """Whether what stands here is '(names : ..)' or '{names : ..}'."""
        if not self.is_('(', '{'):
            return False
        k = 1
        ends = (':', '=', 'λ', '→', '×', '[')
        while self.peek(k) is not None and self.peek(k) not in '(){};,.' and self.peek(k) not in ends:
            k += 1
        return k > 1 and self.peek(k) == ':'

    def close_of(self, k):
        depth = 0
        while True:
            t = self.peek(k)
            if t is None:
                raise Bad('no closing')
            if t in '({':
                depth += 1
            if t in ')}':
                depth -= 1
                if depth == 0:
                    return k
            k += 1

    def binders_ahead(self):
        """'→' or '×' if a binder group stands here that is followed, maybe after other groups, by that."""
        if not self.group_ahead():
            return None
        save = self.i
        try:
            while self.group_ahead():
                k = self.close_of(0)
                self.i += k + 1
                if self.is_('→', '×'):
                    return self.peek()
            return None
        finally:
            self.i = save

    def group(self):
        implicit = self.next() == '{'
        names = []
        while not self.is_(':'):
            names.append(self.next())
        self.want(':')
        t = self.term()
        self.want('}' if implicit else ')')
        return (names, t, implicit)

    def lam(self):
        self.want('λ')
        binders = []
        while not self.is_('.'):
            binders.append(self.pattern_atom(True))
        self.want('.')
        return ('lam', binders, self.term())

    def let(self):
        self.want('let')
        if self.is_('(') or self.is_('record'):
            pat = self.pattern_atom(False)
        else:
            pat = ('var', self.next())
        t = None
        if self.is_(':'):
            self.next()
            t = self.term()
        self.want('=')
        e = self.term()
        self.want('in')
        return ('let', pat, t, e, self.term())

    def level(self, low):
        """Operators of at least this level. Level 2 is ×, which binds tighter than ⊎ (1) and looser than ≡ (4)."""
        if low <= 2:
            return self.loose(low)
        return self.ops(low)

    def loose(self, low):
        left = self.product()
        while self.is_('⊎', '↔') and OPS[self.peek()][0] >= low:
            op = self.next()
            right = self.loose(OPS[op][0] if OPS[op][1] == 'r' else OPS[op][0] + 1)
            left = ('app', ('var', f'◌{op}◌'), [left, right])
        return left

    def product(self):
        parts = []
        while True:
            if self.binders_ahead() == '×':
                names, t, implicit = self.group()
                for n in names:
                    parts.append((n, t))
                self.want('×')
                continue
            if parts and self.binders_ahead() == '→':
                parts.append((None, self.term()))
                return ('sig', parts)
            e = self.ops(4)
            if self.is_('×'):
                self.next()
                parts.append((None, e))
                continue
            if not parts:
                return e
            parts.append((None, e))
            return ('sig', parts)

    def ops(self, low):
        if self.is_('λ', 'let'):
            return self.term()
        left = self.apply()
        while True:
            t = self.peek()
            if t is None or self.quoted() or t not in OPS or OPS[t][0] < low or t in ('⊎', '↔'):
                return left
            # a section's end, as in (a +◌), isn't met: '+◌' is one token
            lev, assoc = OPS[t]
            self.next()
            right = self.ops(lev if assoc == 'r' else lev + 1) if not self.is_('λ', 'let') else self.term()
            left = ('app', ('var', f'◌{t}◌'), [left, right])

    def starts_atom(self):
        t = self.peek()
        if t is None:
            return False
        if self.quoted():
            return True
        begins = {'record', 'elim', 'λ', 'let', 'if'}
        return t not in KEY - begins and t not in OPS and t not in (')', '}', ',', ';', '.', '«', '@')

    def apply(self):
        if self.is_('if'):
            self.next()
            c = self.term()
            self.want('then')
            a = self.term()
            self.want('else')
            return ('if', c, a, self.term())
        if self.is_('elim'):
            found, args = self.elim(), []
            while self.starts_atom():
                args.append(self.postfix())
            return ('app', found, args) if args else found
        head = self.postfix()
        args = []
        if head in (('var', 'omega'), ('var', 'grind'), ('var', 'search'), ('var', 'simp')):
            arg = None
            if self.starts_atom():
                arg = self.postfix()
            return ('tac', head[1], arg[1] if arg and arg[0] == 'tup' else [arg] if arg else [])
        if head == ('var', 'cc'):
            return ('tac', 'cc', [])
        if head == ('var', 'rw'):
            e = self.postfix()
            if self.is_('at') and self.peek(1) not in (None, *KEY, *')},;'):
                self.next()
                return ('app', ('var', 'rw_at'), [e, self.postfix()])
            if self.is_('λ', 'let'):
                return ('app', ('var', 'rw'), [e, self.term()])
            if self.starts_atom():
                return ('app', ('var', 'rw'), [e, self.apply()])
            return ('app', ('var', 'rw'), [e, ('raw', 'eq_refl')])
        while self.starts_atom():
            if self.is_('λ', 'let', 'if'):
                args.append(self.term())
                break
            if self.is_('elim'):
                args.append(self.elim())
                break
            if self.is_('{'):
                self.next()
                first = self.next()
                if self.is_('='):
                    self.next()
                    args.append(('iarg', first, self.term()))
                    self.want('}')
                else:
                    self.i -= 1
                    while not self.is_('}'):
                        args.append(('iarg', None, self.term()))
                        if self.is_(','):
                            self.next()
                    self.want('}')
                continue
            args.append(self.postfix())
        return ('app', head, args) if args else head

    def postfix(self):
        e = self.atom()
        while self.is_('.') and not self.toks[self.i][1]:
            self.next()
            e = ('proj', e, self.next())
        return e

    def atom(self):
        if self.quoted():
            return ('var', self.next())
        if self.is_('record'):
            self.next()
            base = None
            if not self.is_('{'):
                base = self.postfix()
            self.want('{')
            fields = []
            sign = ':' if base is None and self.peek(1) == ':' else '='
            while not self.is_('}'):
                f = self.next()
                self.want(sign)
                fields.append((f, self.term()))
                if self.is_(';'):
                    self.next()
            self.want('}')
            return ('fields', fields) if sign == ':' else ('rec', base, fields)
        if self.is_('('):
            self.next()
            if self.is_('◌'):
                raise Bad('section')
            items, comma = [], False
            while not self.is_(')'):
                items.append(self.term())
                if self.is_(','):
                    self.next()
                    comma = True
                elif not self.is_(')'):
                    self.want(')')
            self.want(')')
            if not comma and len(items) == 1:
                return items[0]
            return ('tup', items)
        if self.is_('elim'):
            return self.elim()
        t = self.next()
        if t.startswith('"'):
            return ('str', t)
        if re.fullmatch(r'[0-9][0-9_]*|0x[0-9a-f_]+', t):
            return ('num', int(t.replace('_', ''), 0))
        if t in KEY or t in ')},;.':
            near = ' '.join(t[0] for t in self.toks[max(0, self.i - 6):self.i + 6])
            raise Bad(f'no term at {t!r} near {near!r}')
        if t.startswith('◌') and len(t) > 1 and t.endswith('◌') is False and self.peek() is not None and t[1:] in OPS:
            # a section (◌+ 1)
            right = self.ops(OPS[t[1:]][0] + 1)
            return ('lam', [('var', 'sec')], ('app', ('var', f'◌{t[1:]}◌'), [('var', 'sec'), right]))
        return ('var', t)

    def elim(self):
        self.want('elim')
        scrut = motive = None
        if not self.is_('['):
            scrut = self.postfix()
            args = []
            while self.starts_atom() and not self.is_('[', 'as'):
                args.append(self.postfix())
            if args:
                scrut = ('app', scrut, args)
        if self.is_('as'):
            self.next()
            motive = self.postfix()
        self.want('[')
        cases = []
        while not self.is_(']'):
            if self.is_('|'):
                self.next()
            if self.is_(']'):
                break
            pat = self.pattern()
            self.want('↦')
            cases.append((pat, self.term()))
        self.want(']')
        return ('elim', scrut, motive, cases)

    # ---- patterns: ('var', x) ('con', c, [pats]) ('tup', [pats]) ('typed', name, type) ('num', n) ('ipat', name, pat)
    def pattern(self):
        first = self.pattern_atom(False)
        args = []
        while not self.is_('↦', '=', '∷', ',', ')', '→', '}', ';', *CONSTRUCTORS) and self.peek() is not None:
            args.append(self.pattern_atom(False))
        p = first
        if args:
            p = ('con', first[1], args)
        if self.is_('∷', *CONSTRUCTORS):
            return ('con', f'◌{self.next()}◌', [p, self.pattern()])
        return p

    def pattern_atom(self, binder):
        if self.is_('('):
            self.next()
            if binder:
                save = self.i
                names = []
                while self.peek() not in (':', ')', ',', '(') and self.peek() is not None:
                    names.append(self.next())
                if self.is_(':') and names:
                    self.next()
                    t = self.term()
                    self.want(')')
                    return ('typed', names, t)
                self.i = save
            items = []
            comma = False
            while not self.is_(')'):
                items.append(self.pattern())
                if self.is_('→'):        # (f → h) of elim
                    self.next()
                    items[-1] = ('hyp', items[-1], self.pattern())
                if self.is_(','):
                    self.next()
                    comma = True
            self.want(')')
            return items[0] if len(items) == 1 and not comma else ('tup', items)
        if self.is_('{'):
            self.next()
            names = []
            pats = []
            while not self.is_('}'):
                n = self.next()
                if self.is_('='):
                    self.next()
                    pats.append(('ipat', n, self.pattern()))
                else:
                    pats.append(('ipat', n, ('var', n)))
            self.want('}')
            return pats[0] if len(pats) == 1 else ('many', pats)
        if self.is_('record'):
            self.next()
            self.want('{')
            fields = []
            while not self.is_('}'):
                f = self.next()
                self.want('=')
                fields.append((f, self.pattern()))
                if self.is_(';'):
                    self.next()
            self.want('}')
            return ('recpat', fields)
        t = self.next()
        if re.fullmatch(r'[0-9]+', t):
            return ('num', int(t))
        if not binder and self.is_('.') and not self.toks[self.i][1] and not self.toks[self.i + 1][1]:
            self.next()
            t = f'{t}.{self.next()}'
        return ('var', t)


def term(text):
    """The term that a text is."""
    parser = Parser(text)
    result = parser.term()
    if parser.peek() is not None:
        raise Bad(f'after a term: {parser.peek()!r}')
    return result
