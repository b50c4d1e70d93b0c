"""A plain program of the rules, to compute examples: every fault of a text's names and types. It is written from the rules, beside
the definition in crates/cc_faults/specs.
Usage: model.py TABLE checks each line of a table; model.py -t 'TEXT' lists the faults of one text."""
import re, sys
sys.setrecursionlimit(100000)
KINDS = ("NoMain Duplicate UnknownName UnknownType VoidHere BadLength EnumRange LargeType ManyCells NoBody NoSpec BodyNames Arity "
         "Mismatch NotAPlace NotAFunction NotAValue UnknownField UnknownTransaction AcceptPlace TreturnPlace LoopPlace LeavesAccept "
         "ValueHere NotPure PureTooDeep NotTimed BadFormat").split()
WORDS = set("accept async body break by char continue create delay do else enum for getchar if immediate int long or printf process putchar return select spec struct suchthat terminate trans treturn void while within".split())
RESERVED = set("abort auto case const default double extern float goto register short signed sizeof static switch typedef union unsigned volatile".split())
MARKS = ["<=", ">=", "==", "!=", "&&", "||", "++", "--", "+=", "-=", "*=", "/=", "%="] + list("(){}[];,.:?=+-*/%<>!")
ESC = {'n': 10, 't': 9, 'r': 13, '0': 0, '\\': 92, "'": 39, '"': 34}

class Early(Exception):
    pass

def lex(text):
    b = text; i = 0; line = 1; col = 1; out = []
    def bad(kind): raise Early("%d:%d %s" % (line, col, kind))
    if len(b) > 1048576: raise Early("1:1 TextTooLong")
    while i < len(b):
        c = b[i]
        if c in ' \t\n\r\v\f':
            i += 1
            if c == '\n': line += 1; col = 1
            else: col += 1
            continue
        if b.startswith('//', i):
            while i < len(b) and b[i] != '\n': i += 1; col += 1
            continue
        if b.startswith('/*', i):
            e = b.find('*/', i + 2)
            if e < 0: bad('OpenComment')
            for ch in b[i:e + 2]:
                if ch == '\n': line += 1; col = 1
                else: col += 1
            i = e + 2; continue
        m = re.match(r'[A-Za-z_][A-Za-z0-9_]*', b[i:])
        if m:
            w = m.group(); out.append(('word' if w in WORDS or w in RESERVED else 'name', w, (line, col))); n = len(w)
        elif c.isdigit():
            w = re.match(r'[A-Za-z0-9_]+', b[i:]).group(); n = len(w)
            m = re.fullmatch(r'(0[0-7]*|[1-9][0-9]*|0[xX][0-9a-fA-F]+)([lL]?)', w)
            if not m: bad('BadNumber')
            d = m.group(1); v = int(d, 16) if d[:2] in ('0x', '0X') else int(d, 8) if d[0] == '0' else int(d)
            if v > 9223372036854775807: bad('NumberTooLarge')
            out.append(('number', (v, 'long' if m.group(2) or v > 2147483647 else 'int'), (line, col)))
        elif c == "'":
            m = re.match(r"'(\\[ntr0\\'\"]|[ -&(-\[\]-~])'", b[i:])
            if not m: bad('BadCharacter')
            s = m.group(1); n = len(m.group()); out.append(('char', ESC[s[1]] if s[0] == '\\' else ord(s), (line, col)))
        elif c == '"':
            m = re.match(r'"((?:\\[ntr0\\\'"]|[ !#-\[\]-~\x80-\xff])*)"', b[i:])
            if not m: bad('BadString')
            s = re.sub(r'\\(.)', lambda k: chr(ESC[k.group(1)]), m.group(1)); n = len(m.group()); out.append(('string', s, (line, col)))
        else:
            for k in MARKS:
                if b.startswith(k, i): break
            else: bad('NoToken')
            out.append(('mark', k, (line, col))); n = len(k)
        i += n; col += n
    out.append(('end', '', (line, col)))
    return out

class Parser:
    def __init__(self, toks): self.t = toks; self.i = 0; self.depth = 0
    def bad(self): raise Early("%d:%d Syntax" % self.t[self.i][2])
    def at(self, *vs): k, v, p = self.t[self.i]; return k in ('word', 'mark') and v in vs
    def kind(self, k): return self.t[self.i][0] == k
    def place(self): return self.t[self.i][2]
    def take(self, v):
        if not self.at(v): self.bad()
        p = self.place(); self.i += 1; return p
    def opt(self, v):
        if self.at(v): self.i += 1; return True
        return False
    def name(self):
        if not self.kind('name'): self.bad()
        k, v, p = self.t[self.i]; self.i += 1; return (v, p)
    def nest(self, f):
        self.depth += 1
        if self.depth > 200: raise Early("%d:%d TooDeep" % self.place())
        r = f(); self.depth -= 1; return r
    def text(self):
        items = []
        while not self.kind('end'): items.append(self.item())
        return items
    def type(self):
        p = self.place()
        if self.opt('void'): return ('void', p)
        for k in ('char', 'int', 'long'):
            if self.opt(k): return ('num', k)
        for k in ('struct', 'enum', 'process'):
            if self.opt(k): return (k, self.name())
        self.bad()
    def at_type(self): return self.at('void', 'char', 'int', 'long', 'struct', 'enum', 'process')
    def item(self):
        if self.at('struct') and self.t[self.i + 2][1] == '{':
            self.take('struct'); n = self.name(); self.take('{'); fs = self.field()
            while not self.at('}'): fs += self.field()
            self.take('}'); self.take(';'); return ('struct', n, fs)
        if self.at('enum') and (self.t[self.i + 1][1] == '{' or self.t[self.i + 2][1] == '{'):
            self.take('enum'); n = self.name() if self.kind('name') else None
            self.take('{'); cs = [self.constant()]
            while self.opt(','): cs.append(self.constant())
            self.take('}'); self.take(';'); return ('enum', n, cs)
        if self.at('process') and self.t[self.i + 1][1] == 'spec':
            self.i += 2; n = self.name(); ps = self.tparams(); ts = []
            if self.opt('{'):
                while self.at('trans'):
                    self.take('trans'); r = None if self.opt('async') else self.type()
                    m = self.name(); q = self.tparams(); self.take(';'); ts.append((r, m, q))
                self.take('}')
            self.take(';'); return ('spec', n, ps, ts)
        if self.at('process') and self.t[self.i + 1][1] == 'body':
            self.i += 2; n = self.name(); ns = self.names(); return ('body', n, ns, self.block())
        r = self.type() if self.at_type() else ('num', 'int')
        n = self.name(); self.take('('); ps = []
        if self.at('void') and self.t[self.i + 1][1] == ')': self.i += 1
        elif not self.at(')'):
            while True:
                t = self.type(); ps.append((t, self.name()))
                if not self.opt(','): break
        self.take(')'); return ('fun', r, n, ps, self.block())
    def names(self):
        self.take('('); ns = []
        if not self.at(')'):
            ns.append(self.name())
            while self.opt(','): ns.append(self.name())
        self.take(')'); return ns
    def tparams(self):
        self.take('('); ps = []
        if not self.at(')'):
            while True:
                t = self.type(); n = self.name() if self.kind('name') else None; ps.append((t, n))
                if not self.opt(','): break
        self.take(')')
        if len(ps) == 1 and ps[0][0][0] == 'void' and ps[0][1] is None: ps = []
        return [p[0] for p in ps]
    def length(self):
        k, v, p = self.t[self.i]
        if k == 'number': self.i += 1; return ('n', p, v[0])
        if k == 'char': self.i += 1; return ('n', p, v)
        return ('name', self.name())
    def field(self):
        t = self.type(); out = []
        while True:
            n = self.name(); l = None
            if self.opt('['): l = self.length(); self.take(']')
            out.append((t, n, l))
            if not self.opt(','): break
        self.take(';'); return out
    def constant(self):
        n = self.name(); v = None
        if self.opt('='): neg = self.opt('-'); v = (neg, self.length())
        return (n, v)
    def block(self):
        self.take('{'); es = []
        while not self.at('}'): es += self.entry()
        self.take('}'); return es
    def entry(self):
        if self.at_type():
            t = self.type(); out = []
            while True:
                n = self.name()
                if self.opt('['): l = self.length(); self.take(']'); out.append(('local', t, n, ('array', l)))
                elif self.opt('='): out.append(('local', t, n, ('value', self.assign())))
                else: out.append(('local', t, n, None))
                if not self.opt(','): break
            self.take(';'); return out
        return [self.statement()]
    def statement(self): return self.nest(self.statement_)
    def statement_(self):
        p = self.place()
        if self.opt(';'): return ('empty',)
        if self.at('{'): return ('block', self.block())
        if self.opt('if'):
            self.take('('); c = self.assign(); self.take(')'); a = self.statement()
            if self.opt('else'): return ('ifelse', c, a, self.statement())
            return ('if', c, a)
        if self.opt('while'): self.take('('); c = self.assign(); self.take(')'); return ('while', c, self.statement())
        if self.opt('do'):
            a = self.statement(); self.take('while'); self.take('('); c = self.assign(); self.take(')'); self.take(';'); return ('do', a, c)
        if self.opt('for'):
            self.take('('); f = None if self.at(';') else self.assign(); self.take(';'); c = None if self.at(';') else self.assign(); self.take(';')
            n = None if self.at(')') else self.assign(); self.take(')'); return ('for', f, c, n, self.statement())
        for k in ('break', 'continue'):
            if self.opt(k): self.take(';'); return (k, p)
        for k in ('return', 'treturn'):
            if self.opt(k): e = None if self.at(';') else self.assign(); self.take(';'); return (k, p, e)
        if self.opt('delay'): e = self.assign(); self.take(';'); return ('delay', e)
        if self.at('accept'): return ('accept', self.accept())
        if self.opt('select'):
            self.take('{'); al = [self.alternative()]
            while self.opt('or'): al.append(self.alternative())
            self.take('}'); return ('select', p, al)
        e = self.assign(); self.take(';'); return ('expr', e)
    def accept(self):
        p = self.take('accept'); n = self.name(); ns = self.names(); cl = []
        while self.at('suchthat', 'by') and self.t[self.i][1] not in [c[0] for c in cl]:
            w = self.t[self.i][1]; self.i += 1; self.take('('); cl.append((w, self.assign())); self.take(')')
        b = [] if self.opt(';') else self.block()
        return (p, n, ns, cl, b)
    def alternative(self):
        g = None
        if self.opt('('): g = self.assign(); self.take(')'); self.take(':')
        def entries():
            es = []
            while not self.at('}', 'or'): es += self.entry()
            return es
        if self.at('accept'): a = self.accept(); return (g, ('accept', a), entries())
        if self.opt('delay'): e = self.assign(); self.take(';'); return (g, ('delay', e), entries())
        if self.opt('immediate'): self.take(';'); return (g, ('now',), entries())
        self.take('terminate'); self.take(';'); return (g, ('end',), [])
    def assign(self): return self.nest(self.assign_)
    def assign_(self):
        p = self.place()
        if self.opt('within'):
            d = self.disj(); self.take('?'); m = self.postfix(); self.take(':'); return ('within', p, d, m, self.assign())
        a = self.cond()
        for o in ('=', '+=', '-=', '*=', '/=', '%='):
            if self.opt(o):
                b = self.assign(); return ('assign', a, b) if o == '=' else ('update', a, o, b)
        return a
    def cond(self):
        a = self.disj()
        if self.opt('?'): x = self.assign(); self.take(':'); return ('choose', a, x, self.nest(self.cond))
        return a
    def row(self, sub, ops, tag):  # rows keep their operators
        a = sub(); rest = []
        while self.at(*ops): o = self.t[self.i][1]; self.i += 1; rest.append((o, sub()))
        return (tag, a, rest) if rest else a
    def disj(self): return self.row(self.conj, ['||'], 'logic')
    def conj(self): return self.row(self.equal, ['&&'], 'logic')
    def equal(self): return self.row(self.order, ['==', '!='], 'compare')
    def order(self): return self.row(self.sum, ['<', '<=', '>', '>='], 'compare')
    def sum(self): return self.row(self.term, ['+', '-'], 'arith')
    def term(self): return self.row(self.unary, ['*', '/', '%'], 'arith')
    def unary(self):
        p = self.place()
        for o, tag in (('-', 'neg'), ('+', 'neg'), ('!', 'not')):
            if self.opt(o): return (tag, p, self.nest(self.unary), o)
        for o in ('++', '--'):
            if self.opt(o): return ('before', p, self.nest(self.unary), o)
        return self.postfix()
    def postfix(self):
        e = self.primary(); steps = []
        while True:
            if self.opt('.'):
                n = self.name()
                if self.opt('('): steps.append(('call', n, self.args()))
                else: steps.append(('field', n))
            elif self.opt('['): i = self.assign(); self.take(']'); steps.append(('index', i))
            else: break
        if steps: e = ('chain', e, steps)
        if self.at('++', '--'): e = ('after', e, self.t[self.i][1]); self.i += 1
        return e
    def args(self):
        out = []
        if not self.at(')'):
            out.append(self.assign())
            while self.opt(','): out.append(self.assign())
        self.take(')'); return out
    def primary(self):
        k, v, p = self.t[self.i]
        if k == 'number': self.i += 1; return ('num', p, v[1], v[0])
        if k == 'char': self.i += 1; return ('num', p, 'int', v)
        if k == 'name':
            n = self.name()
            if self.opt('('): return ('call', n, self.args())
            return ('name', n)
        if self.opt('create'): n = self.name(); self.take('('); return ('create', p, n, self.args())
        if self.opt('putchar'): self.take('('); e = self.assign(); self.take(')'); return ('putchar', p, e)
        if self.opt('getchar'): self.take('('); self.take(')'); return ('getchar', p)
        if self.opt('printf'):
            self.take('(')
            if not self.kind('string'): self.bad()
            f = (self.t[self.i][1], self.place()); self.i += 1; a = []
            while self.opt(','): a.append(self.assign())
            self.take(')'); return ('printf', p, f, a)
        if self.opt('('): e = self.assign(); self.take(')'); return ('paren', p, e)
        self.bad()

def place_of(e):
    t = e[0]
    if t in ('num', 'create', 'putchar', 'getchar', 'printf', 'paren', 'before', 'neg', 'not', 'within'): return e[1]
    if t in ('name', 'call'): return e[1][1]
    return place_of(e[1])

# types: 'void', ('num', k), ('struct', n), ('process', k), ('array', t, n)
INT = ('num', 'int')
NONE = ('none',)
def known(t): return t is not None and t != NONE
def joined(*ts): return None if None in ts else NONE if NONE in ts else True
def arith(t): return t[0] == 'num'
def assignable(a, b): return arith(a) and arith(b) or b[0] in ('struct', 'process') and a == b
class Bad:
    def __init__(self, fs): self.fs = fs
def conversions(s):
    n = 0; i = 0
    while i < len(s):
        if s[i] == '%':
            for c in ('%d', '%ld', '%c', '%%'):
                if s.startswith(c, i): i += len(c); n += c != '%%'; break
            else: return None
        else: i += 1
    return n

class Checker:
    """A type is `None` where the phrase holds a fault, and NONE where it holds none and a name in it has no type."""
    def __init__(self, items): self.items = items; self.faults = set()
    def f(self, p, k): self.faults.add((p, KINDS.index(k) + 1)); return None
    # ---- types
    def cells(self, t):
        if t[0] in ('num', 'process'): return 1
        if t[0] == 'struct': return self.structs[t[1]]['cells']
        if t[0] == 'array': return t[2] * self.cells(t[1])
        return 0
    def written(self, t):
        if t[0] == 'void': return ('void',)
        if t[0] == 'num': return t
        n, p = t[1]
        if t[0] == 'process': return ('process', self.procs[n]) if n in self.procs else self.f(p, 'UnknownType')
        space = self.snames if t[0] == 'struct' else self.enames
        if n not in space: return self.f(p, 'UnknownType')
        return space[n]
    def value_type(self, t):
        if t[0] == 'void': return self.f(t[1], 'VoidHere')
        return self.written(t)
    def length(self, l):
        if l[0] == 'n': p, v = l[1], l[2]
        else:
            n, p = l[1]; m = self.look(n)
            if m is None: return self.f(p, 'UnknownName')
            if m[0] != 'const': return self.f(p, 'BadLength')
            if m[1] is None: return None
            v = m[1]
        return v if 1 <= v <= 65536 else self.f(p, 'BadLength')
    def array(self, t, name, l):
        a = self.value_type(t); n = self.length(l)
        if a is None or n is None: return None
        r = ('array', a, n)
        return r if self.cells(r) <= 65536 else self.f(name[1], 'LargeType')
    def look(self, n):
        m = self.scope.get(n); return m and m[1]
    def here(self, n, d): return n in self.scope and self.scope[n][0] == d
    def declare(self, d, x, m):
        if self.here(x[0], d): self.f(x[1], 'Duplicate'); return
        self.scope = dict(self.scope); self.scope[x[0]] = (d, m)
    # ---- text
    def run(self):
        it = self.items
        self.scope = {}; self.snames = {}; self.enames = {}; self.structs = []; self.procs = {}; self.kinds = {}; self.funs = []
        n = 0; self.head_of = {}
        for i, x in enumerate(it):
            if x[0] == 'fun':
                m = ('main',) if x[2][0] == 'main' else ('fun', i)
                if x[2][0] not in self.scope: self.scope[x[2][0]] = (0, m)
            if x[0] == 'spec' and x[1][0] not in self.procs: self.procs[x[1][0]] = i
        start = dict(self.scope)
        # heads, quietly
        keep = self.faults; self.faults = set(); self.heads = {}; self.kindheads = {}
        for i, x in enumerate(it):
            if x[0] == 'struct': self.struct(x)
            elif x[0] == 'enum': self.enum(x)
            elif x[0] == 'fun': self.heads[i] = self.head(x); self.reach(x)
            elif x[0] == 'spec': self.kindheads[i] = self.spec(x)
        self.faults = keep; self.scope = start; self.snames = {}; self.enames = {}; self.structs = []
        if not any(x[0] == 'fun' and x[2][0] == 'main' for x in it): self.f((1, 1), 'NoMain')
        specs = set(); bodies = set(); self.bodynames = {x[1][0] for x in it if x[0] == 'body'}
        for i, x in enumerate(it):
            if x[0] == 'struct': self.struct(x)
            elif x[0] == 'enum': self.enum(x)
            elif x[0] == 'fun':
                if self.here(x[2][0], 1): self.f(x[2][1], 'Duplicate')
                h = self.head(x)
                if x[2][0] == 'main' and x[3]: self.f(x[2][1], 'Arity')
                self.body(x[3], None, ('main' if x[2][0] == 'main' else 'fun', h and h[1]), x[4]); self.reach(x)
            elif x[0] == 'spec':
                if x[1][0] in specs: self.f(x[1][1], 'Duplicate')
                specs.add(x[1][0]); self.spec(x)
                if x[1][0] not in self.bodynames: self.f(x[1][1], 'NoBody')
            else:
                n, p = x[1]
                if n in bodies: self.f(p, 'Duplicate')
                bodies.add(n); k = self.procs.get(n); ts = None
                if k is None: self.f(p, 'NoSpec')
                else:
                    ts = self.kindheads[k][0]
                    if len(it[k][2]) != len(x[2]): self.f(p, 'BodyNames'); ts = None
                self.body(None, (x[2], ts), ('body', k), x[3])
        return sorted(self.faults)
    def reach(self, x):
        n = x[2][0]
        if n in self.scope and self.scope[n][0] == 0: self.scope = dict(self.scope); self.scope[n] = (1, self.scope[n][1])
    def struct(self, x):
        _, n, fs = x; ok = True; seen = set(); ts = []
        again = n[0] in self.snames
        if again: self.f(n[1], 'Duplicate')
        for t, m, l in fs:
            if m[0] in seen: self.f(m[1], 'Duplicate'); ok = False
            seen.add(m[0]); u = self.array(t, m, l) if l else self.value_type(t)
            if u is None: ok = False
            ts.append((m[0], u))
        c = None
        if ok:
            c = sum(self.cells(u) for _, u in ts)
            if c > 65536: self.f(n[1], 'LargeType'); ok = False
        if not again:
            if ok: self.snames[n[0]] = ('struct', len(self.structs)); self.structs.append({'fields': dict(ts), 'cells': c})
            else: self.snames[n[0]] = None
    def enum(self, x):
        _, n, cs = x; prev = -1; ok = True
        if n and n[0] in self.enames: self.f(n[1], 'Duplicate')
        for m, v in cs:
            if v is None: val = None if prev is None else prev + 1
            else:
                neg, l = v; val = None
                if l[0] == 'n': val = l[2]
                else:
                    y, p = l[1]; k = self.look(y)
                    if k is None: self.f(p, 'UnknownName')
                    elif k[0] == 'const': val = k[1]
                    else: self.f(m[1], 'EnumRange')
                if val is not None and neg: val = -val
            if val is not None and not -2**31 <= val < 2**31: val = self.f(m[1], 'EnumRange')
            if val is None: ok = False
            if self.here(m[0], 1): ok = False
            self.declare(1, m, ('const', val)); prev = val
        if n and n[0] not in self.enames: self.enames[n[0]] = INT if ok else None
    def params(self, ts, name):
        us = [self.value_type(t) for t in ts]
        if None in us: return None
        if sum(self.cells(u) for u in us) > 256: return self.f(name[1], 'ManyCells')
        return us
    def head(self, x):
        r = self.written(x[1]); us = self.params([t for t, _ in x[3]], x[2])
        return None if r is None or us is None else (us, r)
    def spec(self, x):
        us = self.params(x[2], x[1]); tr = {}; seen = set()
        for r, m, q in x[3]:
            if m[0] in seen: self.f(m[1], 'Duplicate')
            a = ('void',) if r is None else self.written(r); vs = self.params(q, m)
            if m[0] not in seen: tr[m[0]] = (r is None, None if a is None or vs is None else (vs, a))
            seen.add(m[0])
        return us, tr
    def body(self, params, names, role, block):
        outer = self.scope; seen = set()
        if params is not None:
            for t, m in params:
                keep = self.scope; self.scope = outer; u = self.value_type(t); self.scope = keep
                self.declare(2, m, ('var', u))
        else:
            ns, ts = names
            for i, m in enumerate(ns): self.declare(2, m, ('var', ts[i] if ts else None))
        self.block(block, dict(d=2, role=role, reply='no', brk=0, cont=0, pure=False))
        self.scope = outer
    def block(self, es, w):
        for e in es: self.stat(e, w)
    def scoped(self, es, w):
        keep = self.scope; self.block(es, dict(w, d=w['d'] + 1)); self.scope = keep
    # ---- statements
    def number(self, e, w): return self.num(place_of(e), self.expr(e, w))
    def num(self, p, t):
        if not known(t): return t
        return t if arith(t) else self.f(p, 'Mismatch')
    def assigned(self, e, u, w):
        t = self.expr(e, w)
        if not known(t): return t
        ok = assignable(t, u) if known(u) else t[0] not in ('void', 'array')
        return t if ok else self.f(place_of(e), 'Mismatch')
    def stat(self, e, w):
        t = e[0]; loop = dict(w, brk=1, cont=1)
        if t == 'local':
            _, ty, x, form = e
            again = self.here(x[0], w['d'])
            u = self.array(ty, x, form[1]) if form and form[0] == 'array' else self.value_type(ty)
            if form and form[0] == 'value': self.assigned(form[1], u, w)
            self.declare(w['d'], x, ('var', u))
        elif t == 'block': self.scoped(e[1], w)
        elif t == 'expr': self.expr(e[1], w)
        elif t == 'if': self.number(e[1], w); self.stat(e[2], w)
        elif t == 'ifelse': self.number(e[1], w); self.stat(e[2], w); self.stat(e[3], w)
        elif t == 'while': self.number(e[1], w); self.stat(e[2], loop)
        elif t == 'do': self.stat(e[1], loop); self.number(e[2], w)
        elif t == 'for':
            if e[1]: self.expr(e[1], w)
            if e[2]: self.number(e[2], w)
            if e[3]: self.expr(e[3], w)
            self.stat(e[4], loop)
        elif t in ('break', 'continue'):
            k = w['brk'] if t == 'break' else w['cont']
            if k == 0: self.f(e[1], 'LoopPlace')
            if k == 2: self.f(e[1], 'LeavesAccept')
        elif t == 'return':
            if w['reply'] != 'no': self.f(e[1], 'LeavesAccept')
            self.back(e[1], ('void',) if w['role'][0] == 'body' else w['role'][1], e[2], w)
        elif t == 'treturn':
            if w['reply'] == 'no': self.f(e[1], 'TreturnPlace')
            self.back(e[1], None if w['reply'] == 'no' else w['reply'], e[2], w)
        elif t == 'delay': self.number(e[1], w)
        elif t == 'accept': self.accept(e[1], w)
        elif t == 'select':
            if w['role'][0] != 'body': self.f(e[1], 'AcceptPlace')
            for g, c, es in e[2]:
                if g: self.number(g, w)
                if c[0] == 'accept': self.accept(c[1], w)
                if c[0] == 'delay': self.number(c[1], w)
                self.scoped(es, w)
    def back(self, p, t, e, w):
        if e is None: return
        if t == ('void',): self.f(p, 'ValueHere'); t = None
        self.assigned(e, t, w)
    def accept(self, a, w):
        p, n, ns, cl, b = a; sig = None; ts = None; back = None
        if w['role'][0] != 'body': self.f(p, 'AcceptPlace')
        elif w['role'][1] is not None:
            tr = self.kindheads[w['role'][1]][1]
            if n[0] not in tr: self.f(n[1], 'UnknownTransaction')
            else: asyn, sig = tr[n[0]]; back = ('void',) if asyn else sig and sig[1]
        if sig:
            if len(sig[0]) == len(ns): ts = sig[0]
            else: self.f(n[1], 'Arity')
        keep = self.scope; d = w['d'] + 1
        for i, m in enumerate(ns): self.declare(d, m, ('var', ts[i] if ts else None))
        for _, e in cl:
            t = self.expr(e, dict(w, d=d, pure=True))
            if t is not None:
                self.num(place_of(e), t)
                if self.depth(e) > 64: self.f(place_of(e), 'PureTooDeep')
        out = lambda k: 2 if k else 0
        self.block(b, dict(w, d=d + 1, reply=back, brk=out(w['brk']), cont=out(w['cont'])))
        self.scope = keep
    def depth(self, e):
        t = e[0]
        if t in ('num', 'name'): return 1
        if t in ('neg', 'not', 'paren'): return self.depth(e[2])
        if t == 'chain': return max([1, self.depth(e[1])] + [1 + self.depth(s[1]) for s in e[2] if s[0] == 'index'])
        if t in ('arith', 'compare'):
            return max([self.depth(e[1])] + [1 + self.depth(b) for _, b in e[2]])
        if t == 'logic': return max([self.depth(e[1])] + [self.depth(b) for _, b in e[2]])
        if t == 'choose': return max(self.depth(x) for x in e[1:])
        return 0
    # ---- expressions: the type, or None
    def impure(self, w, p, t):
        if w['pure']: self.f(p, 'NotPure'); return None
        return t
    def is_place(self, e):
        t = e[0]
        if t == 'name': m = self.look(e[1][0]); return m is not None and m[0] == 'var'
        if t == 'paren': return self.is_place(e[2])
        if t == 'chain': return self.is_place(e[1]) and all(s[0] != 'call' for s in e[2])
        return False
    def target(self, e, w, number):
        """What is stored to: the type if it may be one, and the type for what is stored."""
        t = self.expr(e, w); u = t
        if t is None: return None, None
        if number: u = self.num(place_of(e), t)
        elif t[0] == 'array': u = self.f(place_of(e), 'Mismatch')
        if not self.is_place(e): u = self.f(place_of(e), 'NotAPlace')
        return u, t
    def args(self, ts, es, w):
        return joined(*[self.assigned(e, ts[i] if ts and i < len(ts) else None, w) for i, e in enumerate(es)])
    def made(self, t, *parts):
        """A phrase of type t, if its parts have types."""
        j = joined(*parts); return t if j is True else j
    def expr(self, e, w):
        t = e[0]
        if t == 'num': return ('num', e[2])
        if t == 'name':
            n, p = e[1]; m = self.look(n)
            if m is None: return self.f(p, 'UnknownName')
            if m[0] == 'var': return m[1] or NONE
            if m[0] == 'const': return NONE if m[1] is None else INT
            return self.f(p, 'NotAValue')
        if t == 'paren': return self.expr(e[2], w)
        if t == 'neg': a = self.number(e[2], w); return ('num', 'long' if a[1] == 'long' else 'int') if known(a) else a
        if t == 'not': return self.made(INT, self.number(e[2], w))
        if t == 'arith':
            ts = [self.number(e[1], w)] + [self.number(b, w) for _, b in e[2]]
            return self.made(('num', 'long' if ('num', 'long') in ts else 'int'), *ts)
        if t == 'logic':
            return self.made(INT, *([self.number(e[1], w)] + [self.number(b, w) for _, b in e[2]]))
        if t == 'compare':
            left = self.expr(e[1], w)
            for o, b in e[2]:
                right = self.expr(b, w); r = self.made(INT, left, right)
                def fine(a, other):
                    return not known(a) or arith(a) or o in ('==', '!=') and a[0] == 'process' and (not known(other) or other == a)
                if not fine(left, right): self.f(place_of(e), 'Mismatch'); r = None
                if not fine(right, left): self.f(place_of(b), 'Mismatch'); r = None
                left = r
            return left
        if t == 'choose':
            c = self.number(e[1], w); ts = []
            for x in e[2:]:
                a = self.expr(x, w)
                if a and a[0] == 'array': a = self.f(place_of(x), 'Mismatch')
                ts.append(a)
            a, b = ts; r = True
            if known(a) and known(b):
                if arith(a) and arith(b): r = ('num', 'long' if 'long' in (a[1], b[1]) else 'int')
                elif a == b: r = a
                else: r = self.f(place_of(e[3]), 'Mismatch')
            return self.made(r, c, a, b, r)
        if t == 'assign':
            u, t = self.target(e[1], w, False); v = self.assigned(e[2], t, w)
            return self.impure(w, place_of(e), self.made(u, u, v))
        if t == 'update':
            u, t = self.target(e[1], w, True); v = self.number(e[3], w)
            return self.impure(w, place_of(e), self.made(u, u, v))
        if t == 'before': return self.impure(w, e[1], self.target(e[2], w, True)[0])
        if t == 'after': return self.impure(w, place_of(e), self.target(e[1], w, True)[0])
        if t == 'call':
            n, p = e[1]; m = self.look(n); h = None; r = None
            if m is None: self.f(p, 'UnknownName')
            elif m[0] == 'fun':
                h = self.heads[m[1]]
                if not h: r = NONE
                elif len(h[0]) != len(e[2]): self.f(p, 'Arity')
                else: r = h[1]
            else: self.f(p, 'NotAFunction')
            a = self.args(h and h[0], e[2], w)
            return self.impure(w, p, self.made(r, r, a))
        if t == 'create':
            _, p, (n, q), es = e; k = self.procs.get(n); ts = None; r = None
            if k is None: self.f(q, 'UnknownType')
            else:
                ts = self.kindheads[k][0]
                if ts is None: r = NONE
                elif len(ts) != len(es): self.f(q, 'Arity')
                else: r = ('process', k)
            a = self.args(ts, es, w)
            return self.impure(w, p, self.made(r, r, a))
        if t == 'putchar': return self.impure(w, e[1], self.made(INT, self.number(e[2], w)))
        if t == 'getchar': return self.impure(w, e[1], INT)
        if t == 'printf':
            _, p, (s, q), es = e; n = conversions(s); ok = True
            if n is None: ok = self.f(q, 'BadFormat')
            elif n != len(es): ok = self.f(p, 'Arity')
            return self.impure(w, p, self.made(INT, ok, *[self.number(x, w) for x in es]))
        if t == 'within':
            _, p, d, m, x = e; a = self.number(d, w)
            b = self.expr(m, w)
            if b is not None and not (m[0] == 'chain' and m[2][-1][0] == 'call' and not self.last_async): b = self.f(place_of(m), 'NotTimed')
            v = self.assigned(x, b, w)
            return self.impure(w, p, self.made(b, a, b, v))
        if t == 'chain':
            p = place_of(e[1]); pl = self.is_place(e[1]); v = self.expr(e[1], w); asyn = False
            for s in e[2]:
                asyn = False
                if s[0] == 'field':
                    n, q = s[1]
                    if known(v) and v[0] != 'struct': v = self.f(p, 'Mismatch')
                    if known(v):
                        fs = self.structs[v[1]]['fields']
                        v = fs[n] if n in fs else self.f(q, 'UnknownField')
                    if not pl: v = self.impure(w, p, v)
                elif s[0] == 'index':
                    if known(v) and v[0] != 'array': v = self.f(p, 'Mismatch')
                    i = self.number(s[1], w); v = self.made(v[1] if known(v) else None, v, i)
                    if not pl: v = self.impure(w, p, v)
                else:
                    _, (n, q), es = s; sig = None; r = v
                    if known(v) and v[0] != 'process': v = r = self.f(p, 'Mismatch')
                    if known(v):
                        tr = self.kindheads[v[1]][1]
                        if n not in tr: r = self.f(q, 'UnknownTransaction')
                        else:
                            asyn, sig = tr[n]; r = NONE
                            if sig: r = sig[1] if len(sig[0]) == len(es) else self.f(q, 'Arity')
                    a = self.args(sig and sig[0], es, w)
                    v = self.impure(w, p, self.made(r, r, a)); pl = False
            self.last_async = asyn
            return v
        raise Exception(t)

def faults(text):
    try: items = Parser(lex(text)).text()
    except Early as e: return [str(e)]
    return ["%d:%d %s" % (p[0], p[1], KINDS[k - 1]) for p, k in Checker(items).run()]

if __name__ == '__main__':
    if sys.argv[1] == '-t': print(faults(sys.argv[2])); sys.exit()
    wrong = 0; n = 0
    for line in open(sys.argv[1], encoding='latin-1'):
        line = line.rstrip('\n')
        if not line or line.startswith('#'): continue
        want, text = line.split('\t', 1); text = text.replace('$', '\n'); n += 1
        got = faults(text); first = got[0] if got else 'ok'
        if first != want: wrong += 1; print('WANT', want, 'GOT', got, '\n    ', text)
    print(n, 'texts,', wrong, 'differ')
