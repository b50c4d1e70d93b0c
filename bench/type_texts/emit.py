"""Writes the texts of crates/types_tests/faults.txt as plain trees with the fault that is written beside each, into
crates/types_tests. Run it in this folder (table.py makes faults.txt), and then `rt fmt` in that crate."""
import model, textwrap, re
L = lambda xs: '(' + ' ∷ '.join(list(xs) + ['[]']) + ')' if xs else '[]'
WORD = lambda w: 'what.Word word.' + w.capitalize() if w != 'suchthat' else 'what.Word word.Suchthat'
MARK = {'(': 'OpenParenthesis', ')': 'CloseParenthesis', '{': 'OpenBrace', '}': 'CloseBrace', '[': 'OpenBracket', ']': 'CloseBracket', ';': 'Semicolon',
        ',': 'Comma', '.': 'Dot', ':': 'Colon', '?': 'Question', '=': 'Assign', '+': 'Plus', '-': 'Minus', '*': 'Star', '/': 'Slash', '%': 'Percent',
        '<': 'Less', '>': 'Greater', '!': 'Not', '<=': 'LessEqual', '>=': 'GreaterEqual', '==': 'Equal', '!=': 'NotEqual', '&&': 'And', '||': 'Or',
        '++': 'Increment', '--': 'Decrement', '+=': 'PlusAssign', '-=': 'MinusAssign', '*=': 'StarAssign', '/=': 'SlashAssign', '%=': 'PercentAssign'}
B = lambda s: L([str(ord(c)) for c in s])
def token(t):
    k, v, p = t
    w = {'word': lambda: WORD(v), 'name': lambda: 'what.Name ' + B(v), 'number': lambda: 'what.Number (pos %d) size.%s' % (v[0], v[1].capitalize()),
         'char': lambda: 'what.Character %d' % v, 'string': lambda: 'what.String ' + B(v), 'mark': lambda: 'what.Mark mark.' + MARK[v]}[k]()
    return 'record { place = at %d %d; what = %s }' % (p + (w,))
class Emit:
    def __init__(self): self.names = {'main': 0}; self.formats = {}
    def n(self, x): return self.names.setdefault(x, len(self.names))
    def at(self, p): return '(at %d %d)' % p
    def x(self, v): return '(x %d %d %d)' % (v[1] + (self.n(v[0]),))
    def t(self, t):
        if t[0] == 'void': return '(type_name.Void %s)' % self.at(t[1])
        if t[0] == 'num': return '(type_name.Number numeric.%s)' % t[1].capitalize()
        return '(type_name.%s %s)' % ({'struct': 'Structure', 'enum': 'Enumeration', 'process': 'Process'}[t[0]], self.x(t[1]))
    def length(self, l):
        if l[0] == 'n': return '(some_length.Number %s (pos %d))' % (self.at(l[1]), l[2])
        return '(some_length.Name %s)' % self.x(l[1])
    def opt(self, f, v): return 'None' if v is None else '(Some %s)' % f(v)
    def e(self, e):
        t = e[0]; A = self.at; E = self.e; P = '(phrase.%s)'
        if t == 'num': return P % ('Number %s (pos %d) numeric.%s' % (A(e[1]), e[3], e[2].capitalize()))
        if t == 'name': return P % ('Name ' + self.x(e[1]))
        if t == 'call': return P % ('Call %s %s' % (self.x(e[1]), L([E(a) for a in e[2]])))
        if t == 'create': return P % ('Create %s %s %s' % (A(e[1]), self.x(e[2]), L([E(a) for a in e[3]])))
        if t == 'putchar': return P % ('PutChar %s %s' % (A(e[1]), E(e[2])))
        if t == 'getchar': return P % ('GetChar ' + A(e[1]))
        if t == 'printf':
            k = self.formats.setdefault(e[2][0], len(self.formats))
            return P % ('PrintFormat %s (record { place = %s; number = %d }) %s' % (A(e[1]), A(e[2][1]), k, L([E(a) for a in e[3]])))
        if t == 'paren': return P % ('Parenthesized %s %s' % (A(e[1]), E(e[2])))
        if t == 'neg': return P % ('%s %s %s' % ({'-': 'Negate', '+': 'Plus'}[e[3]], A(e[1]), E(e[2])))
        if t == 'not': return P % ('Not %s %s' % (A(e[1]), E(e[2])))
        W = {'++': 'step_word.Up', '--': 'step_word.Down'}
        if t == 'before': return P % ('StepBefore %s %s %s' % (A(e[1]), W[e[3]], E(e[2])))
        if t == 'after': return P % ('StepAfter %s %s' % (E(e[1]), W[e[2]]))
        OPS = {'+': 'Add', '-': 'Subtract', '*': 'Multiply', '/': 'Divide', '%': 'Remainder'}
        CMP = {'<': 'Less', '<=': 'AtMost', '>': 'Greater', '>=': 'AtLeast', '==': 'Equal', '!=': 'Different'}
        if t == 'arith': return P % ('Arithmetic %s %s' % (E(e[1]), L(['record { operator = operator.%s; operand = %s }' % (OPS[o], E(b)) for o, b in e[2]])))
        if t == 'compare': return P % ('Compare %s %s' % (E(e[1]), L(['record { comparison = comparison.%s; operand = %s }' % (CMP[o], E(b)) for o, b in e[2]])))
        if t == 'logic': return P % ('%s %s %s' % ('Both' if e[2][0][0] == '&&' else 'Either', E(e[1]), L([E(b) for _, b in e[2]])))
        if t == 'choose': return P % ('Choose %s %s %s' % tuple(E(v) for v in e[1:]))
        if t == 'assign': return P % ('Assign %s %s' % (E(e[1]), E(e[2])))
        if t == 'update': return P % ('Update %s operator.%s %s' % (E(e[1]), OPS[e[2][0]], E(e[3])))
        if t == 'within': return P % ('Within %s %s %s %s' % (A(e[1]), E(e[2]), E(e[3]), E(e[4])))
        if t == 'chain': return P % ('Chain %s %s' % (E(e[1]), L([self.step(s) for s in e[2]])))
        raise Exception(t)
    def step(self, s):
        if s[0] == 'field': return 'step.Field ' + self.x(s[1])
        if s[0] == 'index': return 'step.Index ' + self.e(s[1])
        return 'step.Call %s %s' % (self.x(s[1]), L([self.e(a) for a in s[2]]))
    def s(self, s):
        t = s[0]; A = self.at; E = self.e; S = self.s; P = '(statement.%s)'
        if t == 'local':
            of, name = self.t(s[1]), self.x(s[2])
            f = 'form.Plain' if s[3] is None else 'form.Array ' + self.length(s[3][1]) if s[3][0] == 'array' else 'form.Value ' + E(s[3][1])
            return P % ('Declare (record { of = %s; name = %s; form = %s })' % (of, name, f))
        if t == 'empty': return 'statement.Empty'
        if t == 'block': return P % ('Block ' + L([S(a) for a in s[1]]))
        if t == 'expr': return P % ('Evaluate ' + E(s[1]))
        if t == 'if': return P % ('If %s %s' % (E(s[1]), S(s[2])))
        if t == 'ifelse': return P % ('IfElse %s %s %s' % (E(s[1]), S(s[2]), S(s[3])))
        if t == 'while': return P % ('While %s %s' % (E(s[1]), S(s[2])))
        if t == 'do': return P % ('DoWhile %s %s' % (S(s[1]), E(s[2])))
        if t == 'for': return P % ('For %s %s %s %s' % (self.opt(E, s[1]), self.opt(E, s[2]), self.opt(E, s[3]), S(s[4])))
        if t in ('break', 'continue'): return P % (t.capitalize() + ' ' + A(s[1]))
        if t == 'return': return P % ('Return %s %s' % (A(s[1]), self.opt(E, s[2])))
        if t == 'treturn': return P % ('TransactionReturn %s %s' % (A(s[1]), self.opt(E, s[2])))
        if t == 'delay': return P % ('Delay ' + E(s[1]))
        if t == 'accept': return P % ('Accept ' + self.accept(s[1]))
        if t == 'select': return P % ('Select %s %s' % (A(s[1]), L([self.alternative(a) for a in s[2]])))
        raise Exception(t)
    def accept(self, a):
        p, n, ns, cl, b = a; h = (self.at(p), self.x(n), L([self.x(m) for m in ns]))
        c = L(['record { word = clause_word.%s; expression = %s }' % ('SuchThat' if w == 'suchthat' else 'By', self.e(e)) for w, e in cl])
        return '(record { head = record { place = %s; name = %s; names = %s; clauses = %s }; block = %s })' % (h + (c, L([self.s(x) for x in b])))
    def alternative(self, a):
        g, c, es = a; g = self.opt(self.e, g)
        k = {'accept': lambda: '(choice.Accept %s)' % self.accept(c[1]), 'delay': lambda: '(choice.Delay %s)' % self.e(c[1]),
             'now': lambda: 'choice.Immediate', 'end': lambda: 'choice.Terminate'}[c[0]]()
        return 'record { guard = %s; choice = %s; entries = %s }' % (g, k, L([self.s(x) for x in es]))
    def item(self, i):
        t = i[0]
        if t == 'struct': return 'item.Structure %s %s' % (self.x(i[1]), L(['record { of = %s; name = %s; length = %s }' % (self.t(a), self.x(n), self.opt(self.length, l)) for a, n, l in i[2]]))
        if t == 'enum':
            val = lambda v: '(record { negative = %s; length = %s })' % ('true' if v[0] else 'false', self.length(v[1]))
            return 'item.Enumeration %s %s' % (self.opt(self.x, i[1]), L(['record { name = %s; value = %s }' % (self.x(n), self.opt(val, v)) for n, v in i[2]]))
        if t == 'spec':
            name, qs = self.x(i[1]), L([self.t(q) for q in i[2]])
            ts = L(['record { result = %s; name = %s; parameters = %s }' % (self.opt(self.t, r), self.x(n), L([self.t(q) for q in ps])) for r, n, ps in i[3]])
            return 'item.Specification %s %s %s' % (name, qs, ts)
        if t == 'body': return 'item.Body %s %s %s' % (self.x(i[1]), L([self.x(m) for m in i[2]]), L([self.s(x) for x in i[3]]))
        result, name = self.t(i[1]), self.x(i[2])
        ps = L(['record { of = %s; name = %s }' % (self.t(a), self.x(n)) for a, n in i[3]])
        return 'item.Function %s %s %s %s' % (result, name, ps, L([self.s(x) for x in i[4]]))
    def plain(self, items):
        its = L([self.item(i) for i in items])
        fs = L([L([str(ord(c)) for c in f]) for f in self.formats])
        return 'record { names = %d; formats = %s; items = %s }' % (len(self.names), fs, its)

HEAD = open('texts_head.txt').read()
UNFOLD = '''program sorted first faults answer map checked both asked each each_after after_each judged after expression place_of count_row
    is_place depth_of type_of type_after element_within is_int is_format conversions E.shape-the_row-Phrase-1 E.hidden-the_row-Phrase-0 E.hidden-the_row-Phrase-1
    E.hidden-the_row-Step-2 E.hidden-the_row-Operation-3 E.hidden-the_row-Compared-4 S.hidden-the_row-Statement-0 S.shape-the_row-Statement-1
    S.hidden-the_row-Statement-1 S.hidden-the_row-Alternative-2 hidden'''
def used(text):
    """The file without imports that nothing in it uses."""
    body = '\n'.join(l for l in text.split('\n') if not l.startswith(('use ', '-- '))); out = []
    for l in text.split('\n'):
        m = re.match(r'use (\S+) as (\w+)$', l); n = re.match(r'use (\S+)\.\{(.*)\}$', l)
        if m and m.group(2) + '.' not in body: continue
        if n:
            words = [w for w in n.group(2).split(', ') if re.search(r'(?<![\w.])' + re.escape(w.strip('◌')) + r'(?![\w.])', body)]
            if not words: continue
            l = 'use %s.{%s}' % (n.group(1), ', '.join(words))
        out.append(l)
    return '\n'.join(out)

groups = []; title = None
for line in open('../../crates/types_tests/faults.txt'):
    line = line.rstrip('\n')
    if line.startswith('# --'): title = line[5:]; groups.append((title, [])); continue
    if line.startswith('#') or not line: continue
    want, text = line.split('\t', 1)
    if len(text) > 400 and 'buffer' not in text and 'stage' not in text: continue
    try: items = model.Parser(model.lex(text.replace('$', '\n'))).text()
    except model.Early: continue
    groups[-1][1].append((want, text, Emit().plain(items)))
files = []; cur = []; names = []
for title, rows in groups:
    for k in range(0, len(rows), 12):
        part = rows[k:k + 12]; files.append((title, part))
mods = []
for k, (title, rows) in enumerate(files):
    name = 'Texts%02d' % k; mods.append(name); out = ['-- ' + title + ('' if title.endswith('.') else '')] + [HEAD]
    for j, (want, text, plain) in enumerate(rows):
        w = 'None' if want == 'ok' else 'Some (fault_at %s %s kind.%s)' % tuple(re.split('[: ]', want))
        out.append('-- ' + text if len(text) < 150 else '-- (a longer text)')
        out.append('abbrev text%d : Row\ntext%d =' % (j, j))
        body = '(%s, %s)' % (plain, w)
        out += textwrap.wrap(body, width=150, initial_indent='    ', subsequent_indent='    ', break_long_words=False, break_on_hyphens=False); out.append('')
    out.append('abbrev pub rows : List Row\nrows = ' + ' ∷ '.join('text%d' % j for j in range(len(rows))) + ' ∷ []')
    open('../../crates/types_tests/specs/%s.antt' % name, 'w').write(used('\n'.join(out) + '\n'))
open('../../crates/types_tests/specs/Lib.antt', 'w').write('pub mod Seen\npub mod Trees\npub mod Parsed\n' + ''.join('pub mod %s\n' % m for m in mods))
# the proofs: each text is computed
import os, shutil, collections
P = '../../crates/types_tests/proofs/'
shutil.rmtree(P, ignore_errors=True); os.makedirs(P)
USES = open('held_head.txt').read()
for m, (title, rows) in zip(mods, files):
    out = ['-- ' + title + ': each text computed.', USES.replace('TEXTS', m), 'pub hold : Hold rows', 'unfolding ' + UNFOLD,
           'hold = ' + '(refl, ' * len(rows) + 'tt' + ')' * len(rows)]
    open(P + m.replace('Texts', 'Held') + '.antt', 'w').write('\n'.join(out) + '\n')
open(P + 'Lib.antt', 'w').write('pub mod Parsed\n' + ''.join('pub mod %s\n' % m.replace('Texts', 'Held') for m in mods))
groups = collections.OrderedDict()
for k in range(0, len(mods), 6): groups['texts_%d' % (k // 6 + 1)] = list(range(k, min(k + 6, len(mods))))
lib = ['//! The first faults of texts, written by hand, which the definition computes.', '#![tactic(auto)]', '', 'ghost use Rattle.types_tests.specs.Seen.{Hold};']
lib += ['ghost use Rattle.types_tests.specs.Parsed.{rows as parsed_rows};', 'ghost use Rattle.types_tests.specs.Trees.{HaveTrees};']
lib += ['ghost use Rattle.types_tests.specs.%s.{rows as rows_%02d};' % (m, k) for k, m in enumerate(mods)] + ['']
for g, ks in groups.items():
    lib += ['/// ' + '; '.join(dict.fromkeys(files[k][0] for k in ks)), 'fn %s()' % g]
    lib += ['    ensures text%02d { Hold rows_%02d }' % (k, k) for k in ks] + ['{}', '']
    os.makedirs(P + g); a = ['use Rattle.types_tests.proofs.Held%02d.{hold as hold_%02d}' % (k, k) for k in ks]
    a += ['use Rattle.types_tests.proofs.%s.Goals as goal' % g, '']
    if len(ks) == 1: a += ['pub returns : goal.returns', 'returns c = record { text%02d = hold_%02d }' % (ks[0], ks[0]), '']
    else:
        for k in ks: a += ['pub returns-clause-text%02d : goal.returns-clause-text%02d' % (k, k), 'returns-clause-text%02d c = hold_%02d' % (k, k), '']
    open(P + g + '/Answers.antt', 'w').write('\n'.join(a))
lib += ['/// Texts as tokens, with their plain trees.', 'fn plain_trees()', '    ensures trees { HaveTrees parsed_rows }', '{}', '']
os.makedirs(P + 'plain_trees'); open(P + 'plain_trees/Answers.antt', 'w').write('''use Rattle.types_tests.proofs.Parsed.{hold}
use Rattle.types_tests.proofs.plain_trees.Goals as goal

pub returns : goal.returns
returns c = record { trees = hold }
''')
open(P + 'Parsed.antt', 'w').write(open('parsed_head.txt').read() + 'hold = ' + '(refl, ' * len(open('parsed.txt').readlines()) + 'tt' + ')' * len(open('parsed.txt').readlines()) + '\n')
lib += ['#[test]', 'fn first_faults() {'] + ['    %s();' % g for g in groups] + ['}', '', '#[test]', 'fn trees_of_texts() {', '    plain_trees();', '}']
open('../../crates/types_tests/src/lib.rt', 'w').write('\n'.join(lib) + '\n')
print(len(files), 'files', sum(len(r) for _, r in files), 'texts')
# texts as tokens, and their plain trees
rows = []; out = ['-- Texts as tokens, and the plain tree of each.', open('tokens_head.txt').read()]
for k, line in enumerate(open('parsed.txt')):
    text = line.rstrip('\n'); toks = model.lex(text)
    plain = Emit().plain(model.Parser(toks).text())
    out += ['-- ' + text, 'abbrev text%d : Row\ntext%d =' % (k, k)]
    body = '(record { tokens = %s; end = at %d %d }, Some (%s))' % ((L([token(t) for t in toks[:-1]]),) + toks[-1][2] + (plain,))
    out += textwrap.wrap(body, width=150, initial_indent='    ', subsequent_indent='    ', break_long_words=False, break_on_hyphens=False) + ['']
    rows.append('text%d' % k)
out.append('abbrev pub rows : List Row\nrows = ' + ' ∷ '.join(rows) + ' ∷ []')
open('../../crates/types_tests/specs/Parsed.antt', 'w').write(used('\n'.join(out) + '\n'))
