"""Writes crates/types_tests/faults.txt from marked.txt: the mark @ becomes LINE:COLUMN. Two long texts are added at the end."""
out = ["# LINE:COLUMN KIND of the first fault, or ok, a tab, and the text; $ is a newline. The places and kinds were written by hand.\n"]
n = 0
for line in open('marked.txt'):
    line = line.rstrip('\n')
    if not line: continue
    if line.startswith('#'):
        if line.startswith('# --'): out.append(line + '\n')
        continue
    kind, text = line.split('\t', 1)
    n += 1
    if kind == 'ok': assert '@' not in text, text; out.append('ok\t%s\n' % text); continue
    assert text.count('@') == 1, text
    before = text.split('@')[0].split('$')
    out.append('%d:%d %s\t%s\n' % (len(before), len(before[-1]) + 1, kind, text.replace('@', '')))
deep = lambda k: "process spec p() { trans void t(int a); }; process body p() { int b[2]; accept t(a) suchthat (" + 'b[' * k + 'a' + ']' * k + "); } main() { }"
col = deep(0).index('suchthat (') + 11
out.append("# -- 26 PureTooDeep: an index adds one to the depth, so does a right operand; a row and `&&` don't\n")
sums = lambda k: "process spec p() { trans void t(int a); }; process body p() { accept t(a) by (" + 'a+(' * k + 'a' + ')' * k + "); } main() { }"
cols = sums(0).index('by (') + 5
proc = lambda k: "process spec p() { trans void t(int a); }; process body p() { process p q[2]; int b[2]; accept t(a) suchthat (q[" + 'b[' * k + 'a' + ']' * k + "]); } main() { }"
colp = proc(0).index('suchthat (') + 11
out += ['ok\t%s\n' % deep(63), '1:%d PureTooDeep\t%s\n' % (col, deep(64)), 'ok\t%s\n' % sums(63), '1:%d PureTooDeep\t%s\n' % (cols, sums(64)),
        'ok\t%s\n' % sums(0).replace('by (a', 'by (a' + '+a' * 90), 'ok\t%s\n' % sums(0).replace('by (a', 'by (a' + '&&a' * 90),
        '1:%d Mismatch\t%s\n' % (colp, proc(64)),
        '1:%d NotPure\t%s\n' % (cols, sums(64).replace('by (a', 'by (a++')),
        '1:%d PureTooDeep\t%s\n' % (cols, sums(64).replace('by (a', 'by (!a')) ]
n += 9
untyped = lambda k: "process body p() { accept t(a) by (" + 'a+(' * k + 'a' + ')' * k + "); } process spec p() { trans void t(void a); }; main() { }"
out += ['1:36 PureTooDeep\t%s\n' % untyped(64), '1:%d VoidHere\t%s\n' % (untyped(63).index('(void') + 2, untyped(63))]
n += 2
out.append("# -- 1 NoMain and 9 ManyCells at 1:1\n")
out.append('1:1 NoMain\tf(%s) { }\n' % ', '.join('int a%d' % k for k in range(257))); n += 1
out.append('1:1 NoMain\tf(%s) { }\n' % ', '.join('int a%d' % k for k in range(256))); n += 1
out.append('1:8 ManyCells\tvoid main() { } f(%s) { }\n'.replace('1:8', '1:17') % ', '.join('int a%d' % k for k in range(257))); n += 1
out.append("# -- nesting\n")
out.append('ok\tmain() { %s1%s; }\n' % ('(' * 198, ')' * 198)); out.append('1:209 TooDeep\tmain() { %s1%s; }\n' % ('(' * 199, ')' * 199)); n += 2
open('../../crates/types_tests/faults.txt', 'w').writelines(out)
print(n)
