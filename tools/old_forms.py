"""Counts the places of src/ that docs/DESIGN-PASS.md speaks of, by point: python3 tools/old_forms.py [-v] [ROOT].
Rests on the text of crates/*/src alone; with -v each place is printed. A place is a line `crate/file:line text`."""
import glob
import os
import re
import sys


def functions(text):
    """Each function as (line, head up to its body, body)."""
    for m in re.finditer(r'^ *(?:pub )?(?:extern "C" )?fn (\w+)', text, re.M):
        head_end = text.find('\n{', m.start())
        inner = text.find('\n    {', m.start())
        if inner != -1 and (head_end == -1 or inner < head_end) and text[m.start()] == ' ':
            head_end, close = inner, '\n    }'
        else:
            close = '\n}'
        one_line = text.find(' {\n', m.start())
        if head_end == -1 or (one_line != -1 and one_line < head_end and '\n' not in text[m.start():one_line]):
            head_end = one_line
            close = '\n    }' if text[m.start()] == ' ' else '\n}'
        end = text.find(close, head_end + 1)
        yield text.count('\n', 0, m.start()) + 1, text[m.start():head_end], text[head_end:end]


def parameters(head):
    """The parameters of a function's head, but for self."""
    start = head.find('(')
    depth, k = 0, start
    for k in range(start, len(head)):
        depth += head[k] in '([<{'
        depth -= head[k] in ')]>}' and head[k - 1] != '-'
        if depth == 0:
            break
    inner = head[start + 1:k]
    parts, depth, part = [], 0, ''
    for c in inner:
        depth += c in '([<{'
        depth -= c in ')]>}'
        if c == ',' and depth == 0:
            parts.append(part)
            part = ''
        else:
            part += c
    parts.append(part)
    return [p.strip() for p in parts if p.strip() and p.strip() not in ('self', '&self', '&mut self', 'mut self')]


def variants(body):
    """How many variants an enum has, and how many of them carry a value."""
    depth, count, carrying, at_start = 0, 0, 0, True
    body = re.sub(r'//[^\n]*', '', body)
    for m in re.finditer(r'[{}()]|\w+|,', body):
        t = m.group(0)
        if depth == 0 and re.match(r'[A-Z]\w*$', t) and at_start:
            count, at_start = count + 1, False
        elif t in '({':
            if depth == 0:
                carrying += 1
            depth += 1
        elif t in ')}':
            depth -= 1
        elif t == ',' and depth == 0:
            at_start = True
    return count, carrying


NONE = re.compile(r'if (?:there|it) is none|as many as there are|if none|0 if (?:it|none)|the bound if|length if (?:it|there)', re.I)
POINTS = {
    '1 enums of the shape of Option': [],
    '1 structs with a flag or a code beside values': [],
    '1 functions that answer a refusal by a number': [],
    '1 searches that answer a number where there is none': [],
    '1 numbers tested and handed on, as `if why != 0 { return why; }`': [],
    '3 while loops that count': [],
    '3 for loops that index by their number': [],
    '4 comparisons with false': [],
    '4 tests that end in two literals': [],
    '5 functions with more than seven parameters': [],
    '5 requires that stand in three functions or more': [],
    '6 functions over parallel slices or arrays': [],
    '7 chains of tests for which step to run': [],
}


def look(root):
    requires = {}
    for path in sorted(glob.glob(os.path.join(root, 'crates/*/src/**/*.rt'), recursive=True)):
        text = open(path).read()
        name = path.split('/crates/')[1].replace('/src/', '/')

        def place(point, line, what):
            POINTS[point].append('%s:%d %s' % (name, line, what))

        for m in re.finditer(r'^(?:pub )?enum (\w+) \{(.*?)^\}', text, re.M | re.S):
            count, carrying = variants(m.group(2))
            if count == 2 and carrying:
                place('1 enums of the shape of Option', text.count('\n', 0, m.start()) + 1, m.group(1))
        for m in re.finditer(r'^(?:pub )?struct (\w+)[^{;]*\{(.*?)^\}', text, re.M | re.S):
            if re.search(r'^ *(?:pub )?(?:why|code|state|fits|agreed|form|number): (?:u8|bool),', m.group(2), re.M):
                place('1 structs with a flag or a code beside values', text.count('\n', 0, m.start()) + 1, m.group(1))
        lines = text.split('\n')
        for line, head, body in functions(text):
            what = re.search(r'fn (\w+)', head).group(1)
            comment, k = '', line - 2
            while k >= 0 and lines[k].strip().startswith(('//', '#')):
                comment, k = lines[k] + comment, k - 1
            result = re.search(r'-> (\w+)', head)
            result = result.group(1) if result else ''
            if result == 'u8' and re.search(r'first_cause|_code|refusal|flat result|outcome|judged', head) and 'extern' not in head:
                place('1 functions that answer a refusal by a number', line, what)
            if result in ('usize', 'u8', 'u16', 'u32', 'u64', 'Spot') and NONE.search(comment) and 'extern' not in head:
                place('1 searches that answer a number where there is none', line, what)
            for m in re.finditer(r'if (\w+) != 0 \{\s*return (?:\w+::)*\(?\1\b', body):
                place('1 numbers tested and handed on, as `if why != 0 { return why; }`', line, what)
            for m in re.finditer(r'\bwhile [^{]*\{', body):
                if re.search(r'\b(\w+) (?:\+= 1|= \1 \+ 1);', body[m.end():]):
                    place('3 while loops that count', line, what)
            for m in re.finditer(r'\bfor (\w+) in [^&{\n]*\.\.[^{\n]*\{(.*)', body, re.S):
                if re.search(r'\[[^\]]*\b%s\b[^\]]*\]' % m.group(1), m.group(2)):
                    place('3 for loops that index by their number', line, what)
            for _ in re.finditer(r'== false\b', body):
                place('4 comparisons with false', line, what)
            if re.search(r'return (true|false);\n +\}\n +(true|false)$', body.rstrip()) and 'for ' not in body and 'while ' not in body:
                place('4 tests that end in two literals', line, what)
            names = parameters(head.split('\n    requires')[0].split('\n    ensures')[0])
            if len(names) > 7 and 'extern' not in head:
                place('5 functions with more than seven parameters', line, what)
            given = {p.split(':')[0].strip() for p in names}
            for group in ({'kinds', 'firsts'}, {'lines', 'ends'}, {'words', 'counts'}, {'words', 'bytes'}, {'counts', 'bytes'}, {'bytes', 'masks'}):
                if group <= given and 'extern' not in head:
                    place('6 functions over parallel slices or arrays', line, what)
                    break
            m = re.search(r'requires \{(.*?)\}\n', head + '\n', re.S)
            if m:
                requires.setdefault(' '.join(m.group(1).split()), []).append('%s:%d %s' % (name, line, what))
            if len(re.findall(r'if (\w+) == (?:\d+|[A-Z_]+) \{\s*return', body)) > 2:
                place('7 chains of tests for which step to run', line, what)
    for clause, places in sorted(requires.items()):
        if len(places) > 2:
            POINTS['5 requires that stand in three functions or more'].append('%d times { %s }' % (len(places), clause[:110]))


if __name__ == '__main__':
    names = [a for a in sys.argv[1:] if a != '-v']
    look(names[0] if names else '.')
    for point, places in POINTS.items():
        print('%4d  %s' % (len(places), point))
        if '-v' in sys.argv:
            for p in places:
                print('          ' + p)
