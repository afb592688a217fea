#!/usr/bin/env python3
"""Prints tables of the boundary from its sources. What it does not understand ends it with status 1.

    tables.py rattle FILE..    the structs that exported functions take and give, laid out by C's rule, and the functions
    tables.py header FILE      the functions that the C header declares
    tables.py wrapper FILE     the functions that the Rust module declares
"""
import re
import sys

PLAIN = {'u64': 8, 'usize': 8, 'u8': 1}
UNITS = {'Ticks', 'Cycles', 'Speed', 'Volts'}


def die(what):
    sys.exit(f'tables.py: {what}')


def shown(name):
    """a type's name in the tables: the Rattle source's without Plain"""
    return name.removeprefix('Plain').lower()


def tokens(path):
    """words, strings and single marks, without comments"""
    with open(path, encoding='utf-8') as f:
        text = re.sub(r'//[^\n]*', '', f.read())
    if '/*' in text:
        die(f'{path}: a comment that is not a line comment')
    return re.findall(r'"[^"\n]*"|\w+|\S', text)


class Reader:
    """tokens with a place"""

    def __init__(self, path, words, place):
        self.path, self.words, self.place = path, words, place

    def peek(self):
        return self.words[self.place] if self.place < len(self.words) else 'the end'

    def take(self, *wanted):
        word = self.peek()
        if wanted and word not in wanted:
            die(f'{self.path}: {word!r} where {" or ".join(wanted)} is understood')
        self.place += 1
        return word

    def name(self):
        word = self.take()
        if not re.fullmatch(r'[A-Za-z_]\w*', word):
            die(f'{self.path}: {word!r} where a name is understood')
        return word

    def type(self):
        """a name, or an array of one: (name, length or None)"""
        if self.peek() != '[':
            return self.name(), None
        self.take('[')
        name = self.name()
        self.take(';')
        length = self.take()
        self.take(']')
        if not length.isdigit():
            die(f'{self.path}: an array of length {length!r}')
        return name, int(length)


def attributes(words, place):
    """the attributes that end before a place, `pub` skipped"""
    found = []
    if place and words[place - 1] == 'pub':
        place -= 1
    while place and words[place - 1] == ']':
        first = place - 1
        while words[first] != '#':
            first -= 1
        found.append(''.join(words[first:place]))
        place = first
    return found


def struct_at(path, words, place):
    """name, attributes and fields of the struct whose keyword stands at a place"""
    reader = Reader(path, words, place + 1)
    name, fields = reader.name(), []
    if reader.take('{', '(') == '(':
        reader.take('pub')
        fields.append(('0', reader.type()))
        reader.take(')')
        reader.take(';')
        return name, attributes(words, place), fields
    while reader.peek() != '}':
        reader.take('pub')
        field = reader.name()
        reader.take(':')
        fields.append((field, reader.type()))
        if reader.take(',', '}') == '}':
            break
    return name, attributes(words, place), fields


def parameter(reader):
    """one parameter of an exported function, as C sees it: one or two of (name, kind)"""
    name = reader.name()
    reader.take(':')
    if reader.peek() != '&':
        return [(name, reader.name())]
    reader.take('&')
    kind = '*const u64'
    if reader.peek() == 'mut':
        reader.take('mut')
        kind = '*mut u64'
    for word in ('[', 'u64', ']'):
        reader.take(word)
    return [(name, kind), (re.sub('s$', '', name) + '_count', 'usize')]


def function_at(path, words, place):
    """name, parameters and answer of the exported function whose `extern` stands at a place"""
    if words[place - 1] != 'pub' or attributes(words, place) != ['#[unsafe(no_mangle)]']:
        die(f'{path}: an extern function that is not `#[unsafe(no_mangle)] pub`')
    reader = Reader(path, words, place + 1)
    reader.take('"C"')
    reader.take('fn')
    name, parameters = reader.name(), []
    reader.take('(')
    while reader.peek() != ')':
        parameters += parameter(reader)
        if reader.peek() != ')':
            reader.take(',')
    for word in (')', '-', '>'):
        reader.take(word)
    return name, parameters, reader.name()


def read_rattle(paths):
    """all structs by their names, and the exported functions"""
    structs, functions = {}, []
    for path in paths:
        words = tokens(path)
        for place, word in enumerate(words):
            if word == 'struct':
                name, marks, fields = struct_at(path, words, place)
                if name in structs:
                    die(f'{path}: a second struct {name}')
                structs[name] = (marks, fields)
            elif word == 'extern':
                functions.append(function_at(path, words, place))
        if words.count('no_mangle') != words.count('extern'):
            die(f'{path}: #[unsafe(no_mangle)] on what is no extern function')
    return structs, functions


def layout(structs, name, done):
    """size and alignment of a type; a struct is laid out by C's rule, and its lines added to done"""
    if name in PLAIN:
        return PLAIN[name], PLAIN[name]
    if name not in structs:
        die(f'the type {name} is not among the structs')
    marks, fields = structs[name]
    derived = [m for m in marks if re.fullmatch(r'#\[derive\(Clone,Copy(,\w+)*\)\]', m)]
    if len(marks) != 2 or len(derived) != 1 or '#[repr(C)]' not in marks:
        die(f'struct {name} goes over the boundary, and its attributes are {marks}, not #[repr(C)] and a derive of Clone, Copy and others alone')
    end, most, lines = 0, 1, []
    for field, (kind, length) in fields:
        size, align = layout(structs, kind, done)
        end = -(-end // align) * align
        written = shown(kind) if length is None else f'[{shown(kind)}; {length}]'
        total = size if length is None else size * length
        lines.append(f'field {shown(name)}.{field} offset {end} size {total} type {written}')
        end, most = end + total, max(most, align)
    end = -(-end // most) * most
    if name in UNITS:
        if lines != [f'field {shown(name)}.0 offset 0 size 8 type u64']:
            die(f'the unit {name} is no single u64')
    elif name not in done:
        done[name] = [f'struct {shown(name)} size {end} align {most}'] + lines
    return end, most


def written(name, parameters, answer):
    """a function's line of the tables"""
    inside = ', '.join(f'{p}: {shown(k) if k[0] != "*" else k}' for p, k in parameters)
    return f'function {name}({inside}) -> {shown(answer)}'


def declared_in_header(path):
    """the functions that the header declares, but for those that it defines"""
    with open(path, encoding='utf-8') as f:
        text = re.sub(r'/\*.*?\*/', ' ', f.read(), flags=re.S)
    text = re.sub(r'^[ \t]*#.*$', '', text, flags=re.M)
    found = []
    for kind, name, inside in re.findall(r'(\w+)[\s*]+(piszczalin_\w+)\s*\(([^()]*)\)\s*;', text):
        answer = re.fullmatch(r'piszczalin_(\w+)', kind)
        if not answer:
            die(f'{path}: {name} answers {kind!r}')
        parameters = []
        for one in inside.split(','):
            match = re.fullmatch(r'\s*(const uint64_t \*|uint64_t \*|size_t |piszczalin_(\w+) )\s*(\w+)\s*', one)
            if not match:
                die(f'{path}: the parameter {one.strip()!r} of {name}')
            kinds = {'const uint64_t *': '*const u64', 'uint64_t *': '*mut u64', 'size_t ': 'usize'}
            parameters.append((match[3], kinds.get(match[1], match[2])))
        found.append((name, parameters, answer[1]))
    return found


def declared_in_wrapper(path):
    """the functions of the Rust module's extern block"""
    words = tokens(path)
    if words.count('extern') != 1:
        die(f'{path}: not exactly one extern block')
    reader = Reader(path, words, words.index('extern'))
    for word in ('extern', '"C"', '{'):
        reader.take(word)
    found = []
    while reader.peek() != '}':
        reader.take('pub')
        reader.take('fn')
        name, parameters = reader.name(), []
        reader.take('(')
        while reader.peek() != ')':
            field = reader.name()
            reader.take(':')
            kind = reader.take('*') + reader.take('const', 'mut') + ' ' if reader.peek() == '*' else ''
            parameters.append((field, kind + reader.name()))
            if reader.peek() != ')':
                reader.take(',')
        for word in (')', '-', '>'):
            reader.take(word)
        found.append((name, parameters, reader.name()))
        reader.take(';')
    return found


def main():
    if len(sys.argv) < 3 or sys.argv[1] not in ('rattle', 'header', 'wrapper'):
        die('the first word is rattle, header or wrapper, then files')
    source, paths = sys.argv[1], sys.argv[2:]
    if source == 'rattle':
        structs, functions = read_rattle(paths)
        done = {}
        for _, parameters, answer in functions:
            for kind in [k for _, k in parameters if k[0] != '*'] + [answer]:
                layout(structs, kind, done)
        print('\n'.join(line for name in sorted(done, key=shown) for line in done[name]))
    else:
        declared = declared_in_header if source == 'header' else declared_in_wrapper
        functions = [f for path in paths for f in declared(path)]
    print('\n'.join(written(*f) for f in sorted(functions)))


main()
