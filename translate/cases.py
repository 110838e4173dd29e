#!/usr/bin/env python3
"""Calls of every function of a C file with the answers that the machine gives, as a C file of their own.

usage: cases.py CRATE MIR C_FILE HEADER.. >CASES.c

The cases include C_FILE, so that its functions can be called one by one, and run on any processor that has a
C library. There are random arguments for each function, and calls that were made inside of whole calls on the
machine. Arguments at which the machine is stuck break a promise of the caller's, and are left out. Struct
members and parameters are read off the C text: nothing is shared with the translator in src/.
"""
import os
import random
import re
import sys

import calls
from machine import Block, Machine, Pointer, Spot, Stuck, check, followed, listed, row, statements, width_of

SEED = 20127
RANDOM = 24  # random calls kept of each function,
TRIES = 96  # out of so many
INSIDE = 24  # calls kept of each function that whole calls make,
LONG = 8192  # and of those with so many bytes
FEW = 2  # only so many


# ---- types, as lists of words: 'tyBool', ['tyInt', '8'], ..


def symbol_of(of):
    return of[1][1][1:-1]


def is_slice(of):
    return of[0] == 'tyStruct'


def element_of(of):
    """What a slice is of."""
    return listed(of[2])[0][3]


def one_and_count(of):
    """A type, or that of an array's elements, and how many there are."""
    return (of[1], int(of[2][1])) if of[0] == 'tyArray' else (of, 1)


class Types:
    """What is asked of types."""

    def __init__(self, declared):
        self.declared = declared

    def parts(self, of):
        """The types of a struct's fields, or of each of an enum's variants' fields."""
        kind, body = self.declared[symbol_of(of)]
        return kind, listed(body) if kind == 'fields' else [listed(variant) for variant in listed(body)]

    def is_empty(self, of):
        """Whether C keeps nothing of it."""
        if of[0] == 'tyRef':
            return self.is_empty(of[3])
        if of[0] != 'tyNamed':
            return of == 'tyUnit'
        kind, parts = self.parts(of)
        return all(map(self.is_empty, parts)) if kind == 'fields' else parts == []

    def is_lent_for_writing(self, of):
        """Whether something can be written where it leads."""
        if of[0] == 'tyRef':
            return of[2] == 'mut' or self.is_lent_for_writing(of[3])
        if is_slice(of):
            return self.is_lent_for_writing(listed(of[2])[0])
        if of[0] != 'tyNamed':
            return False
        kind, parts = self.parts(of)
        return any(map(self.is_lent_for_writing, parts if kind == 'fields' else sum(parts, [])))


# ---- random values


class Random:
    def __init__(self, machine, seed):
        self.types, self.rng = Types(machine.declared), random.Random(seed)

    def number(self, width):
        rng = self.rng
        edges = (255, 256, 257, 511, 512, 1024, 2047, 65535, 65536)
        kinds = (rng.randrange(4), rng.randrange(24), rng.randrange(300), rng.choice(edges), -1 - rng.randrange(3),
                 rng.getrandbits(width), 1 << rng.randrange(width))
        return rng.choice(kinds) % (1 << width)

    def elements(self, of):
        if of[0] != 'tyInt':
            return row([self.value(of) for _ in range(self.rng.choice((1, 2, 3, 8)))])
        count, width = self.rng.choice((0, 1, 2, 8, 31, 32, 32, 32, 33, 64)), int(of[1])
        return Block(width, [self.number(width) if self.rng.random() < 0.5 else self.rng.randrange(3) for _ in range(count)])

    def value(self, of):
        if of == 'tyUnit':
            return ()
        if of == 'tyBool':
            return self.rng.random() < 0.5
        if of[0] == 'tyRef':
            return self.reference(of[3])
        if of[0] == 'tyInt':
            return int(of[1]), self.number(int(of[1]))
        if of[0] == 'tyArray':
            return row([self.value(of[1]) for _ in range(int(of[2][1]))])
        if is_slice(of):
            one, count = one_and_count(element_of(of))
            block = self.elements(one)
            return Pointer(block, 0), (64, len(block.elements) // count)
        kind, parts = self.types.parts(of)
        if kind == 'fields':
            return tuple(self.value(field) for field in parts)
        if parts == []:
            raise Stuck('a value of no variant')
        tag = self.rng.randrange(len(parts))
        return ((8, tag),) + tuple(self.value(field) for field in parts[tag])

    def reference(self, of):
        whole = self.value(of)
        if of[0] == 'tyInt':
            return Pointer(row([whole]), 0)
        return Pointer(whole, 0) if of[0] == 'tyArray' else Spot([whole], 0)


# ---- cases as bytes: each number in groups of seven bits, the lowest first


def number_bytes(n):
    out = bytearray()
    while n > 127:
        out.append(n % 128 + 128)
        n //= 128
    out.append(n)
    return out


class Cases:
    """The cases kept, and how many of each function."""

    def __init__(self, types, wanted):
        self.types, self.wanted, self.kept, self.of_function, self.data = types, wanted, 0, {}, bytearray()

    def bytes_of(self, of, value):
        """A value, with all that it leads to."""
        if self.types.is_empty(of):
            return b''
        if of == 'tyBool':
            return bytes([value])
        if of[0] == 'tyInt':
            return number_bytes(value[1])
        if of[0] == 'tyArray':
            return self.bytes_of_all(of[1], value.elements)
        if of[0] == 'tyRef':
            led = followed(value, of[3]) if isinstance(value, Pointer) else value
            return self.bytes_of(of[3], led.read())
        if is_slice(of):
            pointer, (_, length) = value
            one, count = one_and_count(element_of(of))
            begin = pointer.byte * 8 // width_of(one)
            elements = pointer.block.elements[begin:begin + length * count]
            check(len(elements) == length * count, 'a slice outside of its block')
            return number_bytes(length) + self.bytes_of_all(one, elements)
        kind, parts = self.types.parts(of)
        fields = parts if kind == 'fields' else [['tyInt', '8']] + parts[value[0][1]]
        return b''.join(map(self.bytes_of, fields, value))

    def bytes_of_all(self, of, elements):
        values = ((int(of[1]), it) for it in elements) if of[0] == 'tyInt' else elements
        return b''.join(self.bytes_of(of, it) for it in values)

    def before(self, function, arguments):
        return b''.join(map(self.bytes_of, function.types[1:], arguments))

    def keep(self, function, before, arguments, result):
        after = self.bytes_of(function.types[0], result)
        for of, value in zip(function.types[1:], arguments):
            if self.types.is_lent_for_writing(of):
                after += self.bytes_of(of, value)
        self.kept += 1
        self.of_function[function.symbol] = self.of_function.get(function.symbol, 0) + 1
        self.data += number_bytes(self.wanted.index(function.symbol)) + before + after


def random_cases(machine, cases, rng):
    for symbol in cases.wanted:
        function, kept = machine.functions[symbol], 0
        for _ in range(TRIES):
            try:
                arguments = [rng.value(of) for of in function.types[1:1 + function.parameters]]
                before = cases.before(function, arguments)
                cases.keep(function, before, arguments, machine.call(symbol, list(arguments)))
            except Stuck:
                continue
            kept += 1
            if kept == RANDOM:
                break


def cases_inside(machine, cases, rng, crate):
    """Keeps some of the calls inside of whole calls, the first ones, then fewer. Here nothing may be stuck."""
    seen = {}

    def watch(function, arguments):
        if function.symbol not in cases.wanted:
            return None
        count = seen.get(function.symbol, 0)
        if count >= INSIDE or rng.rng.random() > 2.0 ** (-count / 3):
            return None
        before = cases.before(function, arguments)
        if len(before) > LONG and count >= FEW:
            return None
        seen[function.symbol] = count + 1
        return lambda result: cases.keep(function, before, arguments, result)

    machine.watch = watch
    calls.CALLS.get(crate, lambda machine, rng: None)(machine, rng.rng)
    machine.watch = None


# ---- the C file


class Text:
    """What the C text says of structs and parameters."""

    def __init__(self, headers, c_text):
        plain = re.sub(r'/\*.*?\*/', ' ', headers + c_text, flags=re.S)
        self.structs = {}
        for body, title in re.findall(r'typedef struct \{([^{}]*)\}\s*(\w+);', plain):
            members = [re.fullmatch(r'(.*[\s*])(\w+(?:\[\d+\])?)', member.strip()) for member in body.split(';') if member.strip()]
            self.structs[title] = [(member[1].strip(), member[2]) for member in members]
        self.bare = set(re.findall(r'typedef uint8_t (\w+);', plain))
        self.functions = {}
        for path, result, params in re.findall(r'^/\* (\S+) \*/\n(?:static|INLINED) ([\w *]*?)\w+\(([^()]*)\)$', c_text, flags=re.M):
            params = [re.fullmatch(r'([\w *]*?)a\d+', param.strip()) for param in params.split(',') if param.strip() != 'void']
            self.functions[path] = (result.strip(), [param[1].strip() for param in params])


SCALARS = {'uint8_t', 'uint16_t', 'uint32_t', 'uint64_t', '_Bool', 'bool'}


def pointed(c):
    """What a pointer of C points to, without its own const."""
    c = c[:-1].strip()
    return c.removesuffix('const').strip() if c.endswith('*const') else c if c.endswith('*') else c.removeprefix('const ')


def called(of, c):
    """A name for the functions of a type: C has one pointer for arrays of all lengths."""
    count = f'_{of[3][2][1]}' if of[0] == 'tyRef' and of[3][0] == 'tyArray' else ''
    return re.sub(r'\W+', '_', c) + count


class Writer:
    """Functions that read a value of a C type (read_TYPE), or compare one with what is read (same_TYPE)."""

    def __init__(self, machine, text):
        self.machine, self.text, self.made, self.lines = machine, text, set(), []
        self.types = Types(machine.declared)

    def say(self, *lines):
        self.lines += lines

    def need(self, verb, of, c):
        """The name of that function for the MIR's type that C calls so."""
        name = called(of, c)
        if (verb, name) in self.made or c in SCALARS or c == 'void':
            return name
        self.made.add((verb, name))
        if c in self.text.bare:
            self.say(f'#define {verb}_{c} {verb}_uint8_t')
        elif of[0] == 'tyRef':
            self.reference(verb, of[3], c, name)
        elif is_slice(of):
            self.slice(verb, c, *one_and_count(element_of(of)))
        elif of[0] == 'tyArray':
            self.array(verb, c, of[1])
        else:
            self.declared(verb, of, c)
        return name

    def declared(self, verb, of, c):
        kind, parts = self.types.parts(of)
        members = self.text.structs[c]
        if kind == 'fields':
            kept = self.kept(parts)
            assert len(members) == len(kept), f'the members of {c}'
            self.struct(verb, c, list(zip(kept, members)))
        else:
            self.enum(verb, c, [variant(self.kept(fields), members) for fields in parts])

    def kept(self, fields):
        return [of for of in fields if not self.types.is_empty(of)]

    def head(self, verb, c):
        if verb == 'read':
            self.say(f'static {c} read_{c}(void)', '{', f'    {c} made;')
        else:
            self.say(f'static int same_{c}({c} found)', '{', '    int same = 1;')

    def tail(self, verb):
        self.say('    return made;' if verb == 'read' else '    return same;', '}')

    def part(self, verb, c, name):
        self.say(f'    made.{name} = read_{c}();' if verb == 'read' else f'    same &= same_{c}(found.{name});')

    def struct(self, verb, c, pairs):
        named = [(self.need(verb, of, member), name) for of, (member, name) in pairs]
        self.head(verb, c)
        for member, name in named:
            self.parts(verb, member, name)
        self.tail(verb)

    def enum(self, verb, c, variants):
        named = [[(self.need(verb, of, member), name) for of, (member, name) in pairs] for pairs in variants]
        self.head(verb, c)
        self.say('    const uint8_t tag = read_uint8_t();')
        if verb == 'read':
            self.say('    memset(&made, 0, sizeof made);', '    made.tag = tag;')
        else:
            self.say('    same &= tag == found.tag;')
        self.say('    switch (tag) {')
        for tag, pairs in enumerate(named):
            self.say(f'    case {tag}:')
            for member, name in pairs:
                self.part(verb, member, name)
            self.say('    break;')
        self.say('    }')
        self.tail(verb)

    def parts(self, verb, c, name):
        """A member, or the elements of one that is an array as C has it."""
        array = re.fullmatch(r'(\w+)\[(\d+)\]', name)
        if array:
            self.say(f'    for (int i = 0; i < {array[2]}; i++)')
            name = f'{array[1]}[i]'
        self.part(verb, c, name)

    def array(self, verb, c, of):
        (element, member), = self.text.structs[c]
        element = self.need(verb, of, element)
        self.head(verb, c)
        self.parts(verb, element, member)
        self.tail(verb)

    def memory(self, element, count, read):
        """Memory for exactly the elements, so that a sanitizer sees an access too far."""
        self.say(f'    {element} *memory = malloc({count} == 0 ? 1 : (size_t){count} * sizeof *memory);',
                 f'    for (uint64_t i = 0; i < {count}; i++)', f'        memory[i] = read_{read}();', '    lend(memory);')

    def slice(self, verb, c, of, many):
        (pointer, at), (_, length) = self.text.structs[c]
        element, inner = pointed(pointer), self.need(verb, of, pointed(pointer))
        self.head(verb, c)
        self.say('    const uint64_t length = next();')
        if verb == 'read':
            self.say(f'    const uint64_t count = length * {many};')
            self.memory(element, 'count', inner)
            self.say(f'    made.{at} = memory;', f'    made.{length} = length;')
        else:
            self.say(f'    same &= length == found.{length};', f'    for (uint64_t i = 0; i < length * {many} && same; i++)')
            self.part(verb, inner, f'{at}[i]')
        self.tail(verb)

    def reference(self, verb, of, c, name):
        element, count = pointed(c), 1
        if of[0] == 'tyArray':
            of, count = of[1], int(of[2][1])
        inner = self.need(verb, of, element)
        if verb == 'read':
            self.say(f'static {c}read_{name}(void)', '{')
            self.memory(element, f'UINT64_C({count})', inner)
            self.say('    return memory;', '}')
        else:
            self.say(f'static int same_{name}({c}found)', '{', '    int same = 1;')
            self.say(f'    for (uint64_t i = 0; i < {count}; i++)', f'        same &= same_{inner}(found[i]);')
            self.tail(verb)

    def function(self, k, symbol):
        function, (result, params) = self.machine.functions[symbol], self.text.functions[symbol]
        types = self.kept(function.types[1:1 + function.parameters])
        assert len(types) == len(params), symbol
        result_name = self.need('same', function.types[0], result)
        read, handed, written = [], [], []
        for i, (of, c) in enumerate(zip(types, params), 1):
            by_pointer = c.endswith('*') and of[0] != 'tyRef'
            value = pointed(c) if by_pointer else c
            read.append(f'    {value} a{i} = read_{self.need("read", of, value)}();')
            handed.append(f'{"&" if by_pointer else ""}a{i}')
            if self.types.is_lent_for_writing(of):
                written.append(f'    same &= same_{self.need("same", of, value)}(a{i});')
        called_ = f'{symbol.replace("::", "__")}({", ".join(handed)})'
        self.say(f'static int case_{k}(void)', '{', '    int same = 1;', *read)
        self.say(f'    {called_};' if result == 'void' else f'    same &= same_{result_name}({called_});')
        self.say(*written, '    return same;', '}')


def label(of):
    """What a member of an enum is called after."""
    if of == 'tyBool':
        return 'bool'
    if of[0] == 'tyInt':
        return f'u{of[1]}'
    if of[0] == 'tyArray':
        return f'array_{of[2][1]}_{label(of[1])}'
    if of[0] == 'tyRef':
        return f'{"mut" if of[2] == "mut" else "ref"}_{label(of[3])}'
    if is_slice(of):
        return f'slice_{"mut_" if listed(of[2])[0][2] == "mut" else ""}{label(element_of(of))}'
    return symbol_of(of).replace('::', '__')


def variant(fields, members):
    """A variant's fields and their members: the first field of a type is in the first member of that type."""
    pairs = []
    for of in fields:
        taken = [member for _, member in pairs]
        fits = [member for member in members[1:] if member[1].rsplit('_', 1)[0] == label(of)]
        pairs.append((of, next(member for member in fits if member not in taken)))
    return pairs


HEAD = '''/* Calls of the functions of %s one by one, with the answers of the machine that runs their MIR. */
#include <stdio.h>
#include <stdlib.h>
#include <string.h>
#include "%s"

static const uint64_t data[] = {
%s
};
static uint32_t place;
static void *lent[256];
static int lent_count;

static uint8_t byte(void)
{
    const uint8_t found = (uint8_t)(data[place / 8] >> (8 * (place %% 8)) & 255);
    place++;
    return found;
}
static uint64_t next(void)
{
    uint64_t number = 0;
    int shift = 0;
    for (;;) {
        const uint8_t found = byte();
        number |= (uint64_t)(found & 127) << shift;
        if (found < 128)
            return number;
        shift += 7;
    }
}
static void lend(void *memory)
{
    lent[lent_count++] = memory;
}
#define NUMBERS(type) \\
    static type read_##type(void) \\
    { \\
        return (type)next(); \\
    } \\
    static int same_##type(type found) \\
    { \\
        return found == next(); \\
    }
NUMBERS(uint8_t)
NUMBERS(uint16_t)
NUMBERS(uint32_t)
NUMBERS(uint64_t)
NUMBERS(_Bool)
#define read_bool read__Bool
#define same_bool same__Bool
'''

MAIN = '''int main(void)
{
    uint32_t differ = 0;
    for (uint32_t k = 0; k < %d; k++) {
        const uint64_t function = next();
        if (!cases[function].run()) {
            printf("FAILED %%s, case %%lu\\n", cases[function].name, (unsigned long)k);
            differ++;
            break;
        }
        while (lent_count > 0)
            free(lent[--lent_count]);
    }
    if (differ == 0)
        printf("ok     %s: %d calls of %d functions, as the machine; %d of %d statements run\\n");
    return differ != 0;
}
'''


def write(machine, text, cases, c_file):
    writer = Writer(machine, text)
    for k, symbol in enumerate(cases.wanted):
        writer.function(k, symbol)
    data = bytes(cases.data) + bytes(-len(cases.data) % 8)
    words = [f'0x{int.from_bytes(data[i:i + 8], "little"):x}u' for i in range(0, len(data), 8)]
    name = os.path.basename(c_file)
    print(HEAD % (name, name, ',\n'.join(', '.join(words[i:i + 5]) for i in range(0, len(words), 5))))
    print('\n'.join(writer.lines))
    print('static const struct {\n    int (*run)(void);\n    const char *name;\n} cases[] = {')
    print(',\n'.join(f'    {{case_{k}, "{symbol}"}}' for k, symbol in enumerate(cases.wanted)) + '\n};')
    all_of = [id(todo) for symbol in cases.wanted for todo in statements(machine.functions[symbol].body)]
    ran = sum(todo in machine.ran for todo in all_of)
    print(MAIN % (cases.kept, name, cases.kept, len(cases.wanted), ran, len(all_of)), end='')


def read(path):
    with open(path, encoding='utf-8') as file:
        return file.read()


def with_included(path, seen):
    """A header and those that it includes, each once."""
    if path in seen:
        return ''
    seen.add(path)
    text = read(path)
    inner = [os.path.join(os.path.dirname(path), name) for name in re.findall(r'^#include "(.*)"', text, flags=re.M)]
    return ''.join(with_included(name, seen) for name in inner) + text


def main(crate, mir, c_file, *headers):
    seen = set()
    machine, text = Machine(read(mir)), Text(''.join(with_included(path, seen) for path in headers), read(c_file))
    wanted = [symbol for symbol in machine.functions if symbol in text.functions]
    assert len(wanted) == len(text.functions) > 0, 'a function of the C file that the MIR does not have'
    cases, rng = Cases(Types(machine.declared), wanted), Random(machine, SEED)
    random_cases(machine, cases, rng)
    cases_inside(machine, cases, rng, crate)
    left = [symbol for symbol in wanted if symbol not in cases.of_function]
    if left:
        sys.exit(f'cases: no case of {left}')
    write(machine, text, cases, c_file)


if __name__ == '__main__':
    if len(sys.argv) < 5:
        sys.exit(__doc__)
    sys.setrecursionlimit(10000)
    main(*sys.argv[1:])
