#!/usr/bin/env python3
"""The MIR of a crate's exported functions and of all that they reach, as text.

usage: mir.py CRATE NAME.. -- MIR.. >TEXT

Each MIR is NAME.json, or the folder NAME.rlib of a proved library as the toolchain builds it, whose MIR is
toolchain/mir.json: what the toolchain itself links into a static library. CRATE is one of these names, and has the
exported functions NAME... What is written has one construct for each of theirs. What is generic is written once for
each of the types, constants and impls that it is given: a function or a type of its own, named after its types. A call
of a function that does nothing, as most of those that drop a value, is left out. A constant, which MIR lends as a
reference to what lies outside of the function, is here a local of the function's own that nothing writes. Whatever
this program does not know, it refuses; translate and machine.py, which read the text, refuse more.
"""
import hashlib
import json
import os
import re
import sys


class Refused(Exception):
    """What this program does not know."""


def ensure(holds, what):
    if not holds:
        raise Refused(what)


def one(tree, what):
    """The word of a construct and what stands in it."""
    if isinstance(tree, str):
        return tree, None
    ensure(isinstance(tree, dict) and len(tree) == 1, f'{what}: {tree}')
    return next(iter(tree.items()))


def listed(texts, cons='lcons', nil='lnil'):
    made = nil
    for text in reversed(texts):
        made = f'({cons} {text} {made})'
    return made


def number(of):
    ensure(type(of) is int and of >= 0, f'a number: {of}')
    return str(of)


# ---- what generic functions and types are given


def erased(tree):
    """A type without its lifetimes, which code does not depend on."""
    word, of = one(tree, 'a type')
    if word == 'Ref':
        return {'Ref': ['Erased', of[1], erased(of[2])]}
    if word == 'Array':
        return {'Array': [erased(of[0]), of[1]]}
    if word == 'Struct':
        return {'Struct': [of[0], [erased(it) for it in of[1]]]}
    if word == 'Named':
        return {'Named': [{'name': of[0]['name'], 'lifetimes': []}, [erased(it) for it in of[1]]]}
    return tree


class Given:
    """The types and constants that stand for a generic function's or type's parameters, and the impls for its bounds."""

    def __init__(self, types, dicts=()):
        self.types, self.dicts = types, dicts

    def typed(self, tree):
        word, of = one(tree, 'a type')
        if word == 'Param':
            ensure(of < len(self.types), f'no type for the parameter {of}')
            return self.types[of]
        if word == 'Ref':
            return {'Ref': [of[0], of[1], self.typed(of[2])]}
        if word == 'Array':
            return {'Array': [self.typed(of[0]), self.length(of[1])]}
        if word == 'Struct':
            return {'Struct': [of[0], [self.typed(it) for it in of[1]]]}
        if word == 'Named':
            ensure(set(of[0]) == {'name', 'lifetimes'}, f'the type {of}')
            return {'Named': [of[0], [erased(self.typed(it)) for it in of[1]]]}
        return tree

    def length(self, tree):
        word, of = one(tree, 'a length')
        if word == 'Param':
            ensure(of < len(self.types), f'no constant for the parameter {of}')
            word, of = one(self.types[of], 'a constant')
            ensure(word == 'Const', f'a length that is the type {word}')
        else:
            ensure(word == 'Lit', f'the length {word}')
        return {'Lit': of}

    def dict(self, tree):
        word, of = one(tree, 'an impl')
        if word == 'Given':
            ensure(of < len(self.dicts), f'no impl for the bound {of}')
            return self.dicts[of]
        ensure(word == 'Impl' and len(of) == 3, f'the impl {word}')
        return {'Impl': [of[0], [erased(self.typed(it)) for it in of[1]], [self.dict(it) for it in of[2]]]}


NONE = Given([], [])


def size(tree):
    """The bytes of a type that pointers go over, or None: of numbers alone they are what C has."""
    word, of = one(tree, 'a type')
    if word == 'Int':
        return of // 8
    inner = size(of[0]) if word == 'Array' else None
    return inner and inner * of[1]['Lit']


# ---- names

LONGEST = 56  # so many letters has a name: 63 count in C, and some of its types and members have more before or after


def plain(symbol):
    ensure(isinstance(symbol, str) and re.fullmatch(r'[\w:+]+', symbol), f'a name: {symbol}')
    return symbol.replace('+', '_')


def label(tree):
    """A type within the name of another."""
    word, of = one(tree, 'a type')
    if word in ('Bool', 'Unit'):
        return word.lower()
    if word == 'Int':
        return f'u{of}'
    if word == 'Const':
        return number(of)
    if word == 'Array':
        return f'array_{of[1]["Lit"]}_{label(of[0])}'
    if word == 'Ref':
        return f'{"mut" if of[1] == "Mut" else "ref"}_{label(of[2])}'
    if word == 'Struct':
        return f'slice_{label(of[1][0])}'
    ensure(word == 'Named', f'a name for the type {word}')
    name = of[0]['name']
    if set(name) <= set('(,)'):
        last = 'tuple'
    else:
        # a closure is called after its function
        last = '_'.join(plain(name.removesuffix('+Self')).split('::')[-2 if name.endswith('+Self') else -1:])
    return '_'.join([last] + [label(it) for it in of[1]])


def called(symbol, types_, kept):
    """The name of a function or a type with what it is given: its crate, the end of its path, and the types."""
    if types_ == []:
        return plain(symbol)
    path = ['core', 'tuple'] if set(symbol) <= set('(,)') else plain(symbol).split('::')
    made = '_'.join(['::'.join(path[:1] + path[max(1, len(path) - kept):])] + [label(it) for it in types_])
    if len(made) <= LONGEST:
        return made
    mark = hashlib.sha256(json.dumps([symbol, types_]).encode()).hexdigest()[:6]
    return f'{made[:LONGEST - 7].rstrip("_:")}_{mark}'


def type_called(name, types_):
    return called(name, types_, 1)


# ---- types


def lifetime(tree):
    word, of = one(tree, 'a lifetime')
    if word == 'Named':
        return f'(named {number(of)})'
    ensure(word in ('Bound', 'Erased', 'Static'), f'the lifetime {word}')
    return 'erased'


def typed(tree):
    word, of = one(tree, 'a type')
    if word in ('Bool', 'Unit', 'Ptr'):
        return f'ty{word}'
    if word == 'Int':
        return f'(tyInt {number(of)})'
    if word == 'Array':
        return f'(tyArray {typed(of[0])} (lenLit {number(of[1]["Lit"])}))'
    if word == 'Named':
        return f'(tyNamed (pair "{type_called(of[0]["name"], of[1])}" lnil))'
    if word == 'Ref':
        ensure(of[1] in ('Imm', 'Mut'), f'the reference {of}')
        return f'(tyRef {lifetime(of[0])} {of[1].lower()} {typed(of[2])})'
    ensure(word == 'Struct' and of[0] == '&[]', f'the type {word if word != "Struct" else of[0]}')
    return f'(tyStruct "{of[0]}" {types(of[1])})'


def types(trees):
    return listed([typed(tree) for tree in trees], 'tcons', 'tnil')


def named_in(tree):
    """The declared types that a type is made of, by their names and what they are given."""
    word, of = one(tree, 'a type')
    if word == 'Named':
        yield of[0]['name'], of[1]
    inner = {'Named': lambda: of[1], 'Array': lambda: of[:1], 'Ref': lambda: of[2:], 'Struct': lambda: of[1]}
    for part in inner.get(word, list)():
        yield from named_in(part)


# What a declared type says beside its name, its shape and its parameters, and what is known of it alone.
PLAIN = {'bounds': [], 'owns': False, 'is_cell': False}
PARAMETERS = {'lifetimes', 'type_params', 'const_params', 'type_bounds', 'is_tuple'}


class Declared:
    """A declared type: the parts of its fields or of each of its variants, generic as it is."""

    def __init__(self, tree):
        self.name, self.parameters = tree['name'], tree['type_params']
        rest = {key: of for key, of in tree.items() if key not in ('name', 'shape', 'view') and key not in PARAMETERS}
        ensure(rest == PLAIN and PARAMETERS <= set(tree), f'the declared type {self.name}: {rest}')
        self.word, self.shape = one(tree['shape'], 'a shape')
        ensure(self.word in ('Fields', 'Variants'), f'the shape {self.word}')

    def at(self, types_):
        """The fields, or those of each variant, with the types that it is given."""
        ensure(len(types_) == self.parameters, f'{self.name} with {len(types_)} types')
        given = Given(types_)
        if self.word == 'Fields':
            return [given.typed(it) for it in self.shape]
        return [[given.typed(it) for it in variant] for variant in self.shape]

    def text(self, types_):
        name, parts = type_called(self.name, types_), self.at(types_)
        if self.word == 'Fields':
            return f'(pair "{name}" (fields {types(parts)}))'
        return f'(pair "{name}" (variants {listed([types(it) for it in parts], "ttcons", "ttnil")}))'


# ---- functions

# Three functions of the toolchain's library are written by hand here, at bytes, as their contracts say. One copies a
# slice to another of the same length: its own MIR goes about it by closures over the slots of a slice. The others tell
# whether two slices, or two arrays as slices, are equal: their own MIR compares 32 bytes at a time, ten times the code.


def at(local, *steps):
    return f'(place {local} {listed(steps)})'


def copy(local, *steps):
    return f'(copy {at(local, *steps)})'


def bytes_by_hand(name, types_, before, turn, after):
    """A function of two slices of bytes that goes over their places, 3, up to the second one's length, 4."""
    turns = [f'(assign {at(4)} (rvOpd {copy(2, "(field 1)")}))',
             f'(assign {at(5)} (op2 (lt unsigned) {copy(3)} {copy(4)}))',
             f'(if {copy(5)} skip (exit 1))', *turn,
             f'(assign {at(3)} (op2 (add unsigned) {copy(3)} (int 64 1)))']
    body = [*before, f'(assign {at(3)} (rvOpd (int 64 0)))',
            f'(block (loop {listed(turns[:-1], "seq", turns[-1])}))', after]
    locals_ = listed([f'(local {it} valueLocal)' for it in types_])
    return f'(fn-def "{name}" (fnItem 2 lnil 2 {locals_} {listed(body, "seq", "return")}) lnil)'


BYTE = '(deref (tyInt 8))'


def slice_of_bytes(lifetime_, mutable):
    return f'(tyStruct "&[]" (tcons (tyRef (named {lifetime_}) {mutable} (tyInt 8)) (tcons (tyInt 64) tnil)))'


def copied(name):
    types_ = ['tyUnit', slice_of_bytes(0, 'mut'), slice_of_bytes(1, 'imm'), '(tyInt 64)', '(tyInt 64)', 'tyBool', 'tyPtr',
              '(tyInt 8)', 'tyPtr']
    turn = [f'(assign {at(6)} (op2 offset {copy(2, "(field 0)")} {copy(3)}))',
            f'(assign {at(7)} (rvOpd {copy(6, BYTE)}))',
            f'(assign {at(8)} (op2 offset {copy(1, "(field 0)")} {copy(3)}))',
            f'(assign {at(8, BYTE)} (rvOpd {copy(7)}))']
    return bytes_by_hand(name, types_, [], turn, f'(assign {at(0)} (rvOpd unit))')


def equal(name):
    # Never left at a difference: a compiler then takes many bytes at a time.
    types_ = ['tyBool', slice_of_bytes(0, 'imm'), slice_of_bytes(1, 'imm'), '(tyInt 64)', '(tyInt 64)', 'tyBool', 'tyPtr',
              'tyPtr', 'tyBool']
    differ = f'(seq (assign {at(0)} (rvOpd false)) return)'
    before = [f'(assign {at(5)} (op2 eq {copy(1, "(field 1)")} {copy(2, "(field 1)")}))', f'(if {copy(5)} skip {differ})',
              f'(assign {at(8)} (rvOpd true))']
    turn = [f'(assign {at(6)} (op2 offset {copy(1, "(field 0)")} {copy(3)}))',
            f'(assign {at(7)} (op2 offset {copy(2, "(field 0)")} {copy(3)}))',
            f'(assign {at(5)} (op2 eq {copy(6, BYTE)} {copy(7, BYTE)}))',
            f'(if {copy(5)} skip (assign {at(8)} (rvOpd false)))']
    return bytes_by_hand(name, types_, before, turn, f'(assign {at(0)} (rvOpd {copy(8)}))')


# Each by its symbol and the impl that it is given: its name, and what writes it.
BY_HAND = {
    ('core::slice::edits::slice+T::copy_from_slice', 'core::clone::U8Clone'): ('core::slice::copy_from_slice', copied),
    ('core::cmp::slices::slices_equal', 'core::cmp::numbers::U8PartialEq'): ('core::slice::slices_equal', equal),
    ('core::cmp::slices::all_equal', 'core::cmp::numbers::U8PartialEq'): ('core::slice::all_equal', equal),
}


def by_hand(symbol, given):
    """The name of a function that is written by hand and what writes it, or None."""
    if given.types != [{'Int': 8}] or len(given.dicts) != 1:
        return None
    return BY_HAND.get((symbol, given.dicts[0]['Impl'][0]))


KEYS = {'lifetimes', 'outlives', 'params', 'generics', 'types', 'locals', 'body'}
GENERICS = {'types', 'outlives', 'bounds', 'method_of', 'trait_lifetimes', 'impls', 'spends_self'}


class Function:
    """The text of a function with what it is given, and the functions that it calls."""

    def __init__(self, libraries, symbol, given, tree):
        self.libraries, self.given, self.calls, self.tables = libraries, given, [], {}
        generics = tree['generics']
        ensure(set(tree) == KEYS and set(generics) <= GENERICS, f'{symbol} has {sorted(tree)}, {sorted(generics)}')
        ensure(len(generics['types']) == len(given.types), f'{symbol} with {len(given.types)} types')
        ensure(len(generics['bounds']) == len(given.dicts), f'{symbol} with {len(given.dicts)} impls')
        self.lent_constants(tree)
        self.types = [given.typed(it['ty']) for it in tree['locals']]
        locals_ = [self.local(k, it) for k, it in enumerate(tree['locals'])]
        body = iter(tree['body'])
        text = self.statement(body)
        ensure(next(body, None) is None, f'{symbol} has more than its body')
        locals_ += [f'(local {typed(of)} staticSlot)' for of in self.types[len(locals_):]]
        declared = libraries.declared(tree['types'], self.types)
        name = libraries.name(symbol, given)
        self.text = (f'(fn-def "{name}" (fnItem {number(tree["lifetimes"])} lnil {number(tree["params"])} '
                     f'{listed(locals_)} {text}) {listed(declared)})')

    def lent_constants(self, tree):
        """Notes the locals that are references to arrays of numbers, each lent once and used for no more than its place."""
        lends = [it['LendStatic'] for it in tree['body'] if one(it, 'a statement')[0] == 'LendStatic']
        for to, of, constants in lends:
            only_lent = json.dumps(tree['body']).count(f'{{"local": {to["local"]}, "steps": []}}') == 1
            if not (only_lent and one(of, 'a type')[0] == 'Array' and one(constants, 'constants')[0] == 'Ints'):
                continue
            numbers = constants['Ints']
            ensure(of['Array'][0] == {'Int': numbers['width']} and of['Array'][1] == {'Lit': len(numbers['values'])},
                   f'a table of {of} with {len(numbers["values"])} entries')
            referred = tree['locals'][to['local']]['ty']
            ensure(one(referred, 'a type')[0] == 'Ref' and referred['Ref'][1:] == ['Imm', of], f'a table lent as {referred}')
            self.tables[to['local']] = of

    def lend_constant(self, to, of, constants):
        """A constant as a local of its own, lent at once."""
        of, referred = erased(self.given.typed(of)), erased(self.types[to['local']])
        ensure(to['steps'] == [] and referred == {'Ref': ['Erased', 'Imm', of]}, f'a constant lent as {referred}')
        here = f'(place {len(self.types)} lnil)'
        self.types.append(of)
        return f'(seq (assign {here} (rvOpd {self.constant(of, constants)})) (assign {self.place(to)} (addrOf {here})))'

    def constant(self, of, tree):
        word, parts = one(tree, 'a constant')
        if word in ('Int', 'Unit'):
            return self.operand(tree)
        if word == 'Bool':
            return str(parts).lower()
        if word == 'Ints':
            parts = [{'Int': {'width': parts['width'], 'value': it}} for it in parts['values']]
        elif word == 'Repeat':
            parts = parts[:1] * parts[1]
        else:
            ensure(word == 'Parts', f'the constant {word}')
        fields = self.libraries.fields(of, parts)
        ensure(len(fields) == len(parts), f'{len(parts)} constants for {of}')
        return f'(parts {typed(of)} {listed(list(map(self.constant, fields, parts)))})'

    def local(self, k, tree):
        ensure(set(tree) == {'ty', 'home'} and tree['home'] in ('ValueLocal', 'MemorySlot'), f'a local {tree}')
        if k in self.tables:
            return f'(local {typed(self.tables[k])} memorySlot)'
        home = tree['home'][0].lower() + tree['home'][1:]
        return f'(local {typed(self.types[k])} {home})'

    def place(self, tree):
        ensure(set(tree) == {'local', 'steps'}, f'a place {tree}')
        ensure(tree['local'] not in self.tables, f'a table that is not only lent: {tree}')
        return self.bare_place(tree['local'], tree['steps'])

    def bare_place(self, local, steps):
        texts = []
        for step in steps:
            word, of = one(step, 'a step')
            ensure(word in ('Deref', 'Field', 'Variant'), f'the step {word}')
            texts.append(f'({word.lower()} {typed(self.given.typed(of)) if word == "Deref" else number(of)})')
        return f'(place {number(local)} {listed(texts)})'

    def operand(self, tree):
        word, of = one(tree, 'an operand')
        if word in ('True', 'False', 'Unit'):
            return word.lower()
        if word == 'Copy':
            return f'(copy {self.place(of)})'
        if word == 'SizeOf':
            of = self.given.typed(of)
            return f'(int 64 {size(of)})' if size(of) else f'(size {typed(of)})'
        if word == 'NumOf':
            return f'(int {number(of[0])} {number(self.given.length(of[1])["Lit"])})'
        ensure(word == 'Int' and set(of) == {'width', 'value'}, f'the operand {tree}')
        return f'(int {number(of["width"])} {number(of["value"])})'

    def operands(self, trees):
        return listed([self.operand(tree) for tree in trees])

    def value(self, tree):
        word, of = one(tree, 'a value')
        if word == 'Opd':
            return f'(rvOpd {self.operand(of)})'
        if word == 'Op2' and of[0] == {'Mul': 'Unsigned'} and one(of[2], 'an operand')[0] == 'SizeOf':
            return self.place_in_bytes(of[1], self.operand(of[2]))
        if word == 'Op2':
            return f'(op2 {self.operation(of[0])} {self.operand(of[1])} {self.operand(of[2])})'
        if word == 'Op1':
            return f'(op1 {self.operation(of[0])} {self.operand(of[1])})'
        if word == 'AddrOf' and of['local'] in self.tables:
            # whole, or as a slice, by its first element
            array = self.tables[of['local']]
            ensure(of['steps'] in ([{'Deref': array}], [{'Deref': array['Array'][0]}]), f'a table lent in parts: {of}')
            return f'(addrOf {self.bare_place(of["local"], [])})'
        if word == 'AddrOf':
            return f'(addrOf {self.place(of)})'
        if word == 'Aggregate':
            return f'(aggregate {self.operands(of)})'
        ensure(word == 'Repeat', f'the value {word}')
        return f'(repeat {self.operand(of[0])} {number(self.given.length(of[1])["Lit"])})'

    def place_in_bytes(self, place, bytes_):
        """A place among elements times their size: elements of one byte are counted as they are."""
        if bytes_ == '(int 64 1)':
            return f'(rvOpd {self.operand(place)})'
        return f'(op2 (mul unsigned) {self.operand(place)} {bytes_})'

    def operation(self, tree):
        """Each by its own word, its signs and its width after it; `translate` knows which there are."""
        word, of = one(tree, 'an operation')
        if of is None:
            return word.lower()
        ensure(word in ('Add', 'Sub', 'Mul', 'Div', 'Rem', 'Shr', 'Lt', 'Le', 'Cast'), f'the operation {word}')
        return f'({word.lower()} {" ".join(str(it).lower() for it in (of if isinstance(of, list) else [of]))})'

    def statement(self, rest):
        """A statement with those in it, which follow it. One after another: a body can be longer than Python nests."""
        texts, open_ = [], 0
        while True:
            word, of = one(next(rest, 'end of the MIR'), 'a statement')
            if word != 'Seq':
                break
            texts.append(f'(seq {self.statement(rest)} ')
            open_ += 1
        return ''.join(texts) + self.last(word, of, rest) + ')' * open_

    def last(self, word, of, rest):
        if word in ('Skip', 'Return', 'Unreachable'):
            return word.lower()
        if word == 'Assign':
            return f'(assign {self.place(of[0])} {self.value(of[1])})'
        if word == 'LendStatic' and of[0]['local'] in self.tables:
            numbers = of[2]['Ints']
            parts = listed([f'(int {number(numbers["width"])} {number(it)})' for it in numbers['values']])
            return f'(assign {self.bare_place(of[0]["local"], [])} (aggregate {parts}))'
        if word == 'LendStatic':
            return self.lend_constant(*of)
        if word == 'Call':
            return self.call(*of)
        if word == 'If':
            return f'(if {self.operand(of)} {self.statement(rest)} {self.statement(rest)})'
        if word == 'Switch':
            on, keys, has_default = of
            arms = [f'(arm {listed([number(key) for key in these])} {self.statement(rest)} ' for these in keys]
            default = f'(default {self.statement(rest)})' if has_default else 'noDefault'
            return f'(switch {self.operand(on)} {"".join(arms)}{default}{")" * len(arms)})'
        if word in ('Block', 'Loop'):
            return f'({word.lower()} {self.statement(rest)})'
        ensure(word == 'Exit', f'the statement {word}')
        return f'(exit {number(of)})'

    def call(self, callee, arguments, to):
        symbol, given = self.libraries.callee(callee, self.given)
        if self.libraries.is_idle(symbol, given):
            return 'skip'
        self.calls.append((symbol, given))
        name = self.libraries.name(symbol, given)
        return f'(call (direct (fnRef "{name}")) {self.operands(arguments)} {self.place(to)})'


class Libraries:
    """The functions of libraries by their symbols; a library is read when the first of them is wanted."""

    def __init__(self, paths):
        self.files, self.read, self.names, self.idle = {}, {}, {}, {}
        self.types, self.impls = {}, {}
        for path in paths:
            crate, kind = os.path.splitext(os.path.basename(path))
            ensure(crate not in self.files, f'two libraries {crate}')
            self.files[crate] = path if kind == '.json' else os.path.join(path, 'toolchain', 'mir.json')

    def functions(self, crate):
        ensure(crate in self.files, f'no library {crate}')
        if crate not in self.read:
            with open(self.files[crate], encoding='utf-8') as file:
                pairs = json.load(file)
            self.read[crate] = dict(pairs)
            ensure(len(self.read[crate]) == len(pairs), f'{crate} has two functions of one name')
            for symbol, tree in pairs:
                self.note(symbol, tree)
        return self.read[crate]

    def note(self, symbol, tree):
        """The declared types that a function tells of, and the impl that it is a method of."""
        for of in tree['types']:
            known = self.types.setdefault(of['name'], of)
            ensure(known == of, f'two types {of["name"]}')
        word, of = one(tree['generics']['method_of'] or 'Plain', 'a method')
        if word == 'Impl':
            known = self.impls.setdefault(tuple(of), symbol)
            ensure(known == symbol, f'two methods {of}')

    def function(self, symbol):
        functions = self.functions(symbol.split('::')[0])
        ensure(symbol in functions, f'no library has {symbol}')
        return functions[symbol]

    def declared(self, first, used):
        """Texts of the declared types that a function tells of, and of all that its locals are made of."""
        todo = [(it['name'], []) for it in first if it['type_params'] == 0]
        todo += [it for of in used for it in named_in(of)]
        done, texts = set(), []
        while todo:
            name, given = todo.pop(0)
            key = type_called(name, given)
            if key in done:
                continue
            done.add(key)
            of = self.type(name)
            self.known(key, json.dumps([name, given]))
            texts.append(of.text(given))
            parts = of.at(given)
            todo += [it for part in (parts if of.word == 'Fields' else sum(parts, [])) for it in named_in(part)]
        return texts

    def type(self, name):
        ensure(name in self.types, f'no library has the type {name}')
        return Declared(self.types[name])

    def fields(self, tree, parts):
        """The types of a constant's parts; of an enum's the tag is first."""
        word, of = one(tree, 'a type')
        if word == 'Array':
            return of[:1] * of[1]['Lit']
        ensure(word == 'Named', f'a constant of type {tree}')
        declared = self.type(of[0]['name'])
        fields = declared.at(of[1])
        if declared.word == 'Fields':
            return fields
        tag = parts[0]['Int']['value']
        ensure(tag < len(fields), f'variant {tag} of {declared.name}')
        return [{'Int': 8}] + fields[tag]

    def callee(self, tree, given):
        """The symbol of what is called, and what it is given."""
        word, of = one(tree, 'a call')
        ensure(word in ('Fn', 'Method'), f'a call of {tree}')
        types_ = [erased(given.typed(it)) for it in of[-1]['types']]
        dicts = [given.dict(it) for it in of[-1]['dicts']]
        if word == 'Fn':
            return of[0], Given(types_, dicts)
        name, impl_types, impl_dicts = given.dict(of[0])['Impl']
        self.functions(name.split('::')[0])
        ensure((name, of[1]) in self.impls, f'no library has the method {of[1]} of {name}')
        return self.impls[name, of[1]], Given(impl_types + types_, impl_dicts + dicts)

    def name(self, symbol, given):
        name = (by_hand(symbol, given) or [called(symbol, given.types, 2)])[0]
        self.known(name, json.dumps([symbol, given.types]))
        return name

    def known(self, name, key):
        """Holds on to what a name stands for: nothing else may have it."""
        ensure(self.names.setdefault(name, key) == key, f'two things would be called {name}')

    def is_idle(self, symbol, given):
        """Whether a call gives no value, ends and writes nowhere but to locals of its own."""
        if by_hand(symbol, given):
            return False
        key = json.dumps([symbol, given.types, given.dicts])
        if key not in self.idle:
            self.idle[key] = False  # while it is looked at: one that calls itself is not left out
            self.idle[key] = self.does_nothing(self.function(symbol), given)
        return self.idle[key]

    def does_nothing(self, tree, given):
        ensure(tree['locals'] != [], 'a function without a result')
        if tree['locals'][0]['ty'] != 'Unit':
            return False
        for statement in tree['body']:
            word, of = one(statement, 'a statement')
            if word == 'Call':
                if not self.is_idle(*self.callee(of[0], given)):
                    return False
            elif word == 'Assign':
                if any(one(step, 'a step')[0] == 'Deref' for step in of[0]['steps']):
                    return False
            elif word not in ('Seq', 'Skip', 'Return', 'If', 'Switch', 'Block', 'Exit'):
                return False
        return True


def program(crate, names, libraries):
    todo, texts = [], {}
    for name in names:
        symbols = [it for it in libraries.functions(crate) if it.split('::')[-1] == name]
        ensure(len(symbols) == 1, f'{crate} has {len(symbols)} functions {name}')
        todo.append((symbols[0], NONE))
    while todo:
        symbol, given = todo.pop()
        name = libraries.name(symbol, given)
        if name in texts:
            continue
        if by_hand(symbol, given):
            texts[name] = by_hand(symbol, given)[1](name)
            continue
        try:
            function = Function(libraries, symbol, given, libraries.function(symbol))
        except Refused as why:
            raise Refused(f'{symbol}: {why}') from None
        texts[name] = function.text
        todo += function.calls
    return f'program {listed([texts[name] for name in sorted(texts)])}'


def main(arguments):
    if arguments.count('--') != 1 or arguments.index('--') < 2:
        sys.exit('usage: mir.py CRATE NAME.. -- MIR..')
    cut = arguments.index('--')
    sys.setrecursionlimit(100000)
    try:
        print(program(arguments[0], arguments[1:cut], Libraries(arguments[cut + 1:])))
    except Refused as why:
        sys.exit(f'mir.py: {why}')


if __name__ == '__main__':
    main(sys.argv[1:])
