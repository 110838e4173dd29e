"""A second reading of the MIR: a machine that runs it, with every check that the proofs rule out.

What is undefined in MIR ends the run (Stuck): a sum or a cast that does not fit, a shift of the width or
more, an access or a pointer outside of its block, a read of what was never written, a switch without an arm, what is
never reached. Nothing here is shared with the translator in src/.

A number is (width, value), a truth value a bool, no value (), a struct a tuple of its fields, an enum a tuple of its
tag and its variant's fields, an array a Block, a pointer among elements a Pointer, a reference to anything else a
Spot. What was never written is None.
"""
import re

TURNS = 100000  # of a loop; more are none that the cases can want


class Stuck(Exception):
    """What the proofs rule out has happened."""


def check(holds, what):
    if not holds:
        raise Stuck(what)


class Block:
    """Elements of one width in a row: an array, or memory that was lent. Numbers stand in it without their width, other
    values as they are; the machine takes each for eight bytes wide."""

    def __init__(self, width, elements):
        self.width, self.elements = width, elements

    def copy(self):
        return Block(self.width, [fresh(element) for element in self.elements])


class Pointer:
    """A byte of a block, or the end of it."""

    def __init__(self, block, byte):
        self.block, self.byte = block, byte

    def moved(self, by):
        # MIR lets a pointer that is not followed lie anywhere, C does not.
        check(self.byte + by <= len(self.block.elements) * self.block.width // 8, 'a pointer outside of its block')
        return Pointer(self.block, self.byte + by)

    def index(self, width):
        check(self.block.width == width, 'an access of another width')
        check(self.byte * 8 % width == 0, 'an access that is not aligned')
        index = self.byte * 8 // width
        check(index < len(self.block.elements), 'an access outside of its block')
        return index


class Spot:
    """A part of a local: fields, and variants before the fields that they have."""

    def __init__(self, frame, local, path=()):
        self.frame, self.local, self.path = frame, local, path

    def at(self, kind, number):
        return Spot(self.frame, self.local, self.path + ((kind, number),))

    def read(self):
        found = self.frame[self.local]
        for k, (kind, number) in enumerate(self.path):
            check(found is not None, 'a read of what was never written')
            if kind == 'field':
                check(number < len(found), 'a field of another variant')
                found = found[number]
            elif self.path[k + 1] != ('field', 0):
                # a variant's fields are there for its own tag only
                check(found[0][1] == number, 'a field of another variant')
        return found

    def write(self, of):
        self.frame[self.local] = stored(self.frame[self.local], self.path, of)


def stored(whole, path, of):
    """The whole with a part of it replaced."""
    if not path:
        return of
    kind, number = path[0]
    if kind == 'variant':
        check(path[1] != ('field', 0) and whole[0][1] == number, 'a store into another variant')
        return stored(whole, path[1:], of)
    check(whole is not None, 'a store into a part')
    return whole[:number] + (stored(whole[number], path[1:], of),) + whole[number + 1:]


WIDE = 64  # the width that the machine takes what is no number for


def width_of(of):
    return int(of[1]) if of[0] == 'tyInt' else WIDE


def row(values):
    """Values of one type as a block."""
    if is_number(values[0]):
        return Block(values[0][0], [number for _, number in values])
    return Block(WIDE, list(values))


def room(of):
    """What a local is before it is written; an array can be written element by element."""
    return Block(width_of(of[1]), [None] * int(of[2][1])) if of[0] == 'tyArray' else None


class Followed:
    """What a pointer among elements points to: a number, or as many elements as an array has."""

    def __init__(self, pointer, of):
        self.pointer, self.of = pointer, of

    def range(self):
        is_array = self.of[0] == 'tyArray'
        width, count = (width_of(self.of[1]), int(self.of[2][1])) if is_array else (width_of(self.of), 1)
        begin = self.pointer.index(width)
        check(begin + count <= len(self.pointer.block.elements), 'an access outside of its block')
        return width, slice(begin, begin + count)

    def read(self):
        width, places = self.range()
        elements = self.pointer.block.elements[places]
        check(None not in elements, 'a read of what was never written')
        return Block(width, elements) if self.of[0] == 'tyArray' else (width, elements[0])

    def write(self, of):
        width, places = self.range()
        elements = of.elements if self.of[0] == 'tyArray' else [of[1]]
        check(width == (of.width if self.of[0] == 'tyArray' else of[0]), 'a store of another width')
        self.pointer.block.elements[places] = elements


def followed(pointer, of):
    """What a pointer among elements points to; an element that is no number has parts."""
    return Followed(pointer, of) if of[0] in ('tyInt', 'tyArray') else Spot(pointer.block.elements, pointer.index(WIDE))


# ---- reading


def parse(text):
    """Words and parentheses as nested lists."""
    stack = [[]]
    for word in re.findall(r'"[^"]*"|[()]|[^\s()"]+', text):
        if word == '(':
            stack.append([])
        elif word == ')':
            inner = stack.pop()
            stack[-1].append(inner)
        else:
            stack[-1].append(word)
    return stack[0]


def listed(tree):
    """The elements of (cons a (cons b nil)), whatever cons and nil are called."""
    found = []
    while isinstance(tree, list):
        found.append(tree[1])
        tree = tree[2]
    return found


def in_a_row(body, holds_array):
    """A body's statements, seq and skip taken apart; holds_array tells of a place whether an array goes there."""
    found, todo = [], [body]
    while todo:
        tree = todo.pop()
        if isinstance(tree, list) and tree[0] == 'seq':
            todo += [tree[2], tree[1]]
        elif tree != 'skip':
            found.append(statement(tree, holds_array))
    return found


def place(tree):
    steps = []
    for step in listed(tree[2]):
        steps.append((step[0], step[1] if step[0] == 'deref' else int(step[1])))
    return int(tree[1]), steps


def operand(tree):
    if tree in ('true', 'false'):
        return 'constant', tree == 'true'
    if tree == 'unit':
        return 'constant', ()
    if tree[0] == 'copy':
        return 'copy', place(tree[1])
    if tree[0] == 'size':
        return 'constant', (64, WIDE // 8)
    if tree[0] == 'parts':
        parts = [operand(part)[1] for part in listed(tree[2])]
        return 'constant', row(parts) if tree[1][0] == 'tyArray' else tuple(parts)
    check(tree[0] == 'int' and int(tree[2]) < 1 << int(tree[1]), tree)
    return 'constant', (int(tree[1]), int(tree[2]))


def value(tree, is_array):
    if tree[0] == 'rvOpd':
        return 'use', operand(tree[1])
    if tree[0] == 'op2':
        return 'op2', tree[1] if isinstance(tree[1], str) else tree[1][0], operand(tree[2]), operand(tree[3])
    if tree[0] == 'op1' and tree[1] == 'not':
        return 'not', operand(tree[2])
    if tree[0] == 'op1':
        check(tree[1][:3] == ['cast', 'unsigned', 'unsigned'], tree[1])
        return 'cast', int(tree[1][3]), operand(tree[2])
    if tree[0] == 'addrOf':
        return 'address', place(tree[1])
    if tree[0] == 'aggregate':
        return 'array' if is_array else 'aggregate', [operand(part) for part in listed(tree[1])]
    check(tree[0] == 'repeat', tree[0])
    return 'repeat', operand(tree[1]), int(tree[2])


def statement(tree, holds_array):
    if tree in ('return', 'unreachable'):
        return (tree,)
    if tree[0] == 'assign':
        to = place(tree[1])
        return 'assign', to, value(tree[2], holds_array(to))
    if tree[0] == 'call':
        return 'call', tree[1][1][1][1:-1], [operand(part) for part in listed(tree[2])], place(tree[3])
    if tree[0] == 'if':
        return 'if', operand(tree[1]), in_a_row(tree[2], holds_array), in_a_row(tree[3], holds_array)
    if tree[0] == 'switch':
        arms, default, rest = {}, None, tree[2]
        while rest != 'noDefault':
            if rest[0] == 'default':
                default = in_a_row(rest[1], holds_array)
                break
            body = in_a_row(rest[2], holds_array)
            for key in listed(rest[1]):
                arms.setdefault(int(key), body)
            rest = rest[3]
        return 'switch', operand(tree[1]), arms, default
    if tree[0] in ('block', 'loop'):
        return tree[0], in_a_row(tree[1], holds_array)
    check(tree[0] == 'exit', tree[0])
    return 'exit', int(tree[1])


def statements(body):
    """Every statement of a body, those inside others too."""
    for todo in body:
        yield todo
        inner = {'if': todo[2:], 'block': todo[1:], 'loop': todo[1:]}.get(todo[0], ())
        if todo[0] == 'switch':
            inner = list({id(arm): arm for arm in (*todo[2].values(), todo[3] or [])}.values())
        for part in inner:
            yield from statements(part)


class Function:
    def __init__(self, tree):
        item = tree[2]
        self.symbol = tree[1][1:-1]
        self.types = [local[1] for local in listed(item[4])]
        self.parameters = int(item[3])
        self.declared = {pair[1][1:-1]: pair[2] for pair in (listed(tree[3]) if len(tree) == 4 else [])}
        self.body = in_a_row(item[5], self.holds_array)

    def holds_array(self, at):
        local, steps = at
        of, variant = self.types[local], 0
        for kind, number in steps:
            if kind == 'deref':
                of = number
            elif kind == 'variant':
                variant = number
            elif of[0] == 'tyStruct':
                of = listed(of[2])[number]
            else:
                of = self.field(of[1][1][1:-1], variant, number)
        return of[0] == 'tyArray'

    def field(self, symbol, variant, number):
        kind, parts = self.declared[symbol]
        if kind == 'fields':
            return listed(parts)[number]
        return ['tyInt', '8'] if number == 0 else listed(listed(parts)[variant])[number - 1]


# ---- running


def same_width(a, b, what):
    check(a[0] == b[0], what)
    return a[0], a[1], b[1]


def fits(width, number, what):
    check(0 <= number < 1 << width, what)
    return width, number


def op2(name, a, b):
    if name == 'offset':
        if isinstance(a, Spot):
            a = first_element(a.read())
        check(isinstance(a, Pointer) and b[0] == 64, name)
        return a.moved(b[1])
    if isinstance(a, bool):
        check(isinstance(b, bool), name)
        return {'eq': a == b, 'ne': a != b, 'and': a and b, 'or': a or b, 'xor': a != b}[name]
    width, x, y = same_width(a, b, name)
    if name in ('add', 'sub', 'mul'):
        return fits(width, x + y if name == 'add' else x - y if name == 'sub' else x * y, name)
    if name in ('wrapadd', 'wrapsub', 'wrapmul'):
        return width, (x + y if name == 'wrapadd' else x - y if name == 'wrapsub' else x * y) % (1 << width)
    if name in ('div', 'rem'):
        check(y > 0, name)
        return width, x // y if name == 'div' else x % y
    if name in ('shl', 'shr'):
        check(y < width, name)
        return width, (x << y) % (1 << width) if name == 'shl' else x >> y
    if name in ('and', 'or', 'xor'):
        return width, x & y if name == 'and' else x | y if name == 'or' else x ^ y
    return {'eq': x == y, 'ne': x != y, 'lt': x < y, 'le': x <= y}[name]


def first_element(of):
    """A pointer into the array that a struct has alone."""
    while isinstance(of, tuple) and len(of) == 1:
        of = of[0]
    return Pointer(of, 0) if isinstance(of, Block) else of


def is_number(of):
    """Not a struct whose first field is a truth value, which Python takes for a number."""
    return isinstance(of, tuple) and of != () and type(of[0]) is int


def fresh(of):
    """A value of its own: what is written to its arrays does not show elsewhere."""
    if isinstance(of, Block):
        return of.copy()
    if isinstance(of, tuple) and not is_number(of):
        return tuple(fresh(part) for part in of)
    return of


class Machine:
    def __init__(self, text):
        tree = parse(text)
        self.functions, self.declared = {}, {}
        for definition in listed(tree[1]):
            function = Function(definition)
            self.functions[function.symbol] = function
            self.declared.update(function.declared)
        # gets each call's function and arguments, and gives None, or what to do with the result
        self.watch = None
        self.ran = set()

    def exported(self, crate, name):
        """The symbol of a crate's exported function, whatever its module."""
        found = [symbol for symbol in self.functions if symbol.split('::')[0] == crate and symbol.split('::')[-1] == name]
        check(len(found) == 1, f'{crate} has {len(found)} functions {name}')
        return found[0]

    def call(self, symbol, arguments):
        function = self.functions[symbol]
        check(len(arguments) == function.parameters, 'a call with too many or too few arguments')
        seen = self.watch and self.watch(function, arguments)
        frame = [room(of) for of in function.types]
        frame[1:1 + len(arguments)] = arguments
        check(self.run(function.body, frame) == 'return', 'a function that does not return')
        if seen:
            seen(frame[0])
        return frame[0]

    def located(self, at, frame):
        """Where a place is, references followed."""
        local, steps = at
        found = Spot(frame, local)
        for kind, number in steps:
            if kind == 'deref':
                found = found.read()
                check(isinstance(found, (Spot, Pointer)), 'a reference that was never written')
                found = followed(found, number) if isinstance(found, Pointer) else found
            else:
                check(isinstance(found, Spot), 'a part of an element')
                found = found.at(kind, number)
        return found

    def load(self, at, frame):
        found = self.located(at, frame).read()
        check(found is not None, 'a read of what was never written')
        return fresh(found)

    def store(self, at, of, frame):
        self.located(at, frame).write(of)

    def operand(self, part, frame):
        return fresh(part[1]) if part[0] == 'constant' else self.load(part[1], frame)

    def value(self, of, frame):
        kind = of[0]
        if kind == 'use':
            return self.operand(of[1], frame)
        if kind == 'op2':
            return op2(of[1], self.operand(of[2], frame), self.operand(of[3], frame))
        if kind == 'not':
            found = self.operand(of[1], frame)
            return not found if isinstance(found, bool) else (found[0], (1 << found[0]) - 1 - found[1])
        if kind == 'cast':
            found = self.operand(of[2], frame)
            return (of[1], int(found)) if isinstance(found, bool) else fits(of[1], found[1], 'cast')
        if kind == 'address':
            return self.address(of[1], frame)
        if kind == 'repeat':
            return row([self.operand(of[1], frame)] * of[2])
        parts = [self.operand(part, frame) for part in of[1]]
        return row(parts) if kind == 'array' else tuple(parts)

    def address(self, at, frame):
        local, steps = at
        if steps and steps[-1][0] == 'deref':
            return self.load((local, steps[:-1]), frame)
        found = self.located(at, frame)
        whole = found.read()
        return Pointer(whole, 0) if isinstance(whole, Block) else found

    def run(self, body, frame):
        """None to go on after the body, 'return', or the number of an exit."""
        for todo in body:
            self.ran.add(id(todo))
            kind, out = todo[0], None
            if kind == 'assign':
                self.store(todo[1], self.value(todo[2], frame), frame)
            elif kind == 'call':
                self.store(todo[3], self.call(todo[1], [self.operand(part, frame) for part in todo[2]]), frame)
            elif kind == 'if':
                on = self.operand(todo[1], frame)
                check(isinstance(on, bool), 'a condition')
                out = self.run(todo[2] if on else todo[3], frame)
            elif kind == 'switch':
                arm = todo[2].get(self.operand(todo[1], frame)[1], todo[3])
                check(arm is not None, 'a switch without an arm for it')
                out = self.run(arm, frame)
            elif kind == 'return':
                return kind
            elif kind == 'unreachable':
                raise Stuck('what is never reached')
            elif kind == 'exit':
                return todo[1]
            elif kind == 'block':
                out = self.run(todo[1], frame)
                out = None if out == 0 else out - 1 if isinstance(out, int) else out
            else:
                out, turns = 0, 0
                while out in (None, 0):
                    out, turns = self.run(todo[1], frame), turns + 1
                    check(turns < TURNS, 'a loop that does not end')
                out = out - 1 if isinstance(out, int) else out
            if out is not None:
                return out
        return None
