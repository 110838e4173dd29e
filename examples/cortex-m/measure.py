#!/usr/bin/env python3
"""Builds dist/ for a Cortex-M0+ and a Cortex-M4 and tells, call by call, code, stack and instructions.

usage: measure.py FOLDER

Code is the text of the driver's three calls (c2.o) and of the model (c2_target.o). Stack is that of the
deepest path from the call on, by the compilers' own figures for each function and the calls in the machine
code; the C library's and the compiler's helpers are taken from their machine code. Instructions are counted
by qemu with -icount over a session of one page: the mean of all calls, the longest in brackets. "By hand" is
by_hand.c instead of dist/c2.c. What is not installed is told, with its Debian package.
"""
import os
import re
import shutil
import subprocess
import sys

HERE = 'examples/cortex-m'
CALLS = ('c2_open', 'c2_advance', 'c2_steps_left', 'c2_target_step')
ROWS = (('c2_open', 'c2_open'), ('c2_advance, one reply', 'c2_advance'), ('c2_advance, each of 64', 'c2_advance_64'),
        ('c2_steps_left', 'c2_steps_left'), ('c2_target_step', 'c2_target_step'))
# the processor that the code is for, and the machine of qemu's that runs it (its Cortex-M0 runs code for the
# M0+)
PROCESSORS = {'M0+': ('cortex-m0plus', 'microbit'), 'M4': ('cortex-m4', 'mps2-an386')}
BUILDS = [(processor, compiler, level) for processor in PROCESSORS for compiler, level in
          (('gcc', '-Os'), ('gcc', '-O2'), ('clang', '-Os'), ('clang', '-O2'))]
PACKAGES = {'arm-none-eabi-gcc': 'gcc-arm-none-eabi and libnewlib-arm-none-eabi', 'qemu-system-arm': 'qemu-system-arm', 'clang': 'clang'}


def run(*words):
    """What a command writes, to either stream: semihosting goes to the second one."""
    both = subprocess.STDOUT
    return subprocess.run(words, check=True, text=True, stdout=subprocess.PIPE, stderr=both, timeout=300).stdout


class Build:
    def __init__(self, out, processor, compiler, level, driver):
        self.cpu, self.machine = PROCESSORS[processor]
        self.cc = [['arm-none-eabi-gcc'], ['clang', '--target=arm-none-eabi']][compiler == 'clang']
        self.level, self.driver = level, driver
        self.out = os.path.join(out, f'{self.cpu}-{compiler}{level}-{os.path.basename(driver)[:-2]}')
        os.makedirs(self.out, exist_ok=True)

    def compile(self, source):
        made = os.path.join(self.out, os.path.basename(source)[:-2] + '.o')
        run(*self.cc, '-std=c99', f'-mcpu={self.cpu}', '-mthumb', self.level, '-ffreestanding', '-ffunction-sections', '-fdata-sections',
            '-fstack-usage', '-Wall', '-Wextra', '-Werror', '-Iinclude', '-c', source, '-o', made)
        return made

    def link(self, name, objects):
        made = os.path.join(self.out, name)
        run('arm-none-eabi-gcc', f'-mcpu={self.cpu}', '-mthumb', '-nostartfiles', '-specs=nano.specs', '-Wl,--gc-sections', '-T',
            f'{HERE}/link.ld', *objects, '-o', made)
        return made

    def emulate(self, elf, *words):
        return run('qemu-system-arm', '-M', self.machine, '-nographic', '-semihosting-config', 'enable=on,target=native', *words,
                   '-kernel', elf)

    def make(self):
        c2, target, start = (self.compile(source) for source in (self.driver, 'dist/c2_target.c', f'{HERE}/start.c'))
        measured = self.link('measure.elf', [self.compile(f'{HERE}/measure.c'), start, c2, target])
        self.text = [int(run('arm-none-eabi-size', made).splitlines()[1].split()[0]) for made in (c2, target)]
        self.stack = Stack(self.out, measured)
        self.told = dict(re.findall(r'^(\w+ \w+) (\d+)$', self.emulate(measured, '-icount', 'shift=8'), flags=re.M))
        assert self.told['outcome is'] == '32', self.told
        self.example = None
        if self.driver == 'dist/c2.c' and self.cc == ['arm-none-eabi-gcc'] and self.level == '-Os':
            objects = [self.compile(f'{HERE}/{name}.c') for name in ('driver', 'board_model')]
            self.example = self.emulate(self.link('driver.elf', objects + [start, c2, target]))

    def instructions(self, name, kind):
        """A call's, with 64 replies each reply's."""
        ticks = int(self.told[f'{name} {kind}']) / int(self.told['nops ticks'])
        if name == 'c2_advance_64':
            ticks = ticks * int(self.told[f'{name} calls']) / int(self.told['replies are'])
        return f'{ticks:,.0f}'

    def cell(self, name):
        mean = self.instructions(name, 'ticks')
        return mean if name == 'c2_advance_64' else f"{mean} ({self.instructions(name, 'most')})"


class Stack:
    """The deepest path from a function on, in bytes."""

    def __init__(self, out, elf):
        self.own, self.calls, self.frames, self.known = {}, {}, {}, {}
        for name in os.listdir(out):
            if name.endswith('.su'):
                with open(os.path.join(out, name), encoding='utf-8') as lines:
                    for line in lines:
                        place, size, kind = line.rstrip('\n').split('\t')
                        assert kind in ('static', 'dynamic,bounded'), line
                        name = plain(place.split(':')[-1])
                        self.own[name] = max(self.own.get(name, 0), int(size))
        function = None
        for line in run('arm-none-eabi-objdump', '-d', elf).splitlines():
            head = re.fullmatch(r'[0-9a-f]+ <(.+)>:', line)
            if head:
                function = plain(head[1])
                self.calls.setdefault(function, set())
                self.frames.setdefault(function, 0)
            elif function:
                self.read(function, line)

    def read(self, function, line):
        to = re.search(r'\t(bl|b|b\.n|b\.w|bl\.w)\t[0-9a-f]+ <([^+>]+)>', line)
        if to and plain(to[2]) != function:
            self.calls[function].add(plain(to[2]))
        assert not re.search(r'\tblx\t', line) or function in ('reset',), f'a call through a pointer in {function}: {line}'
        pushed = re.search(r'\t(?:push|push\.w|stmdb\tsp!,)\s*\{(.*)\}', line)
        if pushed:
            self.frames[function] += 4 * sum(1 if '-' not in part else registers(part) for part in pushed[1].split(', '))
        lowered = re.search(r'\tsub(?:\.w)?\tsp, (?:sp, )?#(\d+)', line)
        if lowered:
            self.frames[function] += int(lowered[1])

    def below(self, function, path=()):
        assert function not in path, f'recursion at {function}'
        if function not in self.known:
            own = self.own.get(function, self.frames[function])
            deeper = [self.below(callee, path + (function,)) for callee in self.calls[function]]
            self.known[function] = own + max(deeper, default=0)
        return self.known[function]


def plain(name):
    """A function's name without what a compiler adds for a copy or a part, or the linker for a way to it."""
    return re.sub(r'^__(\w+)_veneer$', r'\1', name.split('.')[0])


def registers(part):
    order = [f'r{k}' for k in range(11)] + ['fp', 'ip', 'sp', 'lr', 'pc']
    first, last = part.split('-')
    return order.index(last) - order.index(first) + 1


def missing():
    return [f'not run: {tool} is not installed (Debian packages {package})' for tool, package in PACKAGES.items() if not shutil.which(tool)]


def table(title, builds, rows):
    print(f'| {title} | ' + ' | '.join(name for name, _ in builds) + ' |')
    print('|---' * (len(builds) + 1) + '|')
    for name, cell in rows:
        print(f'| {name} | ' + ' | '.join(cell(build) for _, build in builds) + ' |')
    print()


def main(out):
    told = missing()
    print('\n'.join(told), end='\n' if told else '')
    if shutil.which('arm-none-eabi-gcc') is None or shutil.which('qemu-system-arm') is None:
        return
    made, by_hand = [], []
    for processor, compiler, level in BUILDS:
        if shutil.which(compiler if compiler == 'clang' else 'arm-none-eabi-gcc'):
            for driver, into in (('dist/c2.c', made), (f'{HERE}/by_hand.c', by_hand)):
                build = Build(out, processor, compiler, level, driver)
                build.make()
                into.append((f'{processor} {compiler} {level}', build))
    assert len({build.told['sum is'] for _, build in made + by_hand}) == 1, 'the builds differ'
    for name, build in made:
        if build.example:
            print(f'examples/cortex-m/driver.c on {name}:\n{build.example}')
    tell('dist/', made, ROWS, CALLS, ("driver's three calls", 'model'))
    tell('By hand', by_hand, ROWS[:4], CALLS[:3], ("driver's three calls",))


def tell(title, builds, rows, calls, texts):
    table(f'{title}: instructions (longest)', builds, [(name, lambda b, key=key: b.cell(key)) for name, key in rows])
    table(f'{title}: stack, bytes', builds, [(name, lambda b, name=name: f'{b.stack.below(name):,}') for name in calls])
    table(f'{title}: code, bytes', builds, [(name, lambda b, k=k: f'{b.text[k]:,}') for k, name in enumerate(texts)])


if __name__ == '__main__':
    if len(sys.argv) != 2:
        sys.exit(__doc__)
    try:
        main(sys.argv[1])
    except subprocess.CalledProcessError as failed:
        sys.exit(f'{" ".join(failed.cmd)}\n{failed.stdout}')
