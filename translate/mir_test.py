#!/usr/bin/env python3
"""Two small libraries' MIR that mir.py takes, and edits of them that it must each refuse."""
import json
import os
import tempfile

import machine
import mir

HEAD = ('{"lifetimes":1,"outlives":[],"params":2,"generics":{"types":[],"outlives":[],"bounds":[],"method_of":null,'
        '"trait_lifetimes":0,"impls":[]},"types":[{"name":"toy::Pair","lifetimes":0,"bounds":[],"type_params":0,'
        '"const_params":[],"type_bounds":[],"owns":false,"is_cell":false,"shape":{"Fields":[{"Int":8},"Bool"]},'
        '"is_tuple":false}],"locals":[{"ty":{"Int":8},"home":"ValueLocal"},')
# `toy_put(list, n)` copies the list to itself and gives an entry of a table, or what `of` makes of n.
TOY = ('[["toy::toy_put",' + HEAD +
       '{"ty":{"Struct":["&[]",[{"Ref":[{"Named":0},"Mut",{"Int":8}]},{"Int":64}]]},"home":"ValueLocal"},'
       '{"ty":{"Int":64},"home":"ValueLocal"},'
       '{"ty":{"Ref":["Erased","Imm",{"Array":[{"Int":8},{"Lit":2}]}]},"home":"ValueLocal"},'
       '{"ty":"Ptr","home":"ValueLocal"},{"ty":"Unit","home":"ValueLocal"},{"ty":"Bool","home":"ValueLocal"}],"body":['
       '"Seq",{"LendStatic":[{"local":3,"steps":[]},{"Array":[{"Int":8},{"Lit":2}]},{"Ints":{"width":8,"values":[7,9]}}]},'
       '"Seq",{"Assign":[{"local":4,"steps":[]},{"AddrOf":{"local":3,"steps":[{"Deref":{"Array":[{"Int":8},{"Lit":2}]}}]}}]},'
       '"Seq",{"Assign":[{"local":4,"steps":[]},{"Op2":["Offset",{"Copy":{"local":4,"steps":[]}},{"Copy":{"local":2,"steps":[]}}]}]},'
       '"Seq",{"Call":[{"Fn":["core::slice::edits::slice+T::copy_from_slice",{"types":[{"Int":8}],'
       '"dicts":[{"Impl":["core::clone::U8Clone",[],[]]}]}]},[{"Copy":{"local":1,"steps":[]}},{"Copy":{"local":1,"steps":[]}}],'
       '{"local":5,"steps":[]}]},'
       '"Seq",{"Assign":[{"local":6,"steps":[]},{"Op2":[{"Lt":"Unsigned"},{"Copy":{"local":2,"steps":[]}},{"Int":{"width":64,"value":2}}]}]},'
       '"Seq",{"If":{"Copy":{"local":6,"steps":[]}}},"Seq",'
       '{"Assign":[{"local":0,"steps":[]},{"Opd":{"Copy":{"local":4,"steps":[{"Deref":{"Int":8}}]}}}]},"Return","Skip",'
       '"Seq",{"Call":[{"Fn":["toy::of",{"types":[],"dicts":[]}]},[{"Copy":{"local":2,"steps":[]}},"True"],{"local":0,"steps":[]}]},"Return"]}],'
       '["toy::of",' + HEAD + '{"ty":{"Int":64},"home":"ValueLocal"},{"ty":"Bool","home":"ValueLocal"},'
       '{"ty":{"Named":[{"name":"toy::Pair","lifetimes":[]},[]]},"home":"MemorySlot"}],"body":["Seq","Block",'
       '{"Switch":[{"Copy":{"local":1,"steps":[]}},[[0],[1,2]],true]},{"Exit":0},'
       '{"Assign":[{"local":3,"steps":[]},{"Aggregate":[{"Int":{"width":8,"value":1}},{"Copy":{"local":2,"steps":[]}}]}]},"Return",'
       '"Seq",{"Assign":[{"local":0,"steps":[]},{"Op1":[{"Cast":["Unsigned","Unsigned",8]},{"Copy":{"local":1,"steps":[]}}]}]},"Return"]}]]')

# What is replaced, by what, and a word of the reason.
EDITS = [
    ('{"LendStatic":[{"local":3', '{"LendStatic":[{"local":4', 'a constant lent as'),
    ('"values":[7,9]', '"values":[7]', 'with 1 entries'),
    ('"Ints":{"width":8', '"Ints":{"width":16', 'a table of'),
    ('[{"Deref":{"Array":[{"Int":8},{"Lit":2}]}}]', '[{"Deref":{"Int":16}}]', 'lent in parts'),
    ('[{"Int":8}],"dicts"', '[{"Int":16}],"dicts"', 'no library core'),
    ('slice+T::copy_from_slice', 'slice+T::clone_from_slice', 'no library core'),
    ('core::clone::U8Clone', 'core::clone::U16Clone', 'no library core'),
    ('"Fn":["toy::of"', '"Fork":["toy::of"', 'a call of'),
    ('"Fn":["toy::of"', '"Method":["toy::of"', 'the impl toy::of'),
    ('["toy::of",{"types":[],', '["toy::lost",{"types":[],', 'no library has toy::lost'),
    ('["toy::of",{"types":[],', '["low::of",{"types":[],', 'no library low'),
    ('["toy::of",{"types":[],', '["toy::of",{"types":["Bool"],', 'toy::of with 1 types'),
    ('"True"', '"Null"', 'the operand'),
    ('{"Lt":"Unsigned"}', '{"PtrLt":"Unsigned"}', 'the operation PtrLt'),
    ('{"Opd":{"Copy":{"local":4', '{"Select":{"Copy":{"local":4', 'the value Select'),
    ('"Skip"', '"Abort"', 'the statement Abort'),
    ('"Return","Skip"', '"Return"', 'end of the MIR'),
    ('"Return"]}],', '"Return","Skip"]}],', 'more than its body'),
    ('{"Deref":{"Int":8}}]}}}', '{"Index":{"Int":8}}]}}}', 'the step Index'),
    ('"ty":"Ptr"', '"ty":{"Param":0}', 'no type for the parameter 0'),
    ('"ty":"Ptr"', '"ty":{"Float":64}', 'the type Float'),
    ('{"Struct":["&[]"', '{"Struct":["&dyn toy::Kind"', 'the type &dyn toy::Kind'),
    ('"home":"MemorySlot"', '"home":"Register"', 'a local'),
    ('"bounds":[],"method_of"', '"bounds":[1],"method_of"', 'with 0 impls'),
    ('"trait_lifetimes":0', '"trait_depth":0', 'toy::toy_put has'),
    ('"name":"toy::Pair","lifetimes":[]},[]', '"name":"toy::Pair","lifetimes":[]},["Bool"]', 'toy::Pair with 1 types'),
    ('"name":"toy::Pair","lifetimes":[]}', '"name":"toy::Lost","lifetimes":[]}', 'no library has the type toy::Lost'),
    ('"toy::toy_put"', '"toy::toy_get"', 'toy has 0 functions toy_put'),
    ('"toy::of",' + HEAD, '"toy::of::toy_put",' + HEAD, 'toy has 2 functions toy_put'),
    ('"toy::of",' + HEAD, '"toy::toy_put",' + HEAD, 'two functions of one name'),
    ('"is_cell":false', '"is_cell":true', 'two types toy::Pair'),
]
# These in every function that tells of the type.
EVERYWHERE = [
    ('"is_cell":false', '"is_cell":true', 'the declared type toy::Pair'),
    ('"owns":false', '"owns":true', 'the declared type toy::Pair'),
    ('"shape":{"Fields"', '"shape":{"Union"', 'the shape Union'),
]


def function(name, types, bounds, method_of, locals_, params, body):
    generics = {'types': [{'is_copy': False, 'is_kept': False, 'const_bits': bits} for bits in types], 'outlives': [],
                'bounds': bounds, 'method_of': method_of, 'trait_lifetimes': 0, 'impls': []}
    maybe = {'name': 'toy::Maybe', 'lifetimes': 0, 'bounds': [], 'type_params': 1, 'const_params': [], 'type_bounds': [],
             'owns': False, 'is_cell': False, 'shape': {'Variants': [[], [{'Param': 0}]]}, 'is_tuple': False}
    other = dict(maybe, name='toy::more::Maybe')
    return [name, {'lifetimes': 0, 'outlives': [], 'params': params, 'generics': generics, 'types': [maybe, other],
                   'locals': [{'ty': of, 'home': 'ValueLocal'} for of in locals_], 'body': body}]


def place(local, *steps):
    return {'local': local, 'steps': list(steps)}


def assign(local, value):
    return {'Assign': [place(local), value]}


def call(callee, arguments, local):
    return {'Call': [callee, [{'Copy': place(it)} for it in arguments], place(local)]}


BYTE, UNIT = {'Int': 8}, 'Unit'


def maybe(of):
    return {'Named': [{'name': 'toy::Maybe', 'lifetimes': []}, [of]]}


# `toy_pick(n)` gives what `found` gives of n, at bytes and a constant: what the impl's method makes of it, which is always
# something. What is found is dropped, and what is marked is not: marking writes where a reference leads.
GENERIC = json.dumps([
    function('toy::toy_pick', [], [], None, [BYTE, BYTE], 1, ['Seq', call(
        {'Fn': ['toy::found', {'types': [BYTE, {'Const': 3}], 'dicts': [{'Impl': ['toy::U8Kind', [], []]}]}]}, [1], 0), 'Return']),
    function('toy::found', [None, 64], [{'of': 'toy::Kind'}], None,
             [{'Param': 0}, {'Param': 0}, maybe({'Param': 0}), {'Array': [BYTE, {'Param': 1}]}, {'Int': 64}, UNIT,
              {'Ref': ['Erased', 'Mut', BYTE]}], 1, [
                 'Seq', call({'Method': [{'Given': 0}, 1, {'types': [], 'dicts': []}]}, [1], 2),
                 'Seq', assign(3, {'Repeat': [{'Int': {'width': 8, 'value': 0}}, {'Param': 1}]}),
                 'Seq', assign(4, {'Op2': [{'Mul': 'Unsigned'}, {'NumOf': [64, {'Param': 1}]}, {'SizeOf': {'Param': 0}}]}),
                 'Seq', call({'Fn': ['toy::drop', {'types': [{'Param': 0}], 'dicts': []}]}, [1], 5),
                 'Seq', {'Assign': [place(6), {'AddrOf': place(1)}]},
                 'Seq', call({'Fn': ['toy::mark', {'types': [], 'dicts': []}]}, [6], 5),
                 'Seq', {'Switch': [{'Copy': place(2, {'Variant': 0}, {'Field': 0})}, [[1], [0]], False]},
                 assign(0, {'Opd': {'Copy': place(2, {'Variant': 1}, {'Field': 1})}}), 'Unreachable', 'Return']),
    function('toy::U8Kind::none', [], [], {'Impl': ['toy::U8Kind', 0]}, [maybe(BYTE), BYTE], 1, ['Seq', assign(
        0, {'Aggregate': [{'Int': {'width': 8, 'value': 0}}]}), 'Return']),
    function('toy::U8Kind::kind', [], [], {'Impl': ['toy::U8Kind', 1]}, [maybe(BYTE), BYTE], 1, ['Seq', assign(
        0, {'Aggregate': [{'Int': {'width': 8, 'value': 1}}, {'Copy': place(1)}]}), 'Return']),
    function('toy::mark', [], [], None, [UNIT, {'Ref': ['Erased', 'Mut', BYTE]}], 1, [
        'Seq', {'Assign': [place(1, {'Deref': BYTE}), {'Opd': {'Int': {'width': 8, 'value': 3}}}]}, 'Seq', assign(0, {'Opd': UNIT}), 'Return']),
    function('toy::drop', [None], [], None, [UNIT, {'Param': 0}], 1, ['Seq', assign(0, {'Opd': UNIT}), 'Return'])])

GENERIC_EDITS = [
    ('{"Given": 0}', '{"Given": 1}', 'no impl for the bound 1'),
    ('{"Given": 0}', '{"Super": 0}', 'the impl Super'),
    ('[{"Given": 0}, 1,', '[{"Given": 0}, 2,', 'no library has the method 2 of toy::U8Kind'),
    ('{"Impl": ["toy::U8Kind", [], []]}', '{"Impl": ["low::U8Kind", [], []]}', 'no library low'),
    ('{"Impl": ["toy::U8Kind", [], []]}', '{"Dyn": ["toy::U8Kind", [], []]}', 'the impl Dyn'),
    ('{"Impl": ["toy::U8Kind", 1]}', '{"Trait": ["toy::U8Kind", 1]}', 'no library has the method 1'),
    ('{"Impl": ["toy::U8Kind", 1]}', '{"Impl": ["toy::U8Kind", 0]}', 'two methods'),
    ('{"Const": 3}', '{"Int": 8}', 'a length that is the type Int'),
    (', {"Const": 3}', '', 'toy::found with 1 types'),
    ('[{"Impl": ["toy::U8Kind", [], []]}]', '[]', 'toy::found with 0 impls'),
    ('{"NumOf": [64, {"Param": 1}]}', '{"NumOf": [64, {"Param": 2}]}', 'no constant for the parameter 2'),
    ('{"NumOf": [64, {"Param": 1}]}', '{"AlignOf": {"Param": 0}}', 'the operand'),
    ('{"SizeOf": {"Param": 0}}', '{"SizeOf": {"Param": 1}}', 'the type Const'),
    ('[{"Int": 8}, {"Const": 3}]', '[{"Float": 32}, {"Const": 3}]', 'a name for the type Float'),
    ('"type_params": 1', '"type_params": 2', 'two types toy::Maybe'),
    ('{"Named": [{"name": "toy::Maybe"', '{"Named": [{"name": "toy::more::Maybe"', 'two things would be called toy::Maybe_u8'),
    ('"toy::drop", {"lifetimes"', '"toy::lost", {"lifetimes"', 'no library has toy::drop'),
]


def text_of(library, name):
    with tempfile.TemporaryDirectory() as room:
        path = os.path.join(room, 'toy.json')
        with open(path, 'w', encoding='utf-8') as file:
            file.write(library)
        return mir.program('toy', [name], mir.Libraries([path]))


def refused(library, name, edits, count):
    for old, new, why in edits:
        assert old in library, old
        try:
            text_of(library.replace(old, new, count), name)
        except mir.Refused as told:
            assert why in str(told), (old, new, str(told))
        else:
            raise AssertionError(f'{old} -> {new} is not refused')


def run_by_hand():
    """The functions that are written by hand, on the machine."""
    lists = [[], [1], [2], [1, 2, 3], [1, 2, 4], [9, 2, 3], [1, 2]]
    for name, write in mir.BY_HAND.values():
        runs = machine.Machine(f'program (lcons {write(name)} lnil)')
        for a in lists:
            for b in (it for it in lists if write is mir.equal or len(it) == len(a)):
                one, other = machine.Block(8, list(a)), machine.Block(8, list(b))
                lent = [(machine.Pointer(of, 0), (64, len(of.elements))) for of in (one, other)]
                answer = runs.call(name, lent)
                assert answer == ((a == b) if write is mir.equal else ()) and other.elements == b, (name, a, b, answer)
                assert one.elements == (a if write is mir.equal else b), (name, a, b)


def main():
    run_by_hand()
    made = text_of(TOY, 'toy_put') + text_of(GENERIC, 'toy_pick')
    for part in ('(fn-def "toy::of"', '(fn-def "core::slice::copy_from_slice"', '(local (tyArray (tyInt 8) (lenLit 2)) memorySlot)',
                 '(assign (place 4 lnil) (addrOf (place 3 lnil)))', '(arm (lcons 1 (lcons 2 lnil))',
                 '(call (direct (fnRef "toy::found_u8_3"))', '(local (tyArray (tyInt 8) (lenLit 3)) valueLocal)',
                 '(call (direct (fnRef "toy::U8Kind::kind"))', '(call (direct (fnRef "toy::mark"))', '(pair "toy::Maybe_u8" (variants',
                 '(assign (place 4 lnil) (rvOpd (int 64 3)))'):
        assert part in made, (part, made)
    assert 'toy::drop' not in made, made
    refused(TOY, 'toy_put', EDITS, 1)
    refused(TOY, 'toy_put', EVERYWHERE, -1)
    refused(GENERIC, 'toy_pick', GENERIC_EDITS, 1)
    print(f'ok     mir.py: refuses each of {len(EDITS + EVERYWHERE + GENERIC_EDITS)} edits')


if __name__ == '__main__':
    main()
