#!/usr/bin/env python3
"""A VersionTable of jscd for a V8 of node (x64, no pointer compression): numbers and names alone, out of V8's own lists.

usage: make.py V8_DIR OUT.json TRACE..

V8_DIR is deps/v8 of node's sources, of which src/ and include/v8-version.h are read. A TRACE is what `node --trace-serializer make.js ..` of the
same V8 printed: it says which root has which number, so it fills the part of the list that V8's Torque compiler makes, and tests the rest.
It prints how many roots the traces name and which of them the list has otherwise; its status is 1 where it has one.
"""
import json
import re
import subprocess
import sys

# What V8's Torque compiler and C++ lay out, by major and minor version: offsets at tagged size 8.
BYTECODE_ARRAY = dict(length=8, constant_pool=16, handler_table=24, source_position_table=32, frame_size=40, parameter_size=44,
                      incoming_new_target_or_generator_register=48)
LAYOUTS = {
    '10.2': dict(header_size=56, fields=dict(BYTECODE_ARRAY, osr_urgency_and_install_target=52, bytecode_age=54)),
    '11.3': dict(header_size=54, fields=dict(BYTECODE_ARRAY, bytecode_age=52)),
}
# The same in all of these versions: the code cache's header, the interpreter's frame, SharedFunctionInfo, the flags of a ScopeInfo.
HEADER = dict(version_hash=4, source_hash=8, flag_hash=12, read_only_checksum=None, payload_length=16, checksum=20, header_size=24)
FRAME = dict(reg_file_start=-6, context_index=-5, closure_index=-4, first_param=-8)
SHARED = dict(header_size=56, fields=dict(function_data=8, name_or_scope_info=16, outer_scope_info_or_feedback_metadata=24,
                                          script_or_debug_info=32))
SCOPE = dict(flags_smi=True, position_info_early=False, max_inlined_names=75, saved_class_bit=10, has_outer_bit=22,
             function_variable_bits=[12, 13], receiver_bits=[7, 8], has_inferred_bit=14)


def text(path):
    return open(f'{v8}/{path}').read()


def macros(path):
    """The lines of a header that define macros or ask for them, each in one line, without comments."""
    whole = re.sub(r'/\*.*?\*/', ' ', text('src/' + path).replace('\\\n', '\x01'), flags=re.S)
    kept = [l for l in whole.split('\n') if re.match(r'\s*#\s*(define|undef|if|ifdef|ifndef|else|elif|endif)\b', l)]
    return '\n'.join(l.replace('\x01', ' ') for l in kept)


def expanded(paths, tail):
    """What the C preprocessor makes of `tail` with the macros of these headers, as in a build with intl and WebAssembly."""
    config = ['#define V8_INTL_SUPPORT 1', '#define V8_ENABLE_WEBASSEMBLY 1', '#define IF_WASM(V, ...) V(__VA_ARGS__)']
    code = '\n'.join(config + [macros(p) for p in paths] + ['#undef IF_WASM', config[2], tail, ''])
    run = subprocess.run(['cpp', '-P', '-w', '-'], input=code, capture_output=True, text=True)
    if run.returncode != 0:
        sys.exit(run.stderr[:2000])
    return run.stdout


def items(paths, tail):
    """The arguments of each `@( .. )@` that `tail` gives."""
    found = re.findall(r'@\((.*?)\)@', expanded(paths, tail), re.S)
    return [[a.strip() for a in one.split(',') if a.strip()] for one in found]


def bytecodes():
    listed = items(['interpreter/bytecodes.h'], '#define ITEM(name, use, ...) @(name, __VA_ARGS__)@\nBYTECODE_LIST(ITEM)')
    out = []
    for name, *operands in listed:
        one = dict(name=name, operands=[o.split('::k')[1] for o in operands])
        if name in ('Wide', 'ExtraWide'):
            one['prefix'] = name
        out.append(one)
    return out


def operand_types():
    path = ['interpreter/bytecode-operands.h']
    infos = items(path, '#define ITEM(name, scalable, unsigned, size) @(name, scalable, size)@\nOPERAND_TYPE_INFO_LIST(ITEM)')
    sizes = {name: (dict(kNone=0, kByte=1, kShort=2, kQuad=4)[size.split('::')[1]], scalable == 'true') for name, scalable, size in infos}
    types = items(path, '#define ITEM(name, info) @(name, info)@\nOPERAND_TYPE_LIST(ITEM)')
    types = [(name, *sizes[info.split('::k')[1]]) for name, info in types]
    return {name: dict(size=size, scalable=scalable) for name, size, scalable in types if name != 'None'}


def runtime_names():
    listed = items(['runtime/runtime.h'], '#define F(name, nargs, ressize) @(name)@\n#define I(name, nargs, ressize) @(Inline##name)@\n'
                   'FOR_EACH_INTRINSIC(F) FOR_EACH_INLINE_INTRINSIC(I)')
    return [name for [name] in listed]


def intrinsic_names():
    listed = items(['interpreter/interpreter-intrinsics.h'], '#define ITEM(name, lower, count) @(name)@\nINTRINSICS_LIST(ITEM)')
    return [name for [name] in listed]


def tags():
    """The enumeration of the serializer's bytes."""
    enum = re.search(r'enum Bytecode : (?:byte|uint8_t) \{(.*?)\n  \};', text('src/snapshot/serializer-deserializer.h'), re.S).group(1)
    out, last = {}, -1
    for name, value in re.findall(r'^\s*(k\w+)(?:\s*=\s*(0x[0-9a-f]+))?,', enum, re.M):
        last = int(value, 16) if value else last + 1
        out[name] = last
    return out


def traced(paths):
    """The roots that a serializer named, by number."""
    out = {}
    for path in paths:
        for number, what in re.findall(r'Encoding root (\d+):0x[0-9a-f]+ (<.*>)', open(path, errors='replace').read()):
            out.setdefault(int(number), what)
    return out


def map_name(what):
    found = re.match(r'<Map(?:\[\d+\])?\((\w+)_TYPE\)>', what)
    return found and ''.join(part.capitalize() for part in found.group(1).split('_')) + 'Map'


def roots(seen):
    whole = expanded(['init/heap-symbols.h', 'objects/objects-definitions.h', 'roots/roots.h'], '''
#define TORQUE_DEFINED_MAP_ROOT_LIST(V) @@TORQUE@@
#define ACCESSOR_INFO_LIST_GENERATOR(V, _)
#undef INTERNALIZED_STRING_LIST_ADAPTER
#define INTERNALIZED_STRING_LIST_ADAPTER(V, name, ...) @S@ __VA_ARGS__ @E@
#undef SYMBOL_ROOT_LIST_ADAPTER
#define SYMBOL_ROOT_LIST_ADAPTER(V, name, ...) @Y@ name @E@
#define ITEM(type, name, camel) @R@ camel @E@
ROOT_LIST(ITEM)
''')
    out, unnamed = [], 0
    for kind, name, torque in re.findall(r'@([SYR])@(.*?)@E@|(@@TORQUE@@)', whole, re.S):
        name = name.strip()
        if torque:
            # The maps that Torque makes end two roots before the string `constructor`, the first of the names for protectors.
            end = next(k for k, what in seen.items() if what.endswith(': #constructor>')) - 2
            for k in range(len(out), end):
                named = map_name(seen.get(k, ''))
                unnamed += not named
                out.append(named or f'Torque{k}Map')
        elif kind == 'S':
            out.append('String:' + json.loads(re.search(r'"(?:[^"\\]|\\.)*"', name).group(0)))
        else:
            out.append('Symbol:' + name if kind == 'Y' else name)
    return out, unnamed


def otherwise(listed, seen):
    """The roots that the traces name otherwise than the list. A trace has the type of a map, which two maps may share."""
    out = []
    for k, what in sorted(seen.items()):
        name = listed[k] if k < len(listed) else ''
        string, symbol, map = re.match(r'<String\[[1-9]\d*\]: #(.*)>', what), re.match(r'<Symbol: ', what), map_name(what)
        plain = name.lower().replace('cow', '')
        same = not map or map.lower() in (plain, plain.replace('array', ''))
        if string and name != 'String:' + string.group(1) or symbol and not name.startswith('Symbol:') or not same:
            out.append(f'{k}: {name} in the list, {what} in a trace')
    return out


v8, out, *traces = sys.argv[1:]
version = '.'.join(re.search(rf'#define V8_{part} (\d+)', text('include/v8-version.h')).group(1)
                   for part in ('MAJOR_VERSION', 'MINOR_VERSION', 'BUILD_NUMBER', 'PATCH_LEVEL'))
family = '.'.join(version.split('.')[:2])
if family not in LAYOUTS:
    sys.exit(f'V8 {version}: how a BytecodeArray is laid out must be read in its sources and put into LAYOUTS')
seen = traced(traces)
listed, unnamed = roots(seen)
wrong = otherwise(listed, seen)
table = dict(
    v8=version, source_tag=f'deps/v8 {version}', header=HEADER, hash=dict(algorithm='murmur_combine_v1'), tagged_size=8,
    capture_tagged_size=8, bytecodes=bytecodes(), operand_types=operand_types(), roots=listed, runtime_names=runtime_names(),
    intrinsic_names=intrinsic_names(), bytecode_array=LAYOUTS[family], frame=FRAME, shared_function_info=SHARED, scope_info=SCOPE,
    parameter_count=dict(direct=False), serialization=dict(tags=tags()))
with open(out, 'w') as file:
    json.dump(table, file, indent=1)
    file.write('\n')
print(f'V8 {version}: {len(listed)} roots, {len(seen)} of them named by the traces, {len(wrong)} otherwise; {unnamed} maps of Torque unnamed')
print('\n'.join(wrong), end='\n' if wrong else '')
sys.exit(1 if wrong else 0)
