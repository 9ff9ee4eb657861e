#!/usr/bin/env python3
"""boundary.py: holds the four places that declare the exported functions against each other: the Rattle sources, the C header,
rust/src/raw.rs and library.py. Functions, arguments and the fields of each record must be the same, and so must the version, and the
numbers of refusals and of the enumerations' cases where they stand."""
import ctypes
import os
import re
import sys
from glob import glob

import library

ROOT = os.path.dirname(os.path.dirname(os.path.abspath(__file__)))
C_TYPES = {'uint32_t': 'u32', 'int32_t': 'i32', 'float': 'f32', 'size_t': 'usize', 'uint16_t': 'u16'}
CTYPES = {ctypes.c_uint32: 'u32', ctypes.c_int32: 'i32', ctypes.c_float: 'f32', ctypes.c_size_t: 'usize', ctypes.c_uint16: 'u16'}


def read(path):
    """A file's text without its comments."""
    text = open(os.path.join(ROOT, path)).read()
    return re.sub(r'//[^\n]*|/\*.*?\*/', '', text, flags=re.S)


def record_name(name):
    """One name for a record: settings for ayresokum_settings, SettingsNumbers and Settings."""
    return re.sub(r'^ayresokum_|Numbers$', '', name).lower()


def parts(text, separator):
    return [part.strip() for part in text.split(separator) if part.strip()]


class Declared:
    """What one place declares. A function is its arguments, each a name and a type, and the type of its answer; a record is its
    fields, each a name and a type. A name that the place does not give is None."""

    def __init__(self, place, records, functions):
        self.place, self.records, self.functions = place, records, functions

    def fields(self, record):
        """The fields of a record, those of a record within it in its place."""
        flat = []
        for name, kind in self.records[record]:
            flat += self.fields(kind) if kind in self.records else [(name, kind)]
        return flat

    def crossing(self):
        """The records that functions take or answer with."""
        kinds = {kind for arguments, answer in self.functions.values() for kind in [answer] + [kind for _, kind in arguments]}
        return sorted(kinds & self.records.keys())


def rust_type(kind):
    return record_name(kind) if re.fullmatch(r'[A-Z]\w*', kind) else kind


def rust_fields(text):
    """Names and types of `name: Type` parts; an array is as many fields without a name."""
    fields = []
    for part in parts(text, ','):
        name, kind = parts(part.removeprefix('pub '), ':')
        array = re.fullmatch(r'\[(\w+); (\d+)\]', kind)
        fields += [(None, array[1])] * int(array[2]) if array else [(name, rust_type(kind))]
    return fields


def rust_records(text):
    found = re.findall(r'#\[repr\(C\)\]\s*(?:#\[derive[^\n]*\s*)?pub struct (\w+) \{(.*?)\}', text, re.S)
    return {record_name(name): rust_fields(body) for name, body in found}


def with_lengths(arguments):
    """A slice crosses as a pointer and a length."""
    for name, kind in arguments:
        slice_of = re.fullmatch(r'&(mut )?\[(\w+)\]', kind)
        if slice_of:
            yield name, f'*{slice_of[1] or "const "}{slice_of[2]}'
            yield f'{name}_length', 'usize'
        else:
            yield name, kind


def rattle():
    """The library has the exported functions of the crate `ayresokum_c` alone; their structs stand in any crate."""
    def sources(crate):
        return ''.join(read(path) for path in sorted(glob(f'crates/{crate}/src/**/*.rt', root_dir=ROOT, recursive=True)))
    text = sources('*')
    found = re.findall(r'#\[unsafe\(no_mangle\)\]\s*pub extern "C" fn (\w+)\((.*?)\) -> (\w+)', sources('ayresokum_c'), re.S)
    functions = {name: (list(with_lengths(rust_fields(arguments))), rust_type(answer)) for name, arguments, answer in found}
    return Declared('crates/*/src', rust_records(text), functions)


def rust():
    text = read('rust/src/raw.rs')
    found = re.findall(r'\bfn (ayresokum_\w+)\((.*?)\) -> (\w+);', text, re.S)
    functions = {name: (rust_fields(arguments), rust_type(answer)) for name, arguments, answer in found}
    return Declared('rust/src/raw.rs', rust_records(text), functions)


def c_fields(text):
    """`type a, b` as two fields; a pointer's star belongs to its type."""
    constant, kind, names = re.fullmatch(r'(const )?(\w+) (.*)', text, re.S).groups()
    kind = C_TYPES.get(kind) or record_name(kind)
    for name in parts(names, ','):
        yield name.lstrip('*'), f'*{constant or "mut "}{kind}' if name.startswith('*') else kind


def header():
    text = read('include/ayresokum.h')
    records = {}
    for body, name in re.findall(r'typedef struct \w+ \{(.*?)\} (\w+);', text, re.S):
        records[record_name(name)] = [field for part in parts(body, ';') for field in c_fields(part)]
    functions = {}
    for answer, name, arguments in re.findall(r'^(\w+) (ayresokum_\w+)\((.*?)\);', text, re.S | re.M):
        taken = [field for part in parts(arguments.removesuffix('void'), ',') for field in c_fields(part)]
        functions[name] = taken, C_TYPES.get(answer) or record_name(answer)
    return Declared('include/ayresokum.h', records, functions)


def python():
    records = {}

    def kind_of(kind):
        if hasattr(kind, 'contents'):
            return '*' + CTYPES[kind._type_]
        if not issubclass(kind, ctypes.Structure):
            return CTYPES[kind]
        records[record_name(kind.__name__)] = [(name, kind_of(field)) for name, field in kind._fields_]
        return record_name(kind.__name__)

    functions = {name: ([(None, kind_of(kind)) for kind in arguments], kind_of(answer))
                 for name, (arguments, answer) in library.EXPORTED.items()}
    return Declared('compare/library.py', records, functions)


def is_same(this, that):
    """Of two arguments or fields. Names count where both places give them, and so do `const` and `mut` of a pointer."""
    plain = [re.sub(r'^\*(const|mut) ', '*', kind) for _, kind in (this, that)]
    are_kinds_same = this[1] == that[1] or (plain[0] == plain[1] and {this[1], that[1]} & set(plain))
    return are_kinds_same and (None in (this[0], that[0]) or this[0] == that[0])


def are_same(these, those):
    return len(these) == len(those) and all(is_same(*both) for both in zip(these, those))


def differences(c, other):
    """What another place declares otherwise than the header."""
    for name in sorted(c.functions.keys() | other.functions.keys()):
        if name not in c.functions or name not in other.functions:
            yield f'{(c if name not in c.functions else other).place} has no {name}'
            continue
        (arguments, answer), (others, other_answer) = c.functions[name], other.functions[name]
        if not are_same(arguments, others) or answer != other_answer:
            yield f'{name}:\n  {c.place}: {arguments} to {answer}\n  {other.place}: {others} to {other_answer}'
    for record in c.crossing():
        if record not in other.records:
            yield f'{other.place} has no record {record}'
        elif not are_same(c.fields(record), other.fields(record)):
            yield f'record {record}:\n  {c.place}: {c.fields(record)}\n  {other.place}: {other.fields(record)}'


def numbered(found):
    """Numbers by name, whatever the style of the name; one that is not given is one more than the one before."""
    numbers, last = {}, -1
    for name, number in found:
        last = int(number) if number.isdigit() else last + 1
        numbers[name.upper().replace('_', '').removesuffix('BYTES')] = last
    return numbers


def case_numbers():
    """The numbers of each case of the settings' enumerations, by place. crates/numbers has `0 => Ok(A), 1 => Ok(B), _ => Err(..)` for A and B."""
    matches = [arms for arms in re.findall(r'match n \{(.*?)\}', read('crates/numbers/src/lib.rt'), re.S) if '::' in arms]
    enums = re.findall(r'pub enum \w+ \{(.*?)\}', read('rust/src/settings.rs'), re.S)
    c_enums = re.findall(r'enum ayresokum_(\w+) \{(.*?)\}', read('include/ayresokum.h'), re.S)
    places = {'crates/numbers/src/lib.rt': [[(name, n) for n, name in re.findall(r'(\d+) => Ok\(\w+::(\w+)', arms)] for arms in matches],
              'rust/src/settings.rs, numbers.rs': [re.findall(r'(\w+) = (\d+)', body) for body in enums]
              + [re.findall(r'YuvStandardMatrix::(\w+).*? => \((\d+)', read('rust/src/numbers.rs'))],
              'include/ayresokum.h': [re.findall(r'AYRESOKUM_(\w+) = (\d+)', body) for kind, body in c_enums
                                      if kind not in ('refusal', 'plane', 'channel')]}
    return {place: {case: n for cases in found for case, n in numbered(cases).items()} for place, found in places.items()}


def answer_numbers():
    """The numbers of planes and channels, which answers have."""
    c_enums = re.findall(r'enum ayresokum_(?:plane|channel) \{(.*?)\}', read('include/ayresokum.h'), re.S)
    arms = re.findall(r'(\d+) => (?:Plane|Channel)::(\w+)', read('rust/src/place.rs') + read('rust/src/source_place.rs'))
    return {'rust/src/place.rs, source_place.rs': numbered((name, n) for n, name in arms),
            'include/ayresokum.h': numbered(re.findall(r'AYRESOKUM_(\w+) = (\d+)', ''.join(c_enums)))}


def refusal_numbers():
    """The numbers of refusals, by place. Only a call by numbers can meet 18, so Rattle's rules lack it; the header has 0 for none."""
    c_enum = re.search(r'enum ayresokum_refusal \{(.*?)\}', read('include/ayresokum.h'), re.S)[1]
    arm = r'Refusal::(\w+)(?:\(_\))? => (\d+)'
    return {'crates/rules/src/lib.rt': numbered(re.findall(arm, read('crates/rules/src/lib.rt'))) | {'UNNAMED': 18},
            'rust/src/refusal.rs': numbered(re.findall(arm, read('rust/src/refusal.rs'))),
            'include/ayresokum.h': numbered(re.findall(r'AYRESOKUM_(\w+) = ([1-9]\d*)', c_enum))}


def version_numbers():
    """The number of the interface, by place: the Rattle function's whole body, and a constant elsewhere."""
    places = {'crates/ayresokum/src/lib.rt': r'fn ayresokum_version\(\) -> u32.*?^\{\s*(\d+)\s*^\}',
              'rust/src/raw.rs': r'const VERSION: u32 = (\d+);',
              'include/ayresokum.h': r'#define AYRESOKUM_VERSION (\d+)'}
    found = {place: re.findall(pattern, read(place), re.S | re.M) for place, pattern in places.items()}
    return {place: {'version': int(n) for n in numbers} for place, numbers in found.items()} | {'compare/library.py': {'version': library.VERSION}}


def number_differences(numbers):
    (place, these), *others = numbers.items()
    return [f'{place}: {sorted(these.items() - those.items())}\n  {other}: {sorted(those.items() - these.items())}'
            for other, those in others if these != those]


def main():
    c = header()
    wrong = [line for other in (rattle(), rust(), python()) for line in differences(c, other)]
    numbers = case_numbers(), answer_numbers(), refusal_numbers(), version_numbers()
    wrong += [line for of_places in numbers for line in number_differences(of_places)]
    for line in wrong:
        print(line)
    counts = [len(c.functions), len(c.crossing()), *(len(of_places['include/ayresokum.h']) for of_places in numbers)]
    print('the boundary in Rattle, C, Rust and Python: {} functions, {} records, {} cases of settings, {} of answers, {} refusals, {} version,'
          .format(*counts), len(wrong), 'differences')
    sys.exit(1 if wrong or 0 in counts else 0)


main()
