# Holds the objects of a file, one a line, against docs/objects.schema.json: each is one of those that the schema has, each kind,
# each field and each word of a list was met, and objects that are wrong are refused. The last line is 'N passed, M failed'.
#
#     schema.py SCHEMA OBJECTS
import json
import sys

from jsonschema import Draft202012Validator

# What need not be met, and why.
NOT_MET = {
    'near.does = claim': 'who claims has the header of the transaction, and so explains it',
    'near.does = nothing': 'who has ended has put the STOP of the transaction, and so explains it',
    'near.wire = nothing': 'the last slot of a wire is its STOP, with which a participant ends',
    'refused_run.code = memory': 'a trial build cannot run below any limit; of the proved one tests/json.sh refuses memory',
}

SHOWN = 5
passed = failed = 0


def judge(name, wrong):
    global passed, failed
    if not wrong:
        passed += 1
        return
    failed += 1
    print(f'FAILED: {name}')
    print(*wrong[:SHOWN], sep='\n')
    if len(wrong) > SHOWN:
        print(f'and {len(wrong) - SHOWN} more')


with open(sys.argv[1], encoding='utf-8') as file:
    SCHEMA = json.load(file)
PARTS = SCHEMA['$defs']
ALL = Draft202012Validator(SCHEMA)


def target(schema):
    return schema['$ref'].rpartition('/')[2]


# An object can only be of the parts that have its kind, and those are looked at alone: that is faster than to look at all.
VALIDATORS = {}
for part in map(target, SCHEMA['oneOf']):
    validator = Draft202012Validator({'$ref': f'#/$defs/{part}', '$defs': PARTS})
    VALIDATORS.setdefault(PARTS[part]['properties']['kind']['const'], []).append((part, validator))


def parts_of(found):
    of_kind = VALIDATORS.get(found.get('kind'), [])
    return [part for part, validator in of_kind if validator.is_valid(found)]


def why_not(found):
    errors = [error for _, validator in VALIDATORS.get(found.get('kind'), []) for error in validator.iter_errors(found)]
    return '; '.join(f'{error.json_path}: {error.message}' for error in errors) or 'no such kind'


# ---- what there is to be met, and what was met

def marks(schema, path):
    if '$ref' in schema:
        yield from marks(PARTS[target(schema)], target(schema))
        return
    for word in schema.get('enum', ()):
        yield f'{path} = {word}'
    for name, field in schema.get('properties', {}).items():
        yield f'{path}.{name}'
        yield from marks(field, f'{path}.{name}')
    if 'items' in schema:
        yield from marks(schema['items'], path)


def met(schema, value, path, seen):
    if '$ref' in schema:
        met(PARTS[target(schema)], value, target(schema), seen)
        return
    if 'enum' in schema:
        seen.add(f'{path} = {value}')
    if isinstance(value, dict):
        for name, field in schema.get('properties', {}).items():
            if name in value:
                seen.add(f'{path}.{name}')
                met(field, value[name], f'{path}.{name}', seen)
    elif isinstance(value, list):
        for item in value:
            met(schema.get('items', {}), item, path, seen)


# ---- the schema, and the objects

Draft202012Validator.check_schema(SCHEMA)
passed += 1

with open(sys.argv[2], encoding='utf-8') as file:
    lines = sorted({*file.read().split('\n')} - {''})
wrong = {}
right = {part: [] for part in map(target, SCHEMA['oneOf'])}
seen = set()
for line in lines:
    found = json.loads(line)
    parts = parts_of(found)
    if len(parts) == 1:
        met({'$ref': f'#/$defs/{parts[0]}'}, found, '', seen)
        right[parts[0]].append(found)
    else:
        reason = f'it is {" and ".join(parts)}' if parts else why_not(found)
        wrong.setdefault(str(found.get('kind')), []).append(f'{line}\n    {reason}')
for kind in sorted({*VALIDATORS, *wrong}):
    judge(f'objects of the kind {kind} that the schema refuses', wrong.get(kind, []))
for part in map(target, SCHEMA['oneOf']):
    due = set(marks({'$ref': f'#/$defs/{part}'}, ''))
    judge(f'what was not met of {part}', sorted(due - seen - set(NOT_MET)))
judge('what is listed as not met, and is not in the schema',
      sorted(set(NOT_MET).difference(*(marks(part, '') for part in SCHEMA['oneOf']))))

# ---- objects that are wrong


# One of this part with these fields.
def one(part, *fields):
    return dict(next((found for found in right[part] if all(field in found for field in fields)), {}))


# Each is an object that is right but for what is put in, or taken out where that is nothing.
def refuses(name, found, **changes):
    judge(f'{name}: there is no object to change', [] if ALL.is_valid(found) else [json.dumps(found)])
    for field, value in changes.items():
        if value is None:
            found.pop(field, None)
        else:
            found[field] = value
    judge(f'{name}: the schema takes it', [json.dumps(found)] if ALL.is_valid(found) else [])


def deeper(found, field, **changes):
    return {**found.get(field, {}), **changes}


refuses('another kind', one('won'), kind='lost')
refuses('no kind', one('signals'), kind=None)
refuses('a field more', one('pair'), colour='red')
refuses('a field too few', one('pair'), after=None)
refuses('a field of another kind', one('decoded_transactions'), unexplained='0')
group = one('group', 'explain')
refuses('a field more in an explanation', group, explain=deeper(group, 'explain', colour='red'))
refuses('a wire with another symbol', one('pair'), after='0010x')
refuses('a wire that goes on after its STOP', one('rehearsal'), wire='00100000ls0')
refuses('three that meet', one('pair'), meet=['data', 'stop', 'stop'])
refuses('a kind that never meets', one('pair'), meet=['data', 'start'])
refuses('a number as a text', one('safe_plan'), pairs='2')
refuses('a number below 0', one('safe_plan'), pairs=-1)
refuses('a safe plan with an unsafe pair', one('safe_plan'), unsafe_pairs=1)
refuses('an accepted certificate with a code', one('accepted_certificate'), code='C2')
refuses('no such code of a certificate', one('wrong_pair_of_certificate'), code='C4')
refuses('an address of three digits', one('address'), address='048')
refuses('an address of eight bits', one('address'), address='90')
refuses('an unsafe pair that somebody wins', one('order', 'first'), unsafe=True)
refuses('a pair of which nothing is said', one('order', 'unsafe'), unsafe=None)
refuses('a transaction that has an end and is unfinished', one('decoded_transaction', 'to'), end='unfinished')
refuses('a time with no such unit', one('captured_transaction', 'to'), to='5 min')
refuses('a label without a controller', one('total'), participant='write_output')
refuses('no such code of a refusal', one('refused_text'), code='P9')
refuses('what is expected of P1', one('refused_text', 'expected'), code='P1')
refuses('the place of a missing semicolon without its column', one('refused_text', 'after_line'), after_column=None)
refuses('a label that is refused with another code', one('refused_starters', 'label'), code='B3')
refuses('a refused file without its name', one('refused_file'), file=None)
refuses('a line 0', one('refused_dump'), line=0)
refuses('a hint of another form', one('hint'), form='word')

print(f'{passed} passed, {failed} failed')
