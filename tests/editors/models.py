# Made-up boards of several files, in the editor: what is completed at tokens of their items, held against `twire check`, and
# names with others in their places, held against `twire expand`. The first argument is the program, the second a seed, and the
# third how many boards are made. The last line is 'N passed, M failed'.
import os
import random
import re
import subprocess
import sys
import tempfile

from protocol import TWIRE, Server, counts, finish, spot, want

SEED = int(sys.argv[2]) if len(sys.argv) > 2 else 74
BOARDS = int(sys.argv[3]) if len(sys.argv) > 3 else 2
# How many completions, and how many words that may or may not stand somewhere, are tried in each file
TRIED = 5
WORDS = 4
STEMS = ['a', 'b', 'a_b', 'psu', 'fan', 'page', 'get', 'set', 'm', 'bmc', 'pch', 'x1', 'x']
# Words of a `brief 2`, which are names in a `brief 1`
SECOND = ['with', 'group', 'extend', 'but', 'wr', 'rd', 'pec', 'sum']
KEYWORDS = ['device', 'byte', 'message', 'controller', 'interrupt', 'never', 'write', 'read', 'else', 'stop', 'any'] + SECOND


def check(text, wanted, found):
    if wanted == found:
        counts['passed'] += 1
    else:
        want(text, wanted, found)


# ---- what a choice makes


# How many blocks of 2^k values from a multiple of 2^k on have these values: a block that has all of them is one.
def blocks(values, low=0, size=256):
    own = [value for value in values if low <= value < low + size]
    if not own:
        return 0
    if len(own) == size:
        return 1
    return blocks(own, low, size // 2) + blocks(own, low + size // 2, size // 2)


# ---- a board


# A message, and the names that stand for it or for some of it, each with the messages of the plan for which it stands.
class Message:
    def __init__(self, name, devices, numbers):
        self.names = {}
        for device in devices or [None]:
            one = name if device is None else f'{name}_{device}'
            members = [one] if numbers is None else [f'{one}_{number}' for number in numbers]
            for member in members:
                self.names[member] = {member}
            self.names[one] = set(members)
            self.names.setdefault(name, set()).update(members)


class Board:
    def __init__(self, chance):
        self.chance = chance
        self.devices = {}
        self.groups = {}
        self.bytes = []
        self.sends = {}
        self.lists = {}
        self.kept = set()
        self.nevers = []
        self.interrupts = []
        # what messages make by a choice
        self.chosen = set()
        # the files, each as its tokens, in which a line ends with None
        self.files = []
        self.version = 2

    def one(self, things):
        return self.chance.choice(list(things))

    def may(self, one_in):
        return self.chance.randrange(one_in) == 0

    # A name that none of these has. In a first version it may be a word of the second one.
    def new(self, others):
        for _ in range(50):
            name = self.one(STEMS)
            if self.may(3):
                name += self.one(['1', '_1', '_2', '_psu'])
            if self.version == 1 and self.may(8):
                name = self.one(SECOND)
            if name not in others:
                return name
        return 'n' + str(self.chance.randrange(10000))

    # Those of these names that may stand in this version.
    def known(self, names):
        return [name for name in names if self.version == 1 or not any(half in SECOND for half in name.split('/'))]

    # ---- items, as tokens: each a word and what it is

    def items(self, count):
        tokens = []
        for _ in range(count):
            make = self.one([self.device, self.device, self.byte, self.message, self.message, self.message, self.controller,
                             self.controller, self.interrupt, self.never, self.never, self.group, self.extend])
            made = make()
            if made:
                if self.may(6):
                    tokens.append(('# a comment with device and message', 'comment'))
                    tokens.append(None)
                tokens += made + [(';', 'sign'), None]
        return tokens

    def device(self):
        name = self.new([*self.devices, *self.groups])
        address = self.one(['0x%02X' % self.chance.randrange(8, 120), '0x1X', '0b10100xx', '0b1011000'])
        self.devices[name] = address
        return [('device', 'keyword'), (name, 'new'), (address, 'number')]

    def byte(self):
        name = self.new(self.bytes)
        self.bytes.append(name)
        return [('byte', 'keyword'), (name, 'new'), (self.one(['0x10', '0x7X', '0b0101xxxx']), 'number')]

    def group(self):
        known = self.known(self.devices)
        if self.version == 1 or not known:
            return None
        name = self.new([*self.devices, *self.groups])
        own = self.chance.sample(known, min(len(known), self.chance.randrange(1, 4)))
        self.groups[name] = own
        return [('group', 'keyword'), (name, 'new')] + [(one, 'name') for one in own]

    # An address, the name of a device, or that of the group of the message.
    def to(self, group):
        known = self.known(self.devices)
        if group and self.may(2):
            return (group, 'name')
        if known and not self.may(4):
            return (self.one(known), 'name')
        return ('0x2F', 'number')

    def message(self):
        name = self.new(self.sends)
        group = self.one(self.known(self.groups)) if self.version == 2 and self.known(self.groups) and self.may(2) else None
        self.numbers = None
        tokens = [('message', 'keyword'), (name, 'new')]
        for _ in range(self.chance.randrange(1, 3)):
            tokens += self.frame(group, True)
        used = group if (group, 'name') in tokens else None
        made = Message(name, self.groups[used] if used else None, self.numbers)
        for one in made.names:
            if one in self.sends:
                return None
        self.sends.update(made.names)
        if any(is_choice(token) for token in tokens):
            self.chosen |= {one for one in made.names if one != name}
        return tokens

    def frame(self, group, is_outer):
        if self.may(3):
            return [('read', 'keyword'), self.to(group), (self.one(['1', '2..4', '16']), 'number')] + self.refusal(group, is_outer)
        tokens = [('write', 'keyword'), self.to(group)] + self.refusal(group, is_outer)
        for _ in range(self.chance.randrange(4)):
            tokens += self.data(group) + self.refusal(group, is_outer)
        return tokens

    def refusal(self, group, is_outer):
        if not is_outer or not self.may(6):
            return []
        if self.may(2):
            return [('else', 'keyword'), ('stop', 'keyword')]
        return [('else', 'keyword'), ('(', 'sign')] + self.frame(group, False) + [(')', 'sign')]

    def data(self, group):
        kinds = ['number', 'any', 'times', 'named', 'range']
        if self.version == 2:
            kinds += ['made', 'made', 'header', 'span', 'but']
        kind = self.one(kinds)
        known = self.known(self.bytes)
        if kind == 'named' and known:
            return [(self.one(known), 'name')]
        if kind == 'times':
            return [('any', 'keyword'), ('*', 'sign'), ('2', 'number')]
        if kind == 'made':
            return [(self.one(['pec', 'sum']), 'keyword')]
        if kind == 'header':
            return [(self.one(['wr', 'rd']), 'keyword'), ('(', 'sign'), self.to(group), (')', 'sign')]
        if kind in ('range', 'span', 'but') and self.numbers is None:
            return self.choice(kind)
        return [('any', 'keyword')] if kind == 'any' else [('0x5A', 'number')]

    def choice(self, kind):
        low = self.chance.randrange(0, 4)
        high = low + self.chance.randrange(0, 3)
        if kind == 'range':
            self.numbers = range(low, max(high, 1) + 1)
            return [('any', 'keyword'), ('*', 'sign'), (f'{low}..{max(high, 1)}', 'number')]
        values = range(low, high + 1)
        span = ('0x%02X..0x%02X' % (low, high), 'number')
        if kind == 'span':
            self.numbers = range(1, blocks(values) + 1)
            return [span]
        if self.may(2):
            values, span = [low], self.one([('0x%02X' % low, 'number'), (f'0b{low:08b}', 'number')])
        self.numbers = range(1, blocks([value for value in range(256) if value not in values]) + 1)
        return [('any', 'keyword'), ('but', 'keyword'), span]

    # Names that stand for nothing that is listed already.
    def further(self, listed):
        names = []
        for _ in range(self.chance.randrange(4)):
            free = [name for name in self.known(self.sends) if not self.sends[name] & listed]
            if free:
                names.append(self.one(free))
                listed |= self.sends[names[-1]]
        return [(name, 'name') for name in names]

    def controller(self):
        taken = {*self.lists, *(side.replace('/', '_') for pair in self.nevers for side in pair)}
        name = self.new(taken)
        if len(self.lists) > 5 or name in taken:
            return None
        self.lists[name] = set()
        return [('controller', 'keyword'), (name, 'new')] + self.further(self.lists[name])

    def extend(self):
        known = [name for name in self.known(self.lists) if name not in self.kept]
        if self.version == 1 or not known:
            return None
        name = self.one(known)
        return [('extend', 'keyword'), (name, 'name')] + self.further(self.lists[name])

    def interrupt(self):
        name = self.new(self.interrupts)
        known = [one for one in self.known(self.devices) if not re.search('[xX]', self.devices[one][2:])]
        self.interrupts.append(name)
        to = (self.one(known), 'name') if known else ('0x0C', 'number')
        return [('interrupt', 'keyword'), (name, 'new'), to]

    # All words that a side of this controller may be.
    def sides_of(self, controller):
        labels = [f'{controller}/{name}' for name in self.sends if self.sends[name] & self.lists[controller]]
        return self.known([controller, *(label for label in labels if len(label) <= 32)])

    def never(self):
        if len(self.known(self.lists)) < 2:
            return None
        pair = [self.one(self.sides_of(one)) for one in self.chance.sample(self.known(self.lists), 2)]
        if set(pair) in [set(other) for other in self.nevers]:
            return None
        self.nevers.append(pair)
        self.kept |= {side.split('/')[0] for side in pair}
        return [('never', 'keyword')] + [(side, 'name') for side in pair]

    def made(self):
        names = ['devices.brief', 'bmc.brief', 'board.brief'][-self.chance.randrange(1, 4):]
        for name in names:
            self.version = 2 if name == 'board.brief' or self.may(2) else 1
            head = [('brief', 'number'), (str(self.version), 'number'), None]
            if name == 'board.brief':
                for other in names[:-1]:
                    head += [('with', 'keyword'), (f'"{other}"', 'string'), (';', 'sign'), None]
            self.files.append((name, self.version, head + self.items(12 // len(names))))
        return self


# Whether a token makes a message a family by a choice.
def is_choice(token):
    return token[0] == 'but' or re.fullmatch('0x..[.][.]0x..', token[0]) is not None


# The text of these tokens, and where each of them stands in it.
def spelled(tokens):
    text, places = '', []
    for token in tokens:
        if token is None:
            text = text[:-1] + '\n'
        else:
            places.append((len(text), *token))
            text += token[0] + ' '
    return text, places


def position(text, offset):
    line = text.count('\n', 0, offset)
    return {'line': line, 'character': offset - (text.rfind('\n', 0, offset) + 1)}


# ---- what the program says


def run(*arguments):
    done = subprocess.run([TWIRE, *arguments], capture_output=True, text=True, timeout=60)
    return done.returncode, done.stdout, done.stderr


# The place that is refused first in the files of this folder, as (file, offset). What is told after it may follow from it.
def refused(folder, texts):
    for name, text in texts.items():
        with open(os.path.join(folder, name), 'w') as file:
            file.write(text)
    _, _, errors = run('check', os.path.join(folder, 'board.brief'), '--format', 'gcc')
    first = re.match(r'(.*?):(\d+):(\d+): error:', errors)
    if first is None:
        return None
    name, line, column = os.path.basename(first[1]), int(first[2]), int(first[3])
    lines = texts[name].split('\n')
    return name, sum(len(one) + 1 for one in lines[:line - 1]) + column - 1


# The plan of a board, in which names of each kind are the numbers of their first places.
def plan(folder, texts):
    for name, text in texts.items():
        with open(os.path.join(folder, name), 'w') as file:
            file.write(text)
    status, out, errors = run('expand', os.path.join(folder, 'board.brief'))
    if status != 0:
        return errors
    numbers, lines = {}, []

    def number(kind, name):
        return str(numbers.setdefault((kind, name), len(numbers)))

    for line in out.split('\n'):
        words = line.split()
        if words[:1] in (['message'], ['interrupt']):
            words[1] = number(words[0], words[1])
        elif words[:1] == ['controller']:
            words[1:] = [number('controller', words[1])] + [number('message', name) for name in words[2:-1]] + [';']
        elif words[:1] == ['never']:
            words[1:3] = [number('controller', name) for name in words[1:3]]
        lines.append(' '.join(words))
    return lines


# ---- the editor


class Editor:
    def __init__(self, folder, texts):
        self.folder = folder
        self.server = Server(folder=folder).begin()
        self.texts = dict(texts)
        self.version = 1
        for name, text in texts.items():
            self.server.notify('textDocument/didOpen', {'textDocument': {
                'uri': self.uri(name), 'languageId': 'brief', 'version': 1, 'text': text}})

    def uri(self, name):
        return 'file://' + os.path.join(self.folder, name)

    def change(self, name, text):
        self.version += 1
        self.texts[name] = text
        self.server.notify('textDocument/didChange', {
            'textDocument': {'uri': self.uri(name), 'version': self.version}, 'contentChanges': [{'text': text}]})

    # The answer to a request, after what is told meanwhile.
    def ask(self, method, name, offset, **more):
        message = self.server.request(method, {'textDocument': {'uri': self.uri(name)},
                                               'position': position(self.texts[name], offset), **more})
        while message is not None and message.get('id') != self.server.ids:
            message = self.server.read()
        return message

    # What may be written after so many bytes.
    def completed(self, name, offset):
        answer = self.ask('textDocument/completion', name, offset)
        return answer.get('result', answer)

    def end(self):
        self.server.process.kill()
        self.server.process.wait()
        for stream in (self.server.process.stdin, self.server.process.stdout, self.server.process.stderr):
            stream.close()


# ---- what is tried


# What is completed at every other token of a text, before it and after it.
def completes(editor, board, name, text, places, chance):
    tried = []
    for place, (start, word, kind) in enumerate(places):
        if chance.randrange(2) == 0:
            continue
        before = places[place - 1] if place else None
        here = f'{name}:{position(text, start)["line"] + 1}: {word!r}'
        offered = editor.completed(name, start)
        labels = [one['label'] for one in offered]
        check(f'{here}: nothing is offered twice', sorted(set(labels)), sorted(labels))
        if kind == 'comment':
            check(f'{here}: nothing in a comment', [], editor.completed(name, start + len(word)))
            continue
        if kind == 'new':
            check(f'{here}: no name where one is given', [], labels)
        if kind == 'keyword':
            check(f'{here} is offered', True, word in labels)
        if kind in ('keyword', 'name'):
            whole = editor.completed(name, start + len(word))
            check(f'{here} is offered where it is written', True, word in [one['label'] for one in whole])
            check(f'{here}: the word is replaced', True, all(
                spot(one['textEdit']['range']) == [*position(text, start).values(), *position(text, start + len(word)).values()]
                and one['textEdit']['newText'] == one['label'] for one in whole))
            check(f'{here}: each has a meaning', True, all(one['detail'] for one in whole))
            offered = whole
        if before is not None and kind != 'string':
            tried += [(before[0] + len(before[1]), start, word, kind, one['label']) for one in offered]
    chance.shuffle(tried)
    return tried[:TRIED]


# A text with a word in the place of a token, or before a sign.
def with_word(text, start, word, kind, label):
    rest = text[start:] if kind in ('sign', 'comment') else text[start + len(word):]
    return text[:start] + label + ' ' + rest


def is_refused(folder, texts, name, text, before, start, label):
    found = refused(folder, {**texts, name: text})
    return found is not None and found[0] == name and before <= found[1] < start + len(label)


# All words that may stand somewhere in a board.
def words_of(board):
    labels = [f'{controller}/{name}' for controller in board.lists for name in board.sends]
    return [*KEYWORDS, *board.devices, *board.groups, *board.bytes, *board.sends, *board.sends, *board.lists, *labels]


# Words that the reader takes in the place of a token are offered there.
def takes(editor, board, folder, texts, name, text, places, chance):
    words = words_of(board)
    own = [place for place in range(1, len(places)) if places[place][2] in ('name', 'keyword', 'sign', 'number')]
    for _ in range(WORDS):
        place = chance.choice(own)
        start, word, kind = places[place]
        label = chance.choice(words)
        if label in board.groups and has_other_group(board, places, place, label):
            continue
        before = places[place - 1][0] + len(places[place - 1][1])
        changed = with_word(text, start, word, kind, label)
        is_taken = not is_refused(folder, texts, name, changed, before, start, label)
        editor.change(name, changed)
        offered = [one['label'] for one in editor.completed(name, start + len(label))]
        check(f'{name}: {label!r} in the place of {word!r}, after {text[:start][-60:]!r}', is_taken, label in offered)
    editor.change(name, text)


# Whether another group stands in the item of a token, before it: a message has one, which its `;` says.
def has_other_group(board, places, place, label):
    while place > 0 and places[place - 1][1] != ';':
        place -= 1
        if places[place][2] == 'name' and places[place][1] in board.groups and places[place][1] != label:
            return True
    return False


# A name with another one in its place gives the same plan but for names.
def renames(editor, folder, texts, name, places, chance):
    own = [place for place in places if place[2] in ('name', 'new')]
    if not own:
        return
    start, word, _ = chance.choice(own)
    answer = editor.ask('textDocument/rename', name, start + len(word) - 1, newName='other')
    if not answer.get('result'):
        want(f'another name for {word!r} of {name}, at {position(texts[name], start)}', 'edits', answer)
        return
    changed = dict(texts)
    for uri, edits in answer['result']['changes'].items():
        changed[os.path.basename(uri)] = edited(changed[os.path.basename(uri)], edits)
    check(f'{word!r} of {name} is renamed', True, changed != texts)
    check(f'the plan, where {word!r} of {name} is renamed', plan(folder, texts), plan(folder, changed))


def edited(text, edits):
    lines = text.split('\n')
    for edit in sorted(edits, key=lambda edit: spot(edit['range']), reverse=True):
        line, start, _, end = spot(edit['range'])
        lines[line] = lines[line][:start] + edit['newText'] + lines[line][end:]
    return '\n'.join(lines)


def tries(board, chance, folder):
    spellings = {name: spelled(tokens) for name, _, tokens in board.files}
    texts = {name: text for name, (text, _) in spellings.items()}
    if not isinstance(plan(folder, texts), list):
        return False
    editor = Editor(folder, texts)
    for name, (text, places) in spellings.items():
        for before, start, word, kind, label in completes(editor, board, name, text, places, chance):
            changed = with_word(text, start, word, kind, label)
            check(f'{name}: {label!r} is taken in the place of {word!r}, after {text[:start][-60:]!r}', False,
                  is_refused(folder, texts, name, changed, before, start, label))
        takes(editor, board, folder, texts, name, text, places, chance)
        for _ in range(3):
            renames(editor, folder, texts, name, places, chance)
    editor.end()
    return True


made = 0
for number in range(BOARDS * 20):
    if made == BOARDS:
        break
    dice = random.Random(SEED * 1000 + number)
    with tempfile.TemporaryDirectory(dir='.') as place:
        made += tries(Board(dice).made(), dice, os.path.abspath(place))
want('boards are made', BOARDS, made)
finish()
