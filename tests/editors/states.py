# Boards whose heads no editor has open, what stays while a text is refused, what can be done about what is wrong, and what is told
# where it is asked for: cases over a server, `twire lsp`.
#
#   states.py PROGRAM
import os
import subprocess

from protocol import Server, TWIRE, finish, places, spot, want

HERE = os.getcwd()


def file(path, text):
    path = os.path.join(HERE, path)
    os.makedirs(os.path.dirname(path), exist_ok=True)
    with open(path, 'w') as out:
        out.write(text)
    return 'file://' + path


def begun(capabilities=None, **more):
    server = Server()
    server.hello = server.result('initialize', {'processId': None, 'rootUri': None, 'capabilities': capabilities or {}, **more})
    server.notify('initialized')
    return server


# What is told after this of each document, by the end of its URI, until one more answer has come.
def told(server):
    server.ids += 1
    server.notify('nothing')
    found = {}
    answer = server.request('textDocument/hover', {'textDocument': {'uri': 'file:///none'}, 'position': {'line': 0, 'character': 0}})
    while 'method' in answer:
        params = answer['params']
        found[params['uri'].rsplit('/', 1)[1]] = params['diagnostics']
        answer = server.read()
    return found


def opened(server, uri, text):
    server.notify('textDocument/didOpen', {'textDocument': {'uri': uri, 'languageId': 'brief', 'version': 1, 'text': text}})
    return told(server)


def changed(server, uri, text):
    server.notify('textDocument/didChange', {'textDocument': {'uri': uri, 'version': 2}, 'contentChanges': [{'text': text}]})
    return told(server)


def codes(found):
    return {name: places(list) for name, list in sorted(found.items())}


# ---- boards whose heads are not open

BOARD = 'brief 2\nwith "parts/devices.brief" ;\nwith "parts/bmc.brief" ;\nwith "pch.brief" ;\n'
DEVICES = 'brief 2\ndevice sensor 0x48 ;\n'
BMC = 'brief 2\nmessage set write sensor 0x01 any ;\ncontroller bmc set ;\n'
PCH = 'brief 2\nmessage get write sensor 0x01 read sensor 1 ;\ncontroller pch get ;\n'
root = 'file://' + HERE + '/project'
board = file('project/board.brief', BOARD)
file('project/parts/devices.brief', DEVICES)
bmc = file('project/parts/bmc.brief', BMC)
pch = file('project/pch.brief', PCH)
SET = ['unsafe', 1, 1, 8, 1, 11]

server = begun(workspaceFolders=[{'uri': root, 'name': 'project'}])
want('a document is told of with the board above it', {'board.brief': [], 'devices.brief': [], 'bmc.brief': [SET], 'pch.brief': [SET]},
     codes(opened(server, bmc, BMC)))
safe = BMC.replace('0x01 any', '0x02 any')
want('what changes it is told of the board', {'board.brief': [], 'devices.brief': [], 'bmc.brief': [], 'pch.brief': []},
     codes(changed(server, bmc, safe)))
want('a slip in it is told there', {'board.brief': [], 'devices.brief': [], 'bmc.brief': [['P8', 1, 1, 18, 1, 24]], 'pch.brief': []},
     codes(changed(server, bmc, safe.replace('sensor', 'senser'))))
changed(server, bmc, BMC)
want('the device of another file', ['devices.brief', [1, 7, 1, 13]],
     [(found := server.at('definition', bmc, 1, 20))['uri'].rsplit('/', 1)[1], spot(found['range'])])
want('another document of it', {'board.brief': [], 'devices.brief': [], 'bmc.brief': [SET], 'pch.brief': [SET]},
     codes(opened(server, pch, PCH)))
server.notify('textDocument/didClose', {'textDocument': {'uri': pch}})
told(server)
file('project/pch.brief', PCH.replace('0x01 read', '0x03 read'))
server.notify('workspace/didChangeWatchedFiles', {'changes': [{'uri': pch, 'type': 2}]})
want('a file that has changed', {'board.brief': [], 'devices.brief': [], 'bmc.brief': [], 'pch.brief': []}, codes(told(server)))
file('project/board.brief', BOARD.replace('with "pch.brief" ;\n', ''))
server.notify('workspace/didChangeWatchedFiles', {'changes': [{'uri': board, 'type': 2}]})
want('the board without a file', {'board.brief': [], 'devices.brief': [], 'bmc.brief': [], 'pch.brief': []}, codes(told(server)))
file('project/board.brief', BOARD)
file('project/pch.brief', PCH)
want('the head is opened', {'board.brief': [], 'devices.brief': [], 'bmc.brief': [SET], 'pch.brief': [SET]}, codes(opened(server, board, BOARD)))
found = codes(changed(server, board, BOARD.replace('"parts/bmc', 'parts/bmc')))
want('a slip in the head: what it named stays with it', [['P3', 1, 2, 5, 2, 20], []], [found['board.brief'][0], found['bmc.brief']])
want('and is no board of its own', {'bmc.brief': []},
     {name: list for name, list in codes(changed(server, bmc, BMC + '# more\n')).items() if name == 'bmc.brief'})
want('the head once more', {'board.brief': [], 'devices.brief': [], 'bmc.brief': [SET], 'pch.brief': [SET]}, codes(changed(server, board, BOARD)))
want('the end of a board', [0, []], server.stop())

server = begun(rootUri=root)
want('the root of a client without folders', ['bmc.brief', 'board.brief', 'devices.brief', 'pch.brief'], sorted(opened(server, bmc, BMC)))
server.stop()
server = begun()
want('without a root boards above the folder are not looked for', {'bmc.brief': [['P8', 1, 1, 18, 1, 24]]}, codes(opened(server, bmc, BMC)))
want('but in the folder they are', ['bmc.brief', 'board.brief', 'devices.brief', 'pch.brief'], sorted(opened(server, pch, PCH)))
server.stop()
server = begun(workspaceFolders=[{'uri': root + '/parts', 'name': 'parts'}])
want('nor above the root', {'bmc.brief': [['P8', 1, 1, 18, 1, 24]]}, codes(opened(server, bmc, BMC)))
server.stop()
lone = file('project/parts/lone.brief', 'brief 2\ndevice other 0x20 ;\ncontroller c ;\n')
server = begun(workspaceFolders=[{'uri': root, 'name': 'project'}])
want('a document that the board does not name', ['lone.brief'], sorted(opened(server, lone, 'brief 2\n')))
server.stop()
file('project/parts/bmc.brief', BMC)
os.rename(os.path.join(HERE, 'project/pch.brief'), os.path.join(HERE, 'project/away.brief'))
server = begun(workspaceFolders=[{'uri': root, 'name': 'project'}])
want('a file of the board that is missing', [['read', 1, 3, 0, 3, 18]], codes(opened(server, bmc, BMC))['board.brief'])
os.rename(os.path.join(HERE, 'project/away.brief'), os.path.join(HERE, 'project/pch.brief'))
server.notify('textDocument/didSave', {'textDocument': {'uri': bmc}})
want('and is there again', {'board.brief': [], 'devices.brief': [], 'bmc.brief': [SET], 'pch.brief': [SET]}, codes(told(server)))
server.stop()

# ---- what the client is asked for

watches = {'workspace': {'didChangeWatchedFiles': {'dynamicRegistration': True}}}
server = begun(watches)
asked = server.read()
want('a client that can watch files is asked to', ['client/registerCapability', 'workspace/didChangeWatchedFiles', ['**/*.brief', '**/*.plan']],
     [asked['method'], (one := asked['params']['registrations'][0])['method'], [watcher['globPattern'] for watcher in one['registerOptions']['watchers']]])
server.write(b'')
server.stop()

# ---- what was unsafe stays, until the text can be read again

PLAN = 'brief 1\ndevice sensor 0x48 ;\nmessage set write sensor 0x01 any ;\nmessage get write sensor 0x01 read sensor 1 ;\ncontroller bmc set ;\ncontroller pch get ;\n'
plan = 'file://' + HERE + '/one.brief'
server = begun()
want('an unsafe brief', [['unsafe', 1, 2, 8, 2, 11], ['unsafe', 1, 3, 8, 3, 11]], sorted(places(opened(server, plan, PLAN)['one.brief'])))
slip = PLAN.replace('controller pch get ;', 'controller pch gat ;')
found = changed(server, plan, '\n' + slip)['one.brief']
want('a slip: what was unsafe stays, as information', [['P8', 1, 6, 15, 6, 18], ['unsafe', 3, 3, 8, 3, 11], ['unsafe', 3, 4, 8, 4, 11]], sorted(places(found)))
want('in the words of before', True, all(one['message'].startswith('before a text was refused: bmc/set sends a data bit where pch/get')
                                         for one in found if one['severity'] == 3))
want('it stays while the slip does', 3, len(changed(server, plan, '\n\n' + slip)['one.brief']))
want('a message that is gone has no mark', [['P8', 1, 4, 15, 4, 18], ['unsafe', 3, 2, 8, 2, 11]],
     sorted(places(changed(server, plan, slip.replace('message get write sensor 0x01 read sensor 1 ;\n', ''))['one.brief'])))
want('a safe text ends that', [], changed(server, plan, PLAN.replace('0x01 any', '0x02 any'))['one.brief'])
want('and a slip after it has none', [['P8', 1, 5, 15, 5, 18]], places(changed(server, plan, slip.replace('0x01 any', '0x02 any'))['one.brief']))
server.stop()

# ---- what is told where it is asked for

server = begun({'textDocument': {'diagnostic': {}}})
want('a client that cannot be told may ask', {'interFileDependencies': True, 'workspaceDiagnostics': False}, server.hello['capabilities'].get('diagnosticProvider'))
list = opened(server, plan, PLAN)['one.brief']
want('and gets what is told', {'kind': 'full', 'items': list}, server.result('textDocument/diagnostic', {'textDocument': {'uri': plan}}))
want('of nothing that is open', None, server.result('textDocument/diagnostic', {'textDocument': {'uri': plan + 'x'}}))
server.stop()
for capabilities in ({}, {'textDocument': {}}, {'textDocument': {'publishDiagnostics': {}}}, {'textDocument': {'publishDiagnostics': {}, 'diagnostic': {}}}):
    server = begun(capabilities)
    want(f'others are told: {capabilities}', None, server.hello['capabilities'].get('diagnosticProvider'))
    server.stop()

# ---- what can be done about what is wrong

def actions(server, uri, line, character, to=None):
    start = {'line': line, 'character': character}
    end = {'line': to[0], 'character': to[1]} if to else start
    return server.result('textDocument/codeAction', {'textDocument': {'uri': uri}, 'range': {'start': start, 'end': end}, 'context': {'diagnostics': []}})


# A text after the edits of an action in the document with this URI. (Positions count ASCII characters here.)
def edited(text, action, uri):
    lines = text.split('\n')
    starts = [sum(len(line) + 1 for line in lines[:k]) for k in range(len(lines))]
    edits = action['edit']['changes'].get(uri, [])
    places = [(starts[e['range']['start']['line']] + e['range']['start']['character'],
               starts[e['range']['end']['line']] + e['range']['end']['character'], e['newText']) for e in edits]
    for start, end, new in sorted(places, reverse=True):
        text = text[:start] + new + text[end:]
    return text


server = begun()
opened(server, plan, PLAN)
text = PLAN.replace('0x01 any ;', '0x01 any')
changed(server, plan, text)
found = actions(server, plan, 2, 33)
want('a missing ;', [["put ';' here", 'quickfix', True]], [[one['title'], one['kind'], one['isPreferred']] for one in found])
want('is put where it is missing', text.replace('0x01 any\n', '0x01 any;\n'), edited(text, found[0], plan))
want('with what it mends', ['P3'], [one['code'] for one in found[0]['diagnostics']])
want('nothing is offered elsewhere', [], actions(server, plan, 1, 3))
text = PLAN.replace('controller pch get', 'controller pch gett')
changed(server, plan, text)
found = actions(server, plan, 5, 16)
want('a name that is near', ["write 'get' here"], [one['title'] for one in found][:1])
want('is the right one then', PLAN, edited(text, found[0], plan))
# A name that another file has: the head of a `brief 2` may name that.
lone = 'brief 1\ndevice sensor 0x48 ;\nmessage page write sensor any*1..3 ;\n'
below = file('with/parts/lone.brief', lone)
above = file('above.brief', lone.replace('sensor', 'timer'))
text = '# the host\nbrief 2\n# reads\nmessage get read sensor 1 ;\ncontroller pch get page_2 ;\n'
host = file('with/host.brief', text)
opened(server, below, lone)
opened(server, above, lone.replace('sensor', 'timer'))
opened(server, host, text)
found = actions(server, host, 3, 20)
want('a name that another file has', ['with "parts/lone.brief" ; has \'sensor\''], [one['title'] for one in found])
new = edited(text, found[0], host)
want('its head names that file', text.replace('message get', 'with "parts/lone.brief" ;\nmessage get'), new)
want('and nothing is wrong then', [], codes(changed(server, host, new)).get('host.brief'))
changed(server, host, text.replace('sensor', '0x48'))
want('a message of a family that another file has', ['with "parts/lone.brief" ; has \'page_2\''],
     [one['title'] for one in actions(server, host, 4, 22)])
changed(server, host, text.replace('sensor', 'timer').replace('page_2', ''))
want('no file that stands above', [], actions(server, host, 3, 20))
changed(server, host, text.replace('brief 2', 'brief 1'))
want('a `brief 1` names no file', [], actions(server, host, 3, 20))
boards = begun(workspaceFolders=[{'uri': root, 'name': 'project'}])
opened(boards, pch, PCH)
text = 'brief 2\nmessage probe write sensor any ;\ncontroller host probe ;\n'
extra = file('project/extra.brief', text)
opened(boards, extra, text)
want('or a file of a board, which nobody has open', ['with "parts/devices.brief" ; has \'sensor\''],
     [one['title'] for one in actions(boards, extra, 1, 22)])
boards.stop()
os.remove(os.path.join(HERE, 'project/extra.brief'))
text = PLAN + 'device spare 0x20 ;\nbyte none 0x01 ;\n'
changed(server, plan, text)
found = actions(server, plan, 6, 8)
want('what nobody uses can go', ["remove device 'spare'"], [one['title'] for one in found])
want('with its line', PLAN + 'byte none 0x01 ;\n', edited(text, found[0], plan))
want('and is shown so', [[1], [1]], [one['tags'] for one in changed(server, plan, text)['one.brief'] if 'tags' in one])
want('all of a range', ["remove device 'spare'", "remove byte 'none'"], [one['title'] for one in actions(server, plan, 6, 0, (8, 0))])
changed(server, plan, PLAN)
for line in (2, 3):
    found = actions(server, plan, line, 9)
    want(f'offers at line {line}: each mends the pair', True, bool(found) and all(not changed(server, plan, edited(PLAN, one, plan))['one.brief'] for one in found))
    changed(server, plan, PLAN)
explained = subprocess.run([TWIRE, 'check', '--explain', '-'], input=PLAN.encode(), capture_output=True).stdout.decode()
shown = [line.split()[0] for line in explained.split('\n') if line.startswith('    0.')]
want('the offers of check --explain', shown, [one['title'].split()[0] for one in actions(server, plan, 2, 9)])
server.stop()

# ---- files that a head may name

def completed(server, uri, line, character):
    found = server.result('textDocument/completion', {'textDocument': {'uri': uri}, 'position': {'line': line, 'character': character}})
    return sorted([one['label'], one['detail'], spot(one['textEdit']['range'])] for one in found)


file('project/notes.txt', 'none\n')
file('project/.hidden.brief', 'brief 2\n')
server = begun()
opened(server, board, 'brief 2\nwith "')
want('the files and the folders beside it', [['parts/', 'a folder', [1, 6, 1, 6]], ['pch.brief', 'a file', [1, 6, 1, 6]]],
     completed(server, board, 1, 6))
changed(server, board, 'brief 2\nwith "parts/d')
want('those in a folder', [[f'parts/{name}.brief', 'a file', [1, 6, 1, 13]] for name in ('bmc', 'devices', 'lone')],
     completed(server, board, 1, 13))
changed(server, board, 'brief 2\nwith "none/')
want('in a folder that is not there', [], completed(server, board, 1, 11))
opened(server, bmc, 'brief 2\nwith "../')
want('above it', [['../board.brief', 'a file', [1, 6, 1, 9]], ['../parts/', 'a folder', [1, 6, 1, 9]], ['../pch.brief', 'a file', [1, 6, 1, 9]]],
     completed(server, bmc, 1, 9))
server.stop()

# over all files of a board
server = begun(workspaceFolders=[{'uri': root, 'name': 'project'}])
opened(server, bmc, BMC)
found = actions(server, bmc, 1, 9)
files = sorted({uri.rsplit('/', 1)[1] for one in found for uri in one['edit']['changes']})
want('edits of files that are not open', True, 'pch.brief' in files)
server.stop()

finish()
