# A server, `twire lsp`, as a client sees it, and cases that compare what comes back with what is wanted.
import json
import os
import select
import subprocess
import sys
import time

TWIRE = sys.argv[1]
SECONDS = 60
counts = {'passed': 0, 'failed': 0}


def want(name, wanted, found):
    if wanted == found:
        counts['passed'] += 1
        return
    counts['failed'] += 1
    print(f'FAILED: {name}: wanted\n{shown(wanted)}\nfound\n{shown(found)}')


def shown(value):
    return json.dumps(value, indent=1, default=str)


def frame(body):
    body = body if isinstance(body, bytes) else json.dumps(body).encode()
    return b'Content-Length: %d\r\n\r\n' % len(body) + body


class Server:
    def __init__(self, *arguments, folder=None):
        self.process = subprocess.Popen([TWIRE, 'lsp', *arguments], stdin=subprocess.PIPE, stdout=subprocess.PIPE,
                                        stderr=subprocess.PIPE, bufsize=0, cwd=folder)
        self.ids = 0
        self.rest = b''

    # ---- bytes

    def write(self, data):
        self.process.stdin.write(data)

    # One message of the server, or None where it has ended.
    def read(self):
        head = self.read_until(b'\r\n\r\n')
        if head is None:
            return None
        fields = dict(line.split(b': ', 1) for line in head.split(b'\r\n') if line)
        size = int(fields[b'Content-Length'])
        while len(self.rest) < size:
            if not self.more():
                return 'half a frame'
        body, self.rest = self.rest[:size], self.rest[size:]
        return json.loads(body)

    def read_until(self, mark):
        while mark not in self.rest:
            if not self.more():
                return None
        head, self.rest = self.rest.split(mark, 1)
        return head

    def more(self):
        ready, _, _ = select.select([self.process.stdout], [], [], SECONDS)
        data = os.read(self.process.stdout.fileno(), 65536) if ready else b''
        self.rest += data
        return bool(data)

    # Nothing more is written. The status, and what is left to be read.
    def end(self):
        self.process.stdin.close()
        rest = []
        while (message := self.read()) is not None:
            rest.append(message)
        status = self.process.wait(SECONDS)
        self.process.stdout.close()
        self.process.stderr.close()
        return [status, rest]

    # ---- messages

    def request(self, method, params=None):
        self.ids += 1
        message = {'jsonrpc': '2.0', 'id': self.ids, 'method': method}
        if params is not None:
            message['params'] = params
        self.write(frame(message))
        return self.read()

    def result(self, method, params=None):
        answer = self.request(method, params)
        return answer['result'] if isinstance(answer, dict) and 'result' in answer else answer

    def code(self, method, params=None):
        return self.request(method, params)['error']['code']

    def notify(self, method, params=None):
        self.write(frame({'jsonrpc': '2.0', 'method': method, 'params': params or {}}))

    def begin(self):
        self.request('initialize', {'processId': None, 'rootUri': None, 'capabilities': {}})
        self.notify('initialized')
        return self

    # What is told of the document after that.
    def open(self, uri, text):
        self.notify('textDocument/didOpen', {'textDocument': {'uri': uri, 'languageId': 'brief', 'version': 1, 'text': text}})
        return self.told(uri)

    def change(self, uri, text):
        self.notify('textDocument/didChange', {'textDocument': {'uri': uri, 'version': 2}, 'contentChanges': [{'text': text}]})
        return self.told(uri)

    def told(self, uri):
        message = self.read()
        if message and message.get('method') == 'textDocument/publishDiagnostics' and message['params']['uri'] == uri:
            return message['params']['diagnostics']
        return message

    def at(self, method, uri, line, character):
        return self.result(f'textDocument/{method}',
                           {'textDocument': {'uri': uri}, 'position': {'line': line, 'character': character}})

    def stop(self):
        self.request('shutdown')
        self.notify('exit')
        return self.end()


def places(told):
    return [[one['code'], one['severity'], *spot(one['range'])] for one in told]


def spot(range):
    start, end = range['start'], range['end']
    return [start['line'], start['character'], end['line'], end['character']]


def finish():
    print(f"{counts['passed']} passed, {counts['failed']} failed")
    sys.exit(1 if counts['failed'] else 0)
