#!/usr/bin/env node
// A server for the tests of the extension for VS Code. The argument after `lsp` says what it is like:
//     few     it offers hover alone, and takes whole texts
//     deaf    it answers nothing after `initialize`, and does not end when it is asked to
//     dying   it ends with status 3 when a document is opened
//     noisy   it writes no frames
// What it is told of it tells back: as a diagnostic of file:///told, the method and the parameters as JSON.
'use strict';

const fs = require('fs');

const kind = process.argv[3];

function write(message) {
    const body = Buffer.from(JSON.stringify({ jsonrpc: '2.0', ...message }));
    const all = Buffer.concat([Buffer.from(`Content-Length: ${body.length}\r\n\r\n`), body]);
    for (let start = 0; start < all.length; start += 50) {
        fs.writeSync(1, all.slice(start, start + 50));
    }
}

function tellBack(method, params) {
    const range = { start: { line: 0, character: 0 }, end: { line: 0, character: 1 } };
    const diagnostics = [{ range, severity: 3, message: `${method} ${JSON.stringify(params)}` }];
    write({ method: 'textDocument/publishDiagnostics', params: { uri: 'file:///told', diagnostics } });
}

function answer(id, method) {
    if (method === 'initialize') {
        const textDocumentSync = { openClose: true, change: kind === 'few' ? 1 : 2 };
        write({ id, result: { capabilities: { textDocumentSync, hoverProvider: true } } });
    } else if (kind !== 'deaf') {
        write(method === 'shutdown' ? { id, result: null } : { id, error: { code: -32603, message: 'no, \u{1f321}' } });
    }
}

function take({ id, method, params }) {
    if (id !== undefined) {
        answer(id, method);
    } else if (method === 'exit' && kind !== 'deaf') {
        process.exit(0);
    } else if (method === 'textDocument/didOpen' && kind === 'dying') {
        process.exit(3);
    } else {
        tellBack(method, params);
    }
}

let rest = Buffer.alloc(0);
process.stdin.on('data', bytes => {
    rest = Buffer.concat([rest, bytes]);
    for (;;) {
        const end = rest.indexOf('\r\n\r\n');
        const length = Number(rest.toString('latin1', 16, Math.max(end, 16)));
        if (end < 0 || rest.length < end + 4 + length) {
            return;
        }
        const body = rest.toString('utf8', end + 4, end + 4 + length);
        rest = rest.slice(end + 4 + length);
        take(JSON.parse(body));
    }
});
if (kind === 'deaf') {
    setInterval(() => {}, 1000);
}
if (kind === 'noisy') {
    fs.writeSync(1, 'hello\r\n\r\n');
}
