// The extension of tools/editors/vscode, by a stub of VS Code's API, over `twire lsp` and over the servers of vscode_server.js:
//
//     node vscode.js REPOSITORY PROGRAM
//
// in an empty folder. The last line is 'N passed, M failed'.
'use strict';

const childProcess = require('child_process');
const fs = require('fs');
const Module = require('module');
const path = require('path');
const { PassThrough } = require('stream');
const { isDeepStrictEqual } = require('util');
const stub = require('./vscode_stub');

const [, , TOP, PROGRAM] = process.argv;
const EXTENSION = path.join(TOP, 'tools/editors/vscode');
const FAKE = path.join(__dirname, 'vscode_server.js');
const MILLISECONDS = 60000;

// What a server may take to its end: on a loaded machine that is more than two seconds.
let patience = MILLISECONDS;
const { setTimeout: later } = global;
global.setTimeout = (run, milliseconds, ...more) => later(run, milliseconds === 2000 ? patience : milliseconds, ...more);

const load = Module._load;
Module._load = (name, ...more) => (name === 'vscode' ? stub.api : load(name, ...more));

// The servers that were started, in their order, and the folders in which they were.
const children = [];
const folders = [];
const { spawn } = childProcess;
childProcess.spawn = (program, words, options) => {
    const child = spawn(program, words, options);
    children.push(child);
    folders.push(options.cwd);
    return child;
};

const { Connection } = require(path.join(EXTENSION, 'connection'));
const extension = require(path.join(EXTENSION, 'extension'));
const manifest = JSON.parse(fs.readFileSync(path.join(EXTENSION, 'package.json'), 'utf8'));

// ---- cases

const counts = { passed: 0, failed: 0 };

function want(name, wanted, found) {
    if (isDeepStrictEqual(wanted, found)) {
        counts.passed += 1;
        return;
    }
    counts.failed += 1;
    console.log(`FAILED: ${name}: wanted\n${JSON.stringify(wanted)}\nfound\n${JSON.stringify(found)}`);
}

function pause(milliseconds) {
    return new Promise(resolve => later(resolve, milliseconds));
}

// Waits until this is true, or for long enough.
async function until(isSo) {
    for (const end = Date.now() + MILLISECONDS; !isSo() && Date.now() < end;) {
        await pause(5);
    }
}

// Wants what is found to become this.
async function becomes(name, wanted, find) {
    await until(() => isDeepStrictEqual(wanted, find()));
    want(name, wanted, find());
}

async function thrown(promise) {
    try {
        return { answered: await promise };
    } catch (error) {
        return error.message;
    }
}

// ---- what is asked of the extension

const context = { subscriptions: [] };
const token = new stub.CancellationTokenSource().token;

function provider(name) {
    const [found] = stub.state.providers[name] || [];
    return found ? found.provider : {};
}

// What a provider answers, or undefined where there is none.
async function ask(name, method, ...call) {
    const one = provider(name);
    return one[method] ? one[method](...call, token) : undefined;
}

function at(line, character) {
    return new stub.api.Position(line, character);
}

function spot({ start, end }) {
    return [start.line, start.character, end.line, end.character];
}

function place({ uri, range }) {
    return [path.basename(uri.fsPath), ...spot(range)];
}

function shown(document) {
    return stub.diagnostics(document).map(({ code, severity, range }) => [code, severity, ...spot(range)]);
}

function replaced(document, old, text) {
    const start = document.text.indexOf(old);
    const before = document.text.slice(0, start).split('\n');
    const line = before.length - 1;
    const character = before[line].length;
    const range = new stub.api.Range(line, character, line, character + old.length);
    stub.edit(document, [stub.api.TextEdit.replace(range, text)]);
}

function write(name, text) {
    fs.writeFileSync(name, text);
    return stub.api.Uri.file(path.resolve(name));
}

// The message of the only diagnostic that a server of vscode_server.js has told.
function toldBack() {
    const [one] = stub.diagnostics({ uri: stub.api.Uri.parse('file:///told') });
    return one && one.message;
}

function status(child) {
    return child.signalCode || child.exitCode;
}

// ---- frames

function connected() {
    const [input, output] = [new PassThrough(), new PassThrough()];
    const heard = { notes: [], broken: [], said: '' };
    output.on('data', bytes => {
        heard.said += bytes;
    });
    const connection = new Connection(input, output, {
        noted: (method, params) => heard.notes.push([method, params]),
        broken: error => {
            heard.broken.push(error.message);
            connection.close('broken');
        },
    });
    return { input, connection, heard };
}

function frame(message) {
    const body = Buffer.from(JSON.stringify(message));
    return Buffer.concat([Buffer.from(`Content-Length: ${body.length}\r\n\r\n`), body]);
}

async function frames() {
    const { input, connection, heard } = connected();
    const note = { jsonrpc: '2.0', method: 'note', params: 'é\u{1f321}' };
    const all = Buffer.concat([frame(note), frame({ jsonrpc: '2.0', method: 'again' }), frame({ id: 1, result: 'à' })]);
    const first = connection.request('first', { text: 'é' });
    all.forEach((byte, place) => input.write(all.slice(place, place + 1)));
    want('an answer that comes byte by byte', 'à', await first);
    want('and what is told', [['note', 'é\u{1f321}'], ['again', undefined]], heard.notes);
    want('what is said, in bytes', frame({ jsonrpc: '2.0', id: 1, method: 'first', params: { text: 'é' } }).toString(),
        heard.said);

    const [second, third] = [connection.request('second'), connection.request('third')];
    const long = 'x'.repeat(3000000);
    input.write(Buffer.concat([frame({ id: 3, result: long }), frame({ id: 2, error: { code: 1, message: 'no' } })]));
    want('answers in another order, in one piece', [long.length, 'no'], [(await third).length, await thrown(second)]);

    heard.said = '';
    input.write(frame({ jsonrpc: '2.0', id: 'a', method: 'client/what' }));
    await until(() => heard.said.includes('-32601'));
    want('a request of the server', true, heard.said.includes('"id":"a"'));

    heard.said = '';
    const source = new stub.CancellationTokenSource();
    const cancelled = connection.request('long', {}, source.token);
    source.cancel();
    want('a request that is cancelled', null, await cancelled);
    await until(() => heard.said.includes('$/cancelRequest'));
    want('the server is told so', true, heard.said.includes('{"jsonrpc":"2.0","method":"$/cancelRequest","params":{"id":4}}'));
    input.write(frame({ id: 4, result: 1 }));

    const last = connection.request('last');
    connection.close('gone');
    want('what waits when it is closed, and what is asked then', ['gone', 'gone'],
        [await thrown(last), await thrown(connection.request('late'))]);

    const words = 'it does not speak the Language Server Protocol';
    for (const noise of ['hello\r\n\r\n', 'x'.repeat(5000), 'Content-Length: -1\r\n\r\n{}']) {
        const other = connected();
        other.input.write(noise);
        await until(() => other.heard.broken.length > 0);
        want(`no frame: ${noise.slice(0, 20)}`, [words], other.heard.broken);
    }
    const other = connected();
    other.input.write('Content-Length: 1\r\n\r\n{Content-Length: 1\r\n\r\n{');
    await until(() => other.heard.broken.length > 0);
    want('a body that is no JSON ends it once', 1, other.heard.broken.length);
}

// ---- one brief

const UNSAFE = `brief 2 # é\u{1f321}
device sensor 0x48 ;
message write_limit write sensor 0x01 any ;
message read_limit
    write sensor 0x01 read sensor 1 ;
controller main write_limit ;
controller guard read_limit ;
`;

async function oneBrief() {
    const document = stub.open(write('a b.brief', UNSAFE), 'twire-brief', UNSAFE);
    await becomes('an unsafe pair, at both messages', [['unsafe', 0, 2, 8, 2, 19], ['unsafe', 0, 3, 8, 3, 18]],
        () => shown(document));
    const [first] = stub.diagnostics(document);
    want('the other message', [['a b.brief', 3, 8, 3, 18]], first.relatedInformation.map(one => place(one.location)));
    want('what says so', 'twire', first.source);

    const hover = await ask('Hover', 'provideHover', document, at(3, 10));
    want('what a message is', true, hover.contents.value.includes('S 48 Wr A 01 A Sr 48 Rd A (1 read) NA P'));
    want('of nothing nothing is said', null, await ask('Hover', 'provideHover', document, at(0, 9)));
    want('where a message is given', ['a b.brief', 3, 8, 3, 18],
        place(await ask('Definition', 'provideDefinition', document, at(6, 20))));
    want('where nothing is', null, await ask('Definition', 'provideDefinition', document, at(0, 9)));
    await lists(document);

    const offers = await fixes(document, 3, 10);
    want('what mends an unsafe message', true, offers.length > 0 && offers.every(({ title }) => /^0\.\d /.test(title)));
    want('nothing mends what is well', [], await fixes(document, 1, 8));

    replaced(document, 'read_limit ;', 'read_limt ;');
    await becomes('a change after a character of two units', ['P8', 0, 6, 17, 6, 26], () => shown(document)[0]);
    const [fix] = await fixes(document, 6, 20);
    want('a name that is near', ["write 'read_limit' here", [['a b.brief', [[6, 17, 6, 26, 'read_limit']]]], ['P8']],
        [fix.title, fix.edits, fix.codes]);
    replaced(document, 'controller guard read_limt ;', 'controller guard    read_limit ;\nnever main   guard;');
    await becomes('a change that mends', [], () => shown(document));
    const options = { tabSize: 4, insertSpaces: true };
    const layout = () => ask('DocumentFormattingEdit', 'provideDocumentFormattingEdits', document, options);
    stub.edit(document, await layout());
    const laidOut = childProcess.execFileSync(PROGRAM, ['format', '-'], { input: document.text }).toString();
    want('a brief that is laid out', [true, laidOut], [document.text.includes('never main guard ;'), document.text]);
    want('and once more', [], await layout());
    replaced(document, 'never main guard ;\n', '');
    await becomes('a change after that', 2, () => shown(document).length);
    stub.close(document);
    await becomes('a document that is closed', [], () => shown(document));
}

// What can be done about what is wrong there: its words, its edits by document, and what it mends.
async function fixes(document, line, character) {
    const range = new stub.api.Range(line, character, line, character);
    return (await ask('CodeActions', 'provideCodeActions', document, range, { diagnostics: [] }) || [])
        .map(({ title, edit, diagnostics }) => ({
            title,
            edits: edit.texts.map(([uri, edits]) => [path.basename(uri.fsPath), edits.map(one => [...spot(one.range), one.newText])]),
            codes: diagnostics.map(({ code }) => code),
        }));
}

// What is answered by lists.
async function lists(document) {
    const references = includeDeclaration => ask('Reference', 'provideReferences', document, at(6, 20), { includeDeclaration });
    const [given, used] = [['a b.brief', 3, 8, 3, 18], ['a b.brief', 6, 17, 6, 27]];
    want('where a name stands', [given, used], (await references(true) || []).map(place).sort());
    want('without its item', [used], (await references(false) || []).map(place));
    want('highlights', [[1, 6, 17, 6, 27], [2, 3, 8, 3, 18]],
        (await ask('DocumentHighlight', 'provideDocumentHighlights', document, at(3, 10)) || [])
            .map(({ range, kind }) => [kind, ...spot(range)]).sort());
    // (kinds of VS Code: Object, Function, Module)
    want('its items', [['sensor', 'device', 18], ['write_limit', 'message', 11], ['read_limit', 'message', 11],
        ['main', 'controller', 1], ['guard', 'controller', 1]],
    (await ask('DocumentSymbol', 'provideDocumentSymbols', document) || [])
        .map(({ name, detail, kind }) => [name, detail, kind]));
    want('what may be folded', [[3, 4, 3]], (await ask('FoldingRange', 'provideFoldingRanges', document, {}) || [])
        .map(({ start, end, kind }) => [start, end, kind]));
    want('what may be written', [['write_limit', 'write_limit', 2, 6, 17, 6, 20], ['read_limit', 'read_limit', 2, 6, 17, 6, 20]],
        (await ask('CompletionItem', 'provideCompletionItems', document, at(6, 20)) || [])
            .map(({ label, insertText, kind, range }) => [label, insertText, kind, ...spot(range)]));
    want('how many pairs are unsafe', [2, 3, 5, 6].map(line => [line, '1 of 1 pair unsafe']),
        (await ask('CodeLens', 'provideCodeLenses', document) || [])
            .map(({ range, command }) => [range.start.line, command.title]));
    want('addresses', [[2, 32, '0x48', true], [4, 16, '0x48', true], [4, 33, '0x48', true]],
        (await ask('InlayHints', 'provideInlayHints', document, new stub.api.Range(0, 0, 5, 0)) || [])
            .map(({ position, label, paddingLeft }) => [position.line, position.character, label, paddingLeft]));
}

// ---- a board of two files

const DEVICES = 'brief 2\ndevice eeprom 0x50 ;\n';
const BOARD = `brief 2
with "devices.brief" ;
message set write eeprom any ;
message get read eeprom 2 ;
controller bmc set ;
controller pch get ;
`;

async function board() {
    const devices = { uri: write('devices.brief', DEVICES) };
    const document = stub.open(write('board.brief', BOARD), 'twire-brief', BOARD);
    let changes = 0;
    const { onDidChangeCodeLenses: listen } = provider('CodeLens');
    const listening = listen && listen(() => { changes += 1; });
    write('devices.brief', DEVICES.replace('eeprom', 'fan'));
    stub.events.changed.fire(devices.uri);
    await becomes('a file that changes on disk', ['P8', 'P8'], () => shown(document).map(([code]) => code));
    want('counts are asked for anew', true, changes > 0);
    if (listening) {
        listening.dispose();
    }
    write('devices.brief', `${DEVICES}device fan 0x2F ;\n`);
    stub.events.changed.fire(devices.uri);
    await becomes('a file that is not open', [['unused device', 1, 2, 7, 2, 10]], () => shown(devices));
    await becomes('with which the other is mended', [], () => shown(document));

    want('the place that another name would take', [2, 18, 2, 24],
        spot(await ask('Rename', 'prepareRename', document, at(2, 20)) || new stub.api.Range(0, 0, 0, 0)));
    want('where no name stands', 'no name stands here', await thrown(ask('Rename', 'prepareRename', document, at(0, 7))));
    const rename = name => ask('Rename', 'provideRenameEdits', document, at(2, 20), name);
    const { texts } = await rename('rom') || { texts: [] };
    want('another name, in both files', [['board.brief', [[2, 18, 2, 24], [3, 17, 3, 23]]], ['devices.brief', [[1, 7, 1, 13]]]],
        texts.map(([uri, edits]) => [path.basename(uri.fsPath), edits.map(one => spot(one.range)).sort()]).sort());
    want('which it is', ['rom', 'rom', 'rom'], texts.flatMap(([, edits]) => edits.map(one => one.newText)));
    want('a name that another one has', true, /fan/.test(await thrown(rename('fan'))));

    fs.unlinkSync('devices.brief');
    stub.events.deleted.fire(devices.uri);
    await becomes('a file that is gone', ['read'], () => shown(document).map(([code]) => code).slice(0, 1));
    write('devices.brief', DEVICES);
    stub.events.created.fire(devices.uri);
    await becomes('a file that is there again', [], () => shown(document));
    return document;
}

// ---- the end of a server, and the next one

async function restarts(document) {
    const started = children.length;
    want('one server, in the folder of the project', [process.cwd()], folders);
    const [before] = children;
    const again = stub.state.commands['twire.restart']();
    await pause(0);
    want('it is asked no more', [0], [...new Set(Object.values(stub.state.providers).map(one => one.length))]);
    replaced(document, 'set ;', 'sat ;');
    await again;
    want('the server that is restarted ends well', 0, status(before));
    await becomes('the next one knows the documents', [['P8', 0, 4, 15, 4, 18]], () => shown(document));
    children[started].kill('SIGKILL');
    await until(() => children.length === started + 2);
    await becomes('after a crash there is another one', [2, 1], () => [children.length - started, shown(document).length]);
    want('and it is told of', true, stub.state.output.includes('SIGKILL'));
    replaced(document, 'sat ;', 'set ;');
    await becomes('it hears what is typed', [], () => shown(document));
    want('each feature is there once', [1], [...new Set(Object.values(stub.state.providers).map(one => one.length))]);
    want('nothing is shown for that', [], stub.state.errors);
}

async function otherServers(document) {
    stub.state.settings['twire.arguments'] = ['few'];
    stub.set('twire.path', FAKE);
    await until(() => toldBack() && toldBack().startsWith('textDocument/didOpen'));
    want('what is not offered is not registered', ['Hover'],
        Object.keys(stub.state.providers).filter(name => stub.state.providers[name].length > 0));
    replaced(document, 'bmc', 'b\u{1f321}');
    const changes = JSON.stringify([{ text: document.text }]);
    await until(() => toldBack() && toldBack().includes('"version":'));
    await becomes('a server that wants whole texts', true, () => toldBack().includes(`"contentChanges":${changes}`));
    replaced(document, 'b\u{1f321}', 'bmc');
    want('an error answers nothing', null, await ask('Hover', 'provideHover', document, at(0, 0)));
    want('and goes to the output', true, stub.state.output.includes('textDocument/hover: no, \u{1f321}'));
    const other = stub.open(stub.api.Uri.parse('untitled:Untitled-1'), 'twire-plan', 'plan 1\n');
    await becomes('a document without a file', true,
        () => toldBack().includes('"uri":"untitled:Untitled-1","languageId":"twire-plan"'));
    const before = toldBack();
    stub.close(stub.open(stub.api.Uri.parse('git:/x.brief'), 'twire-brief', ''));
    stub.close(stub.open(stub.api.Uri.parse('file:///x.txt'), 'plaintext', ''));
    stub.events.save.fire(other);
    stub.events.change.fire({ document: other, contentChanges: [] });
    await ask('Hover', 'provideHover', document, at(0, 0));
    want('other documents, saves that nobody wants, changes of nothing', before, toldBack());
    stub.close(other);
    await becomes('a document that is closed', 'textDocument/didClose {"textDocument":{"uri":"untitled:Untitled-1"}}', toldBack);

    stub.set('twire.arguments', ['deaf']);
    await until(() => toldBack() && toldBack().startsWith('textDocument/didOpen'));
    const source = new stub.CancellationTokenSource();
    const hover = provider('Hover').provideHover(document, at(0, 0), source.token);
    source.cancel();
    want('a question that is cancelled', null, await hover);
    await becomes('which the server hears', '$/cancelRequest {"id":2}', toldBack);
    replaced(document, 'bmc', 'b\u{1f321}');
    const range = '{"start":{"line":4,"character":11},"end":{"line":4,"character":14}}';
    await becomes('a server that wants ranges', true, () => toldBack().includes(`[{"range":${range},"text":"b\u{1f321}"}]`));
    replaced(document, 'b\u{1f321}', 'bmc');
    const deaf = children[children.length - 1];
    patience = 100;
    stub.set('twire.arguments', ['few']);
    await until(() => toldBack() && toldBack().startsWith('textDocument/didOpen'));
    want('a server that does not end is ended', 'SIGKILL', status(deaf));
    patience = MILLISECONDS;

    for (const [kind, reason] of [['dying', 'status 3'], ['noisy', 'it does not speak the Language Server Protocol']]) {
        const started = children.length;
        stub.state.errors = [];
        stub.set('twire.arguments', [kind]);
        await becomes(`a ${kind} server is given up`, [`twire lsp ended 4 times by itself, at last with: ${reason}`],
            () => stub.state.errors);
        await pause(100);
        want(`a ${kind} server is started four times`, 4, children.length - started);
    }
    want('nothing is left of them', [[], 0, 0],
        [stub.state.watched, stub.state.collections.size, stub.events.open.listeners.size]);
}

async function missing() {
    stub.state.errors = [];
    const started = children.length;
    stub.set('twire.path', '/none/twire');
    await until(() => stub.state.errors.length > 0);
    want('a program that is missing', [1, true, true],
        [stub.state.errors.length, /ENOENT/.test(stub.state.errors), /twire\.path/.test(stub.state.errors)]);
    await pause(100);
    want('is not looked for again', 1, children.length - started);
    stub.state.errors = [];
    stub.set('twire.path', 5);
    await becomes('a path that is none', 1, () => stub.state.errors.length);
}

async function end() {
    stub.state.settings['twire.arguments'] = [];
    stub.set('twire.path', PROGRAM);
    await becomes('the program is there again', true, () => (stub.state.providers.Hover || []).length === 1);
    const child = children[children.length - 1];
    const ending = extension.deactivate();
    context.subscriptions.forEach(one => one.dispose());
    await ending;
    want('deactivate: shutdown, and then exit', 0, status(child));
    want('no command is left', {}, stub.state.commands);
    want('no process is left', [], children.filter(one => one.pid && status(one) === null).map(one => one.pid));
}

// ---- the manifest

function declared() {
    const { contributes, activationEvents } = manifest;
    const ids = contributes.languages.map(one => one.id);
    want('languages', [['twire-brief', '.brief'], ['twire-plan', '.plan']],
        contributes.languages.map(one => [one.id, ...one.extensions]));
    want('what wakes it', [...ids.map(id => `onLanguage:${id}`), ...contributes.commands.map(one => `onCommand:${one.command}`)],
        activationEvents);
    want('commands', contributes.commands.map(one => one.command), Object.keys(stub.state.commands));
    want('a grammar for each', contributes.grammars.map(one => [one.language, one.scopeName]),
        ['brief', 'plan'].map(kind => [`twire-${kind}`, JSON.parse(fs.readFileSync(
            path.join(TOP, `tools/editors/textmate/twire-${kind}.tmLanguage.json`), 'utf8')).scopeName]));
    want('no dependency', undefined, manifest.dependencies);
}

async function run() {
    await frames();
    for (const [name, { default: value }] of Object.entries(manifest.contributes.configuration.properties)) {
        stub.state.settings[name] = value;
    }
    want('settings', { 'twire.path': 'twire', 'twire.arguments': [] }, stub.state.settings);
    stub.state.settings['twire.path'] = PROGRAM;
    stub.api.workspace.workspaceFolders = [{ uri: stub.api.Uri.file(process.cwd()) }];
    extension.activate(context);
    declared();
    await oneBrief();
    const document = await board();
    await restarts(document);
    await otherServers(document);
    await missing();
    await end();
}

run().catch(error => want('to the end', 'nothing thrown', error.stack)).then(() => {
    children.filter(one => one.pid && status(one) === null).forEach(one => one.kill('SIGKILL'));
    console.log(`${counts.passed} passed, ${counts.failed} failed`);
    process.exit(counts.failed ? 1 : 0);
});
