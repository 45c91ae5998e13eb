// Tells a server of the documents of the editor, and of files that change on disk.
'use strict';

const vscode = require('vscode');
const { writtenRange } = require('./values');

// (a text of other schemes, as one side of a comparison, is no file of a board)
const SELECTOR = ['twire-brief', 'twire-plan'].flatMap(
    language => ['file', 'untitled'].map(scheme => ({ language, scheme })));
const FILES = '**/*.{brief,plan}';

// How a server wants changes.
const WHOLE_TEXTS = 1;
const RANGES = 2;

// What happens to a file.
const CREATED = 1;
const CHANGED = 2;
const DELETED = 3;

function isOurs(document) {
    return vscode.languages.match(SELECTOR, document) > 0;
}

function changesOf({ document, contentChanges }, kind) {
    if (kind === WHOLE_TEXTS) {
        return [{ text: document.getText() }];
    }
    return contentChanges.map(({ range, text }) => ({ range: writtenRange(range), text }));
}

// Tells of all that are open, and of what happens to them from now on, as far as the server wants it. What is given is to be
// disposed of at the end.
function followDocuments(server, wanted) {
    const { workspace } = vscode;
    const { openClose, change, save } = typeof wanted === 'number' ? { openClose: true, change: wanted } : wanted || {};
    const tell = (method, document, more, changes) => isOurs(document) && server.notify(`textDocument/${method}`,
        { textDocument: { uri: document.uri.toString(), ...more }, ...changes });
    const opened = document => {
        const { languageId, version } = document;
        tell('didOpen', document, { languageId, version, text: document.getText() });
    };
    const closed = document => tell('didClose', document);
    const saved = document => tell('didSave', document);
    // (a document that becomes dirty may have no change)
    const changed = event => event.contentChanges.length > 0 && tell('didChange', event.document,
        { version: event.document.version }, { contentChanges: changesOf(event, change) });
    const followed = [];
    if (openClose) {
        workspace.textDocuments.forEach(opened);
        followed.push(workspace.onDidOpenTextDocument(opened), workspace.onDidCloseTextDocument(closed));
    }
    if (change === WHOLE_TEXTS || change === RANGES) {
        followed.push(workspace.onDidChangeTextDocument(changed));
    }
    if (save) {
        followed.push(workspace.onDidSaveTextDocument(saved));
    }
    return followed;
}

function followFiles(server) {
    const watcher = vscode.workspace.createFileSystemWatcher(FILES);
    const tell = type => uri =>
        server.notify('workspace/didChangeWatchedFiles', { changes: [{ uri: uri.toString(), type }] });
    return [
        watcher, watcher.onDidCreate(tell(CREATED)), watcher.onDidChange(tell(CHANGED)), watcher.onDidDelete(tell(DELETED)),
    ];
}

module.exports = { SELECTOR, followDocuments, followFiles };
