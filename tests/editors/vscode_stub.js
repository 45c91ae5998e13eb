// What the extension of tools/editors uses of VS Code's API, for node: values, documents that are edited, and what was
// registered. It is as strict as VS Code: what is disposed of takes nothing, and a symbol's selection stands in its range.
'use strict';

const { fileURLToPath, pathToFileURL } = require('url');

// ---- values

class Position {
    constructor(line, character) {
        Object.assign(this, { line, character });
    }
}

class Range {
    constructor(line, character, endLine, endCharacter) {
        this.start = new Position(line, character);
        this.end = new Position(endLine, endCharacter);
    }
}

class Uri {
    constructor(url) {
        this.url = url;
        this.scheme = url.protocol.slice(0, -1);
    }

    static parse(text) {
        return new Uri(new URL(text));
    }

    static file(path) {
        return new Uri(pathToFileURL(path));
    }

    get fsPath() {
        return fileURLToPath(this.url);
    }

    toString() {
        return this.url.href;
    }
}

// A class whose constructor keeps its arguments under these names.
function record(...names) {
    return class {
        constructor(...values) {
            names.forEach((name, number) => {
                this[name] = values[number];
            });
        }
    };
}

function contains({ start, end }, inner) {
    const isBefore = (one, other) => one.line < other.line || (one.line === other.line && one.character <= other.character);
    return isBefore(start, inner.start) && isBefore(inner.end, end);
}

class DocumentSymbol extends record('name', 'detail', 'kind', 'range', 'selectionRange') {
    constructor(...values) {
        super(...values);
        if (!this.name || !contains(this.range, this.selectionRange)) {
            throw new Error('a symbol without a name, or whose selection is not in its range');
        }
    }
}

class TextEdit extends record('range', 'newText') {
    static replace(range, newText) {
        return new TextEdit(range, newText);
    }
}

class WorkspaceEdit {
    constructor() {
        this.texts = [];
    }

    set(uri, edits) {
        this.texts.push([uri, edits]);
    }
}

class EventEmitter {
    constructor() {
        this.listeners = new Set();
        this.event = listener => {
            this.listeners.add(listener);
            return { dispose: () => this.listeners.delete(listener) };
        };
    }

    fire(value) {
        [...this.listeners].forEach(listener => listener(value));
    }

    dispose() {
        this.listeners.clear();
    }
}

class CancellationTokenSource {
    constructor() {
        this.cancelled = new EventEmitter();
        this.token = { onCancellationRequested: this.cancelled.event };
    }

    cancel() {
        this.cancelled.fire();
    }
}

// ---- documents

class Document {
    constructor(uri, languageId, text) {
        Object.assign(this, { uri, languageId, text, version: 1 });
    }

    getText() {
        return this.text;
    }

    // How many units stand before a place.
    offset({ line, character }) {
        const before = this.text.split('\n').slice(0, line);
        return before.reduce((sum, one) => sum + one.length + 1, 0) + character;
    }
}

const events = {};
for (const name of ['open', 'close', 'change', 'save', 'configuration', 'created', 'changed', 'deleted']) {
    events[name] = new EventEmitter();
}

// ---- what a test does, and sees

const state = {
    providers: {}, // by the names of what registers them, with what else was given
    commands: {},
    collections: new Set(),
    settings: {},
    errors: [], // what was shown
    choice: undefined, // the button that is then chosen
    output: '',
    watched: [],
};

function open(uri, languageId, text) {
    const document = new Document(uri, languageId, text);
    workspace.textDocuments.push(document);
    events.open.fire(document);
    return document;
}

function close(document) {
    workspace.textDocuments.splice(workspace.textDocuments.indexOf(document), 1);
    events.close.fire(document);
}

// Edits of one change, as TextEdits. The last one in the text is told of first.
function edit(document, edits) {
    const sorted = [...edits].sort((one, other) => document.offset(other.range.start) - document.offset(one.range.start));
    for (const { range, newText } of sorted) {
        document.text = document.text.slice(0, document.offset(range.start)) + newText +
            document.text.slice(document.offset(range.end));
    }
    document.version += 1;
    events.change.fire({ document, contentChanges: sorted.map(({ range, newText }) => ({ range, text: newText })) });
}

// What is wrong with a document, of all collections that were not disposed of.
function diagnostics(document) {
    return [...state.collections].flatMap(one => one.get(document.uri.toString()) || []);
}

function set(name, value) {
    state.settings[name] = value;
    events.configuration.fire({ affectsConfiguration: section => name.startsWith(`${section}.`) });
}

// ---- the API

function registers(name) {
    return (selector, provider, ...more) => {
        const registered = { selector, provider, more };
        state.providers[name] = [...(state.providers[name] || []), registered];
        return {
            dispose() {
                state.providers[name] = state.providers[name].filter(one => one !== registered);
            },
        };
    };
}

const languages = {
    match: (selector, { languageId, uri }) => (selector.some(
        one => one.language === languageId && one.scheme === uri.scheme) ? 10 : 0),
    createDiagnosticCollection() {
        const lists = new Map();
        state.collections.add(lists);
        return {
            set(uri, list) {
                if (!state.collections.has(lists)) {
                    throw new Error('illegal state - object is disposed');
                }
                lists.set(uri.toString(), list);
            },
            dispose: () => state.collections.delete(lists),
        };
    },
};
for (const name of ['Hover', 'Definition', 'Reference', 'DocumentHighlight', 'Rename', 'CompletionItem', 'DocumentSymbol',
    'FoldingRange', 'DocumentFormattingEdit', 'CodeActions', 'CodeLens', 'InlayHints']) {
    languages[`register${name}Provider`] = registers(name);
}

const workspace = {
    textDocuments: [],
    workspaceFolders: undefined,
    onDidOpenTextDocument: events.open.event,
    onDidCloseTextDocument: events.close.event,
    onDidChangeTextDocument: events.change.event,
    onDidSaveTextDocument: events.save.event,
    onDidChangeConfiguration: events.configuration.event,
    getConfiguration: section => ({ get: name => state.settings[`${section}.${name}`] }),
    createFileSystemWatcher(pattern) {
        state.watched.push(pattern);
        return {
            onDidCreate: events.created.event,
            onDidChange: events.changed.event,
            onDidDelete: events.deleted.event,
            dispose: () => state.watched.splice(state.watched.indexOf(pattern), 1),
        };
    },
};

const window = {
    createOutputChannel() {
        let isClosed = false;
        const append = text => {
            if (isClosed) {
                throw new Error('Channel has been closed');
            }
            state.output += text;
        };
        return {
            append,
            appendLine: text => append(`${text}\n`),
            dispose() {
                isClosed = true;
            },
        };
    },
    async showErrorMessage(message) {
        state.errors.push(message);
        return state.choice;
    },
};

const commands = {
    registerCommand(name, run) {
        state.commands[name] = run;
        return { dispose: () => delete state.commands[name] };
    },
};

const api = {
    version: '1.65.0',
    Position, Range, Uri, EventEmitter, DocumentSymbol, TextEdit, WorkspaceEdit,
    Location: record('uri', 'range'),
    Diagnostic: record('range', 'message', 'severity'),
    DiagnosticRelatedInformation: record('location', 'message'),
    Hover: record('contents'),
    MarkdownString: record('value'),
    DocumentHighlight: record('range', 'kind'),
    CompletionItem: record('label', 'kind'),
    FoldingRange: record('start', 'end', 'kind'),
    FoldingRangeKind: { Comment: 1, Imports: 2, Region: 3 },
    CodeAction: record('title', 'kind'),
    CodeActionKind: { QuickFix: 'quickfix' },
    CodeLens: record('range', 'command'),
    InlayHint: record('position', 'label', 'kind'),
    languages, workspace, window, commands,
};

module.exports = { api, state, events, open, close, edit, diagnostics, set, CancellationTokenSource };
