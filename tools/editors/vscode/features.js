// What an editor asks a server, registered as far as the server offers it.
'use strict';

const vscode = require('vscode');
const { SELECTOR } = require('./documents');
const values = require('./values');

const { languages } = vscode;

// ---- what a request has in it

function whole(document, more) {
    return { textDocument: { uri: document.uri.toString() }, ...more };
}

function at(document, position, more) {
    return whole(document, { position: values.writtenPosition(position), ...more });
}

// ---- features, by the names of what a server offers. Each gives what is to be disposed of at the end

function hoverProvider(server) {
    return languages.registerHoverProvider(SELECTOR, {
        async provideHover(document, position, token) {
            const answer = await server.ask('textDocument/hover', at(document, position), token);
            return answer && values.hover(answer);
        },
    });
}

function definitionProvider(server) {
    return languages.registerDefinitionProvider(SELECTOR, {
        async provideDefinition(document, position, token) {
            const answer = await server.ask('textDocument/definition', at(document, position), token);
            return answer && values.location(answer);
        },
    });
}

function referencesProvider(server) {
    return languages.registerReferenceProvider(SELECTOR, {
        provideReferences: (document, position, { includeDeclaration }, token) =>
            server.askEach('textDocument/references', at(document, position, { context: { includeDeclaration } }),
                values.location, token),
    });
}

function documentHighlightProvider(server) {
    return languages.registerDocumentHighlightProvider(SELECTOR, {
        provideDocumentHighlights: (document, position, token) =>
            server.askEach('textDocument/documentHighlight', at(document, position), values.highlight, token),
    });
}

// (VS Code shows what is thrown, so a refusal of the server goes through)
function renameProvider(server, { prepareProvider }) {
    const provider = {
        async provideRenameEdits(document, position, newName, token) {
            const answer = await server.request('textDocument/rename', at(document, position, { newName }), token);
            return answer && values.workspaceEdit(answer);
        },
    };
    if (prepareProvider) {
        provider.prepareRename = async (document, position, token) => {
            const answer = await server.request('textDocument/prepareRename', at(document, position), token);
            if (!answer) {
                throw new Error('no name stands here');
            }
            return values.range(answer);
        };
    }
    return languages.registerRenameProvider(SELECTOR, provider);
}

function completionProvider(server, { triggerCharacters = [] }) {
    return languages.registerCompletionItemProvider(SELECTOR, {
        provideCompletionItems: (document, position, token) =>
            server.askEach('textDocument/completion', at(document, position), values.completion, token),
    }, ...triggerCharacters);
}

function documentSymbolProvider(server) {
    return languages.registerDocumentSymbolProvider(SELECTOR, {
        provideDocumentSymbols: (document, token) =>
            server.askEach('textDocument/documentSymbol', whole(document), values.symbol, token),
    });
}

function foldingRangeProvider(server) {
    return languages.registerFoldingRangeProvider(SELECTOR, {
        provideFoldingRanges: (document, context, token) =>
            server.askEach('textDocument/foldingRange', whole(document), values.fold, token),
    });
}

function documentFormattingProvider(server) {
    return languages.registerDocumentFormattingEditProvider(SELECTOR, {
        provideDocumentFormattingEdits: (document, { tabSize, insertSpaces }, token) =>
            server.askEach('textDocument/formatting', whole(document, { options: { tabSize, insertSpaces } }),
                values.edit, token),
    });
}

function codeActionProvider(server) {
    return languages.registerCodeActionsProvider(SELECTOR, {
        provideCodeActions: (document, range, context, token) => server.askEach('textDocument/codeAction',
            whole(document, { range: values.writtenRange(range), context: { diagnostics: [] } }), values.action, token),
    }, { providedCodeActionKinds: [vscode.CodeActionKind.QuickFix] });
}

function codeLensProvider(server) {
    return languages.registerCodeLensProvider(SELECTOR, {
        onDidChangeCodeLenses: server.told.event,
        provideCodeLenses: (document, token) =>
            server.askEach('textDocument/codeLens', whole(document), values.lens, token),
    });
}

// (before VS Code 1.65 it was a proposal, whose call throws)
function inlayHintProvider(server) {
    const [, minor] = vscode.version.split('.').map(Number);
    if (!languages.registerInlayHintsProvider || minor < 65) {
        return { dispose() {} };
    }
    return languages.registerInlayHintsProvider(SELECTOR, {
        onDidChangeInlayHints: server.told.event,
        provideInlayHints: (document, range, token) => server.askEach('textDocument/inlayHint',
            whole(document, { range: values.writtenRange(range) }), values.hint, token),
    });
}

const FEATURES = {
    hoverProvider, definitionProvider, referencesProvider, documentHighlightProvider, renameProvider,
    completionProvider, documentSymbolProvider, foldingRangeProvider, documentFormattingProvider, codeActionProvider,
    codeLensProvider, inlayHintProvider,
};

// Registers what is both known here and offered there: `true`, or what is said of it.
function registerFeatures(server, offered) {
    return Object.keys(FEATURES).filter(name => offered[name]).map(name => FEATURES[name](server, offered[name]));
}

module.exports = { registerFeatures };
