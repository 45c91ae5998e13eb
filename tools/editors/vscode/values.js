// What the protocol writes as JSON, as VS Code has it, and places as the protocol writes them. Kinds are numbered from 1 on
// there, and from 0 on here.
'use strict';

const vscode = require('vscode');

function writtenPosition({ line, character }) {
    return { line, character };
}

function writtenRange({ start, end }) {
    return { start: writtenPosition(start), end: writtenPosition(end) };
}

function range({ start, end }) {
    return new vscode.Range(start.line, start.character, end.line, end.character);
}

function location({ uri, range: place }) {
    return new vscode.Location(vscode.Uri.parse(uri), range(place));
}

function diagnostic({ range: place, message, severity, code, source, tags, relatedInformation }) {
    const value = new vscode.Diagnostic(range(place), message, severity - 1);
    value.code = code;
    value.source = source;
    value.tags = tags;
    value.relatedInformation = (relatedInformation || []).map(
        one => new vscode.DiagnosticRelatedInformation(location(one.location), one.message));
    return value;
}

function hover({ contents }) {
    return new vscode.Hover(new vscode.MarkdownString(contents.value));
}

function highlight({ range: place, kind }) {
    return new vscode.DocumentHighlight(range(place), kind - 1);
}

function edit({ range: place, newText }) {
    return vscode.TextEdit.replace(range(place), newText);
}

function workspaceEdit({ changes }) {
    const value = new vscode.WorkspaceEdit();
    for (const [uri, edits] of Object.entries(changes)) {
        value.set(vscode.Uri.parse(uri), edits.map(edit));
    }
    return value;
}

function completion({ label, kind, detail, textEdit }) {
    const value = new vscode.CompletionItem(label, kind - 1);
    value.detail = detail;
    value.range = range(textEdit.range);
    value.insertText = textEdit.newText;
    return value;
}

function symbol({ name, detail, kind, range: place, selectionRange }) {
    return new vscode.DocumentSymbol(name, detail, kind - 1, range(place), range(selectionRange));
}

function fold({ startLine, endLine, kind }) {
    const kinds = { comment: vscode.FoldingRangeKind.Comment, region: vscode.FoldingRangeKind.Region };
    return new vscode.FoldingRange(startLine, endLine, kinds[kind]);
}

// (all of them are quick fixes)
function action({ title, edit: made, diagnostics, isPreferred }) {
    const value = new vscode.CodeAction(title, vscode.CodeActionKind.QuickFix);
    value.edit = workspaceEdit(made);
    value.diagnostics = (diagnostics || []).map(diagnostic);
    value.isPreferred = isPreferred;
    return value;
}

function lens({ range: place, command }) {
    return new vscode.CodeLens(range(place), command);
}

function hint({ position, label, paddingLeft }) {
    const value = new vscode.InlayHint(new vscode.Position(position.line, position.character), label);
    value.paddingLeft = paddingLeft;
    return value;
}

module.exports = {
    writtenPosition, writtenRange, range, location, diagnostic, hover, highlight, edit, workspaceEdit, completion, symbol,
    fold, action, lens, hint,
};
