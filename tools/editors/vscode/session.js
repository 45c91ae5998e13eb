// One process of `twire lsp`, from its start to its end.
'use strict';

const { spawn } = require('child_process');
const vscode = require('vscode');
const { Connection } = require('./connection');
const { followDocuments, followFiles } = require('./documents');
const { registerFeatures } = require('./features');
const values = require('./values');

// How long a server may take to end when it is asked to.
const MILLISECONDS_TO_END = 2000;

// What is understood here.
const CLIENT = {
    general: { positionEncodings: ['utf-16'] },
    textDocument: {
        synchronization: { didSave: true },
        publishDiagnostics: { relatedInformation: true, tagSupport: { valueSet: [1, 2] } },
        hover: { contentFormat: ['markdown'] },
        documentSymbol: { hierarchicalDocumentSymbolSupport: true },
        rename: { prepareSupport: true },
        codeAction: { codeActionLiteralSupport: { codeActionKind: { valueSet: ['quickfix'] } }, isPreferredSupport: true },
    },
};

function folder() {
    const [first] = vscode.workspace.workspaceFolders || [];
    return first && first.uri.scheme === 'file' ? first.uri : undefined;
}

function startProgram() {
    const settings = vscode.workspace.getConfiguration('twire');
    const root = folder();
    return spawn(settings.get('path'), ['lsp', ...settings.get('arguments')], { cwd: root && root.fsPath });
}

function greeting() {
    const root = folder();
    const rootUri = root ? root.toString() : null;
    return { processId: process.pid, clientInfo: { name: 'VS Code' }, rootUri, capabilities: CLIENT };
}

// `ended(reason, isMissing)` is called where the process ends without being asked to. It is missing where it could not begin.
class Session {
    constructor(output, ended) {
        this.output = output;
        this.ended = ended;
        this.child = startProgram();
        this.isAsked = false; // to end
        this.isOver = false;
        this.told = new vscode.EventEmitter(); // what is wrong was told anew
        this.diagnostics = vscode.languages.createDiagnosticCollection('twire');
        this.kept = [this.told, this.diagnostics];
        this.connection = new Connection(this.child.stdout, this.child.stdin, {
            noted: (method, params) => this.noted(method, params),
            broken: error => this.abandon(error.message),
        });
        this.child.stderr.setEncoding('utf8').on('data', text => output.append(text));
        this.gone = new Promise(resolve => {
            this.child.on('error', error => this.child.pid === undefined && resolve(this.over(error.message, true)));
            this.child.on('close', (status, signal) => resolve(this.over(signal || `status ${status}`)));
        });
    }

    // Registers what the server offers, once it has said so.
    async begin() {
        try {
            const { capabilities } = await this.connection.request('initialize', greeting());
            if (this.isAsked) {
                return;
            }
            this.connection.notify('initialized', {});
            this.kept.push(...registerFeatures(this, capabilities), ...followFiles(this),
                ...followDocuments(this, capabilities.textDocumentSync));
        } catch (error) {
            this.abandon(error.message);
        }
    }

    // Asks the server to end, and waits for it.
    async stop() {
        this.isAsked = true;
        this.release();
        const impatience = setTimeout(() => this.child.kill('SIGKILL'), MILLISECONDS_TO_END);
        await this.connection.request('shutdown').catch(() => {});
        this.connection.notify('exit');
        this.child.stdin.end();
        await this.gone;
        clearTimeout(impatience);
    }

    // ---- what features call

    notify(method, params) {
        this.connection.notify(method, params);
    }

    request(method, params, token) {
        return this.connection.request(method, params, token);
    }

    // The same, but an error goes to the output, and nothing is answered.
    async ask(method, params, token) {
        try {
            return await this.connection.request(method, params, token);
        } catch (error) {
            this.output.appendLine(`${method}: ${error.message}`);
            return null;
        }
    }

    // Each part of an answer that is a list.
    async askEach(method, params, value, token) {
        return (await this.ask(method, params, token) || []).map(value);
    }

    // ---- what happens to it

    noted(method, params) {
        if (method === 'textDocument/publishDiagnostics' && !this.isAsked) {
            this.diagnostics.set(vscode.Uri.parse(params.uri), params.diagnostics.map(values.diagnostic));
            this.told.fire();
        }
    }

    // Takes from the editor what it was given.
    release() {
        this.kept.splice(0).forEach(one => one.dispose());
    }

    // Ends a server that does not do what it should.
    abandon(reason) {
        this.over(reason);
        this.child.kill('SIGKILL');
    }

    over(reason, isMissing = false) {
        if (this.isOver) {
            return;
        }
        this.isOver = true;
        const words = `twire lsp ended: ${reason}`;
        this.output.appendLine(words);
        this.connection.close(words);
        this.release();
        if (!this.isAsked) {
            this.ended(reason, isMissing);
        }
    }
}

module.exports = { Session };
