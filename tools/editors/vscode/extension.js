// twire in VS Code: starts `twire lsp`, and starts it again where it ends by itself.
'use strict';

const vscode = require('vscode');
const { Session } = require('./session');

// After this many ends within this time the user decides.
const MOST_ENDS = 4;
const MILLISECONDS = 3 * 60 * 1000;

const RESTART = 'Restart';

// Keeps one server. What is asked of it is done one after another.
class Keeper {
    constructor(output) {
        this.output = output;
        this.session = null;
        this.ends = []; // when servers ended by themselves
        this.isOver = false;
        this.done = Promise.resolve();
    }

    // Where the user wants it: how often servers ended is forgotten.
    restart() {
        this.ends = [];
        return this.startAgain();
    }

    startAgain() {
        this.done = this.done.then(() => this.stopNow()).then(() => this.startNow());
        return this.done;
    }

    // (the output is written to until the server has ended)
    stop() {
        this.isOver = true;
        this.done = this.done.then(() => this.stopNow()).then(() => this.output.dispose());
        return this.done;
    }

    startNow() {
        if (this.isOver) {
            return;
        }
        try {
            this.session = new Session(this.output, (reason, isMissing) => this.ended(reason, isMissing));
            this.session.begin();
        } catch (error) {
            this.tell(`twire cannot be started: ${error.message}`);
        }
    }

    async stopNow() {
        const { session } = this;
        this.session = null;
        if (session) {
            await session.stop();
        }
    }

    ended(reason, isMissing) {
        this.session = null;
        const now = Date.now();
        this.ends = [...this.ends.filter(before => now - before < MILLISECONDS), now];
        if (isMissing) {
            this.tell(`twire cannot be started: ${reason}. Put it on PATH, or its path into the setting twire.path.`);
        } else if (this.ends.length < MOST_ENDS) {
            this.startAgain();
        } else {
            this.tell(`twire lsp ended ${this.ends.length} times by itself, at last with: ${reason}`);
        }
    }

    async tell(message) {
        this.output.appendLine(message);
        if (await vscode.window.showErrorMessage(message, RESTART) === RESTART) {
            this.restart();
        }
    }
}

let keeper = null;

function activate(context) {
    keeper = new Keeper(vscode.window.createOutputChannel('twire'));
    context.subscriptions.push(
        vscode.commands.registerCommand('twire.restart', () => keeper.restart()),
        vscode.workspace.onDidChangeConfiguration(event => event.affectsConfiguration('twire') && keeper.restart()));
    keeper.restart();
}

function deactivate() {
    return keeper && keeper.stop();
}

module.exports = { activate, deactivate };
