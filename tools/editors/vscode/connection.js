// JSON-RPC 2.0 over two streams, in frames as the Language Server Protocol has them.
'use strict';

const LONGEST_HEAD = 4096;
const END_OF_HEAD = '\r\n\r\n';
const METHOD_NOT_FOUND = -32601;

// Cuts what comes into the bodies of frames. A length counts bytes, and a frame may come in any pieces.
class Frames {
    constructor() {
        this.pieces = [];
        this.size = 0;
        this.length = null; // that of the next body, once its head is read
    }

    // The bodies that end in these bytes.
    take(bytes) {
        this.pieces.push(bytes);
        this.size += bytes.length;
        const bodies = [];
        while (this.readHead() && this.size >= this.length) {
            const all = this.joined();
            bodies.push(all.toString('utf8', 0, this.length));
            this.keep(all.slice(this.length));
            this.length = null;
        }
        return bodies;
    }

    // Whether the length of the next body is known.
    readHead() {
        if (this.length !== null) {
            return true;
        }
        const all = this.joined();
        const end = all.indexOf(END_OF_HEAD);
        if (end < 0 && all.length <= LONGEST_HEAD) {
            return false;
        }
        const found = /^Content-Length: *(\d+)$/im.exec(all.toString('latin1', 0, Math.max(end, 0)));
        if (!found) {
            throw new Error('it does not speak the Language Server Protocol');
        }
        this.length = Number(found[1]);
        this.keep(all.slice(end + END_OF_HEAD.length));
        return true;
    }

    // (a body is joined once, when all of it has come)
    joined() {
        if (this.pieces.length !== 1) {
            this.keep(Buffer.concat(this.pieces));
        }
        return this.pieces[0];
    }

    keep(bytes) {
        this.pieces = [bytes];
        this.size = bytes.length;
    }
}

// A connection to a server. `noted(method, params)` is called for what the server tells, and `broken(error)` where what it
// writes cannot be read. Then it is to be closed.
class Connection {
    constructor(input, output, { noted, broken }) {
        this.output = output;
        this.noted = noted;
        this.broken = broken;
        this.waiting = new Map(); // what waits for an answer, by the number of its request
        this.requests = 0;
        this.closed = null; // why nothing more is said
        const frames = new Frames();
        input.on('data', bytes => this.read(frames, bytes));
        output.on('error', () => {}); // (the process has ended, which is told of by itself)
    }

    // The answer. It is null where the token is cancelled before, and then the server is told so. An error of the server is
    // thrown with its message.
    request(method, params, token) {
        if (this.closed) {
            return Promise.reject(new Error(this.closed));
        }
        const id = ++this.requests;
        return new Promise((resolve, reject) => {
            this.waiting.set(id, { resolve, reject });
            this.write({ id, method, params });
            if (token) {
                token.onCancellationRequested(() => this.cancel(id));
            }
        });
    }

    notify(method, params) {
        if (!this.closed) {
            this.write({ method, params });
        }
    }

    // Nothing more is read or written. What waits for an answer is refused for this reason.
    close(reason) {
        this.closed = reason;
        for (const { reject } of this.waiting.values()) {
            reject(new Error(reason));
        }
        this.waiting.clear();
    }

    cancel(id) {
        const asked = this.waiting.get(id);
        if (asked) {
            this.waiting.delete(id);
            this.notify('$/cancelRequest', { id });
            asked.resolve(null);
        }
    }

    write(message) {
        const body = Buffer.from(JSON.stringify({ jsonrpc: '2.0', ...message }), 'utf8');
        this.output.write(`Content-Length: ${body.length}${END_OF_HEAD}`);
        this.output.write(body);
    }

    read(frames, bytes) {
        if (this.closed) {
            return;
        }
        try {
            frames.take(bytes).forEach(body => this.take(JSON.parse(body)));
        } catch (error) {
            this.broken(error);
        }
    }

    take({ id, method, params, result, error }) {
        if (method === undefined) {
            this.answered(id, result, error);
        } else if (id === undefined) {
            this.noted(method, params);
        } else {
            this.write({ id, error: { code: METHOD_NOT_FOUND, message: `this client has no ${method}` } });
        }
    }

    // (an answer that nobody waits for was cancelled)
    answered(id, result, error) {
        const asked = this.waiting.get(id);
        if (!asked) {
            return;
        }
        this.waiting.delete(id);
        if (error) {
            asked.reject(new Error(error.message));
        } else {
            asked.resolve(result);
        }
    }
}

module.exports = { Connection };
