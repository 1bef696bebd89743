// Speaks the protocol with tools/lsp: messages are a header with their length and a text of JSON.
'use strict';

const { spawn } = require('child_process');

class Client {
  // `told` takes the notifications of the server, `ended` is called when it is gone, `log` takes what it says besides.
  constructor(command, words, { told, ended, log }) {
    this.told = told;
    this.number = 0;
    this.pending = new Map();
    this.input = Buffer.alloc(0);
    this.child = spawn(command, words, { stdio: ['pipe', 'pipe', 'pipe'] });
    this.child.stdout.on('data', (piece) => this.take(piece));
    this.child.stderr.on('data', (piece) => log(piece.toString()));
    this.child.stdin.on('error', () => {});
    this.child.on('error', (fault) => this.end(fault.message, ended));
    this.child.on('exit', (status) => this.end(`the server ended with ${status}`, ended));
  }

  end(why, ended) {
    for (const { reject } of this.pending.values()) reject(new Error(why));
    this.pending.clear();
    ended(why);
  }

  take(piece) {
    this.input = Buffer.concat([this.input, piece]);
    for (;;) {
      const head = this.input.indexOf('\r\n\r\n');
      const length = head < 0 ? null : /Content-Length: *(\d+)/i.exec(this.input.toString('ascii', 0, head));
      if (!length || this.input.length < head + 4 + Number(length[1])) return;
      const stop = head + 4 + Number(length[1]);
      const message = JSON.parse(this.input.toString('utf8', head + 4, stop));
      this.input = this.input.subarray(stop);
      this.handle(message);
    }
  }

  handle(message) {
    const waiting = this.pending.get(message.id);
    if (message.method) {
      this.told(message.method, message.params);
    } else if (waiting) {
      this.pending.delete(message.id);
      if (message.error) waiting.reject(new Error(message.error.message));
      else waiting.resolve(message.result);
    }
  }

  send(message) {
    const body = Buffer.from(JSON.stringify({ jsonrpc: '2.0', ...message }));
    this.child.stdin.write(`Content-Length: ${body.length}\r\n\r\n`);
    this.child.stdin.write(body);
  }

  notify(method, params) {
    this.send({ method, params });
  }

  // Asks; where the editor's token is cancelled, the server is told.
  request(method, params, token) {
    this.number += 1;
    const id = this.number;
    const answer = new Promise((resolve, reject) => { this.pending.set(id, { resolve, reject }); });
    this.send({ id, method, params });
    if (token) token.onCancellationRequested(() => this.notify('$/cancelRequest', { id }));
    return answer;
  }

  async stop() {
    try {
      await this.request('shutdown', null);
      this.notify('exit', null);
    } catch (fault) {
      this.child.kill();
    }
  }
}

module.exports = { Client };
