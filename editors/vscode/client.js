// A client of the language server `blech_ls`: messages over the streams of a process. It knows nothing of VS Code.
'use strict';
const child_process = require('child_process');

const GAP = Buffer.from('\r\n\r\n');

// the message that stands first in these bytes, and the bytes behind it; nothing while it isn't whole
function first(bytes) {
  const end = bytes.indexOf(GAP);
  const told = end < 0 ? null : /^content-length: *([0-9]+)\r?$/im.exec(bytes.toString('latin1', 0, end));
  if (!told) {
    return null;
  }
  const start = end + GAP.length;
  const behind = start + Number(told[1]);
  return behind > bytes.length ? null : { message: JSON.parse(bytes.toString('utf8', start, behind)), rest: bytes.subarray(behind) };
}

// the bytes of a message
function framed(message) {
  const content = Buffer.from(JSON.stringify({ jsonrpc: '2.0', ...message }));
  return Buffer.concat([Buffer.from(`Content-Length: ${content.length}\r\n\r\n`), content]);
}

class Client {
  // `published` gets what the server publishes of a text, `ended` why it serves no longer
  constructor(command, published, ended) {
    this.published = published;
    this.ended = ended;
    this.left = false;
    this.bytes = Buffer.alloc(0);
    this.process = child_process.spawn(command, [], { stdio: ['pipe', 'pipe', 'ignore'] });
    this.process.on('error', (fault) => this.end(fault.message));
    this.process.on('exit', (status) => this.end(`it ended with status ${status}`));
    this.process.stdin.on('error', () => {});
    this.process.stdout.on('data', (piece) => this.take(piece));
    this.send({ id: 1, method: 'initialize', params: { processId: process.pid, rootUri: null, capabilities: {} } });
    this.send({ method: 'initialized', params: {} });
  }

  send(message) {
    if (this.process.stdin.writable) {
      this.process.stdin.write(framed(message));
    }
  }

  // the next bytes of the server
  take(piece) {
    this.bytes = Buffer.concat([this.bytes, piece]);
    for (let next = first(this.bytes); next; next = first(this.bytes)) {
      this.bytes = next.rest;
      if (next.message.method === 'textDocument/publishDiagnostics') {
        this.published(next.message.params);
      }
    }
  }

  end(why) {
    if (!this.left) {
      this.left = true;
      this.ended(why);
    }
  }

  open(uri, version, text) {
    this.send({ method: 'textDocument/didOpen', params: { textDocument: { uri, languageId: 'blech', version, text } } });
  }

  change(uri, version, text) {
    this.send({ method: 'textDocument/didChange', params: { textDocument: { uri, version }, contentChanges: [{ text }] } });
  }

  close(uri) {
    this.send({ method: 'textDocument/didClose', params: { textDocument: { uri } } });
  }

  leave() {
    this.left = true;
    this.send({ id: 2, method: 'shutdown' });
    this.send({ method: 'exit' });
    this.process.stdin.end();
  }
}

module.exports = { Client };
