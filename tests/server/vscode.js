// Runs the extension of editors/vscode with a module that stands for VS Code: it opens the texts TEXTS, changes the last as CHANGES says, and writes
// what is shown to ANSWERS. The language server is PROGRAM.
'use strict';
const fs = require('fs');
const Module = require('module');
const path = require('path');
const url = require('url');

const LIMIT = 20000;
const listeners = { open: [], change: [], close: [] };
const documents = [];
const shown = new Map();
const told = [];

class Uri {
  constructor(text) { this.text = text; }
  static parse(text) { return new Uri(text); }
  toString() { return this.text; }
}

class Range {
  constructor(line, from, end_line, to) { Object.assign(this, { line, from, end_line, to }); }
}

class Diagnostic {
  constructor(range, message, severity) { Object.assign(this, { range, message, severity }); }
}

class Pair {
  constructor(one, other) { Object.assign(this, { one, other }); }
}

const listen = (kind) => (listener) => {
  listeners[kind].push(listener);
  return {};
};

const vscode = {
  Uri, Range, Diagnostic, Location: Pair, DiagnosticRelatedInformation: Pair,
  DiagnosticSeverity: { Error: 0 },
  languages: {
    createDiagnosticCollection: () => ({
      set: (uri, list) => { shown.set(uri.toString(), list); told.push(uri.toString()); },
      delete: (uri) => shown.delete(uri.toString()),
      clear: () => shown.clear(),
    }),
  },
  window: { showWarningMessage: (text) => { throw new Error(text); } },
  workspace: {
    textDocuments: documents,
    getConfiguration: () => ({ get: () => process.env.PROGRAM }),
    onDidOpenTextDocument: listen('open'), onDidChangeTextDocument: listen('change'), onDidCloseTextDocument: listen('close'),
  },
};
const load = Module._load;
Module._load = (name, ...rest) => (name === 'vscode' ? vscode : load(name, ...rest));
const extension = require(path.join(__dirname, '../../editors/vscode/extension.js'));

function document_of(file) {
  const text = fs.readFileSync(file, 'utf8');
  return { uri: new Uri(url.pathToFileURL(file).href), languageId: 'blech', version: 1, text, getText() { return this.text; } };
}

async function waits(count) {
  for (const end = Date.now() + LIMIT; told.length < count && Date.now() < end;) {
    await new Promise((next) => setTimeout(next, 5));
  }
  return told.length >= count;
}

// a column in bytes, as the tests have it
function bytes_before(text, line, units) {
  return Buffer.byteLength(text.split('\n')[line].slice(0, units));
}

function seen(it) {
  return (shown.get(it.uri.toString()) || []).map(({ code, range }) => [
    code, range.line, bytes_before(it.text, range.line, range.from), bytes_before(it.text, range.end_line, range.to)]);
}

async function main() {
  const lines = [];
  extension.activate({ subscriptions: [] });
  for (const file of JSON.parse(process.env.TEXTS)) {
    const before = told.length;
    documents.push(document_of(file));
    listeners.open.forEach((it) => it(documents[documents.length - 1]));
    lines.push({ name: file, told: await waits(before + 1), seen: seen(documents[documents.length - 1]) });
  }
  const last = documents[documents.length - 1];
  for (const [number, text] of JSON.parse(process.env.CHANGES).entries()) {
    const before = told.length;
    Object.assign(last, { text, version: last.version + 1 });
    listeners.change.forEach((it) => it({ document: last }));
    lines.push({ name: `change ${number + 1}`, told: await waits(before + 1), seen: seen(last) });
  }
  listeners.close.forEach((it) => it(last));
  extension.deactivate();
  fs.writeFileSync(process.env.ANSWERS, lines.map((it) => `${JSON.stringify(it)}\n`).join(''));
}

main();
