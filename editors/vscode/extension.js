// Shows in VS Code what the language server `blech_ls` publishes of the texts that are open.
'use strict';
const vscode = require('vscode');
const { Client } = require('./client');

let client = null;
let shown = null;

function is_blech(document) {
  return document.languageId === 'blech';
}

function range_of(range) {
  return new vscode.Range(range.start.line, range.start.character, range.end.line, range.end.character);
}

function diagnostic_of(told) {
  const diagnostic = new vscode.Diagnostic(range_of(told.range), told.message, vscode.DiagnosticSeverity.Error);
  diagnostic.code = told.code;
  diagnostic.source = told.source;
  diagnostic.relatedInformation = told.relatedInformation.map((it) => new vscode.DiagnosticRelatedInformation(
    new vscode.Location(vscode.Uri.parse(it.location.uri), range_of(it.location.range)), it.message));
  return diagnostic;
}

// What is told of a text that has changed since is passed over: the server tells of the new one, too.
function published(told) {
  const document = vscode.workspace.textDocuments.find((it) => it.uri.toString() === told.uri);
  if (document && (told.version === undefined || told.version === document.version)) {
    shown.set(document.uri, told.diagnostics.map(diagnostic_of));
  }
}

function ended(why) {
  client = null;
  shown.clear();
  vscode.window.showWarningMessage(`Blech: no language server (${why}). The setting blech.server names it.`);
}

function opened(document) {
  if (client && is_blech(document)) {
    client.open(document.uri.toString(), document.version, document.getText());
  }
}

function changed(event) {
  if (client && is_blech(event.document)) {
    client.change(event.document.uri.toString(), event.document.version, event.document.getText());
  }
}

function closed(document) {
  if (client && is_blech(document)) {
    client.close(document.uri.toString());
    shown.delete(document.uri);
  }
}

function activate(context) {
  const command = vscode.workspace.getConfiguration('blech').get('server');
  shown = vscode.languages.createDiagnosticCollection('blech');
  context.subscriptions.push(shown);
  if (!command) {
    return;
  }
  client = new Client(command, published, ended);
  context.subscriptions.push(
    vscode.workspace.onDidOpenTextDocument(opened),
    vscode.workspace.onDidChangeTextDocument(changed),
    vscode.workspace.onDidCloseTextDocument(closed));
  vscode.workspace.textDocuments.forEach(opened);
}

function deactivate() {
  if (client) {
    client.leave();
    client = null;
  }
}

module.exports = { activate, deactivate };
