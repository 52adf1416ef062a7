// Starts the language server of scoop, and offers its tasks.
'use strict';

const vscode = require('vscode');
const { LanguageClient } = require('vscode-languageclient/node');

/** What the program is called with for each task, before the files. */
const TASKS = { check: ['check', '--all'], test: ['test'], format: ['format', '--write'] };

let client;

function program() {
  return vscode.workspace.getConfiguration('scoop').get('program');
}

/** The files that the setting `scoop.files` names in a folder of the workspace. */
async function namedFiles(folder) {
  const found = [];
  for (const pattern of vscode.workspace.getConfiguration('scoop', folder).get('files')) {
    const files = await vscode.workspace.findFiles(new vscode.RelativePattern(folder, pattern));
    found.push(...files.map((it) => it.fsPath).sort());
  }
  return found;
}

/** The files that the setting names in all folders of the workspace. */
async function allNamedFiles() {
  const lists = await Promise.all((vscode.workspace.workspaceFolders || []).map(namedFiles));
  return lists.flat();
}

async function start() {
  const files = await allNamedFiles();
  // (no transport is named: a named one would add the word --stdio)
  const server = { command: program(), args: ['lsp'] };
  client = new LanguageClient('scoop', 'SCOOP', server, {
    documentSelector: [{ language: 'scoop', scheme: 'file' }, { language: 'scoop', scheme: 'untitled' }],
    initializationOptions: files.length > 0 ? { files } : {},
  });
  await client.start();
}

async function restart() {
  if (client) {
    await client.dispose();
  }
  await start();
}

/** The task that a definition asks for, of the named files, or of the file of the editor if none are named. */
async function taskOf(definition, folder) {
  const files = folder ? await namedFiles(folder) : [];
  const words = [...TASKS[definition.task], ...(definition.arguments || []), ...(files.length > 0 ? files : ['${file}'])];
  const options = folder ? { cwd: folder.uri.fsPath } : {};
  const execution = new vscode.ProcessExecution(program(), words, options);
  const task = new vscode.Task(definition, folder || vscode.TaskScope.Workspace, definition.task, 'scoop', execution, [
    '$scoop-faults',
    '$scoop-warnings',
  ]);
  task.group = { check: vscode.TaskGroup.Build, test: vscode.TaskGroup.Test }[definition.task];
  return task;
}

const tasks = {
  async provideTasks() {
    const folders = vscode.workspace.workspaceFolders || [undefined];
    const all = folders.flatMap((folder) => Object.keys(TASKS).map((task) => taskOf({ type: 'scoop', task }, folder)));
    return Promise.all(all);
  },
  resolveTask(task) {
    const folder = typeof task.scope === 'object' ? task.scope : (vscode.workspace.workspaceFolders || [])[0];
    return task.definition.task in TASKS ? taskOf(task.definition, folder) : undefined;
  },
};

async function activate(context) {
  context.subscriptions.push(
    vscode.tasks.registerTaskProvider('scoop', tasks),
    vscode.commands.registerCommand('scoop.restart', restart),
    vscode.workspace.onDidChangeConfiguration((change) => (change.affectsConfiguration('scoop') ? restart() : undefined)),
  );
  await start();
}

async function deactivate() {
  await client?.dispose();
}

module.exports = { activate, deactivate };
