// The session of tests/vscode: node vscode.js FOLDER, a folder with the files of a system and the program in `bin`.
// In place of VS Code and of its client of language servers there are the parts of them that the extension uses.
'use strict';

const child = require('child_process');
const fs = require('fs');
const Module = require('module');
const path = require('path');
const { pathToFileURL } = require('url');

const folder = fs.realpathSync(process.argv[2]);
const extension = path.join(__dirname, '..', 'editors', 'vscode');
const manifest = JSON.parse(fs.readFileSync(path.join(extension, 'package.json')));
const settings = { program: path.join(folder, 'bin', 'scoop'), files: [] };
const workspaceFolder = { uri: { fsPath: folder }, name: 'system', index: 0 };
const registered = { commands: {}, providers: {} };
const clients = [];
let compared = 0;
let wrong = 0;

function compare(what, found, wanted) {
  compared += 1;
  if (JSON.stringify(found) !== JSON.stringify(wanted)) {
    wrong += 1;
    console.log(`${what}: ${JSON.stringify(found)}, not ${JSON.stringify(wanted)}`);
  }
}

/** A client that starts the server and keeps what it shows. */
class LanguageClient {
  constructor(id, name, server, options) {
    Object.assign(this, { server, options, shown: {}, waiting: {}, asked: 0, held: Buffer.alloc(0) });
    clients.push(this);
  }

  send(message) {
    const body = JSON.stringify({ jsonrpc: '2.0', ...message });
    this.process.stdin.write(`Content-Length: ${Buffer.byteLength(body)}\r\n\r\n${body}`);
  }

  ask(method, params) {
    this.asked += 1;
    const id = this.asked;
    this.send({ id, method, params });
    return new Promise((resolve) => {
      this.waiting[id] = resolve;
    });
  }

  take(bytes) {
    this.held = Buffer.concat([this.held, bytes]);
    for (;;) {
      const head = /^Content-Length: (\d+)\r\n\r\n/.exec(this.held.toString('latin1'));
      const end = head ? head[0].length + Number(head[1]) : Infinity;
      if (this.held.length < end) {
        return;
      }
      const message = JSON.parse(this.held.subarray(head[0].length, end));
      this.held = this.held.subarray(end);
      if (message.method === 'textDocument/publishDiagnostics') {
        this.shown[path.basename(message.params.uri)] = message.params.diagnostics;
      } else {
        this.waiting[message.id](message.result);
      }
    }
  }

  async start() {
    this.process = child.spawn(this.server.command, this.server.args, { cwd: folder, stdio: ['pipe', 'pipe', 'inherit'] });
    this.process.stdout.on('data', (bytes) => this.take(bytes));
    const { initializationOptions } = this.options;
    await this.ask('initialize', { capabilities: {}, rootUri: pathToFileURL(folder).href, initializationOptions });
    this.send({ method: 'initialized', params: {} });
  }

  open(name) {
    const text = fs.readFileSync(path.join(folder, name), 'utf8');
    const uri = pathToFileURL(path.join(folder, name)).href;
    this.send({ method: 'textDocument/didOpen', params: { textDocument: { uri, languageId: 'scoop', version: 1, text } } });
    return this.ask('textDocument/foldingRange', { textDocument: { uri } });
  }

  async dispose() {
    await this.ask('shutdown');
    this.send({ method: 'exit' });
    this.status = await new Promise((resolve) => {
      this.process.on('exit', resolve);
    });
  }
}

const vscode = {
  workspace: {
    workspaceFolders: [workspaceFolder],
    getConfiguration: () => ({ get: (name) => settings[name] }),
    findFiles: async (pattern) => fs.readdirSync(folder).filter((it) => it.endsWith(pattern.pattern.replace('*', '')))
      .map((it) => ({ fsPath: path.join(folder, it) })),
    onDidChangeConfiguration: (listener) => Object.assign(registered, { listener }),
  },
  tasks: { registerTaskProvider: (type, provider) => Object.assign(registered.providers, { [type]: provider }) },
  commands: { registerCommand: (name, command) => Object.assign(registered.commands, { [name]: command }) },
  RelativePattern: class {
    constructor(base, pattern) {
      Object.assign(this, { base, pattern });
    }
  },
  ProcessExecution: class {
    constructor(program, words, options) {
      Object.assign(this, { program, words, options });
    }
  },
  Task: class {
    constructor(definition, scope, name, source, execution, matchers) {
      Object.assign(this, { definition, scope, name, source, execution, matchers });
    }
  },
  TaskScope: { Workspace: 2 },
  TaskGroup: { Build: 'build', Test: 'test' },
};

/** What the problem matchers of a task find in what it prints. */
function problems(task, printed) {
  const found = [];
  for (const matcher of task.matchers) {
    const { pattern, severity } = manifest.contributes.problemMatchers.find((it) => `$${it.name}` === matcher);
    const form = manifest.contributes.problemPatterns.find((it) => `$${it.name}` === pattern);
    for (const line of printed.split('\n')) {
      const match = new RegExp(form.regexp).exec(line);
      if (match) {
        found.push([severity, match[form.code] || '', match[form.message], path.basename(match[form.file]), match[form.line], match[form.column]]);
      }
    }
  }
  return found;
}

function runTask(task) {
  const words = task.execution.words.map((it) => it.replace('${file}', path.join(folder, 'app.e')));
  const done = child.spawnSync(task.execution.program, words, { cwd: task.execution.options.cwd, encoding: 'utf8' });
  return { status: done.status, problems: problems(task, done.stdout + done.stderr) };
}

async function main() {
  const load = Module._load;
  const stubs = { vscode, 'vscode-languageclient/node': { LanguageClient } };
  Module._load = (name, ...rest) => stubs[name] || load(name, ...rest);
  const { activate, deactivate } = require(path.join(extension, manifest.main));
  const subscriptions = [];
  await activate({ subscriptions });

  await clients[0].open('app.e');
  const shown = (clients[0].shown['app.e'] || []).map((it) => [it.code, it.range.start.line, it.range.start.character]);
  compare('one file of two', shown, [['V1', 2, 7], ['V1', 7, 15], [undefined, 5, 3]]);
  settings.files = ['*.e'];
  await registered.listener({ affectsConfiguration: (name) => name === 'scoop' });
  compare('the first server after a change of the settings', clients[0].status, 0);
  compare('the files that are named', clients[1].options.initializationOptions.files.map((it) => path.basename(it)), ['app.e', 'cell.e']);
  await clients[1].open('app.e');
  const all = clients[1].shown['app.e'].map((it) => [it.code, it.severity, it.range.start.line]);
  compare('the system', all, [['V1', 1, 7], [undefined, 2, 5]]);
  await registered.commands['scoop.restart']();
  compare('servers that were started', clients.length, 3);

  const tasks = await registered.providers.scoop.provideTasks();
  compare('the tasks', tasks.map((it) => it.name), manifest.contributes.taskDefinitions[0].properties.task.enum);
  const [check, , format] = tasks;
  const { status, problems: found } = runTask(check);
  compare('the status of check', status, 1);
  compare('the problems of check', found, [['error', 'V1', 'UnknownName', 'app.e', '8', '16'], ['warning', '', 'this local is never read', 'app.e', '6', '4']]);
  compare('the status of format', runTask(format).status, 0);
  compare('the layout', fs.readFileSync(path.join(folder, 'cell.e'), 'utf8'), 'class CELL\nend\n');
  const resolved = await registered.providers.scoop.resolveTask({ definition: { type: 'scoop', task: 'test', arguments: ['--search'] }, scope: workspaceFolder });
  compare('the words of a task with options', resolved.execution.words.slice(0, 2), ['test', '--search']);
  compare('another task', registered.providers.scoop.resolveTask({ definition: { type: 'scoop', task: 'none' }, scope: workspaceFolder }), undefined);
  const commands = manifest.contributes.commands.map((it) => it.command);
  compare('the commands', Object.keys(registered.commands), commands);
  await deactivate();
  compare('the last server', clients[2].status, 0);
  console.log(`vscode: ${compared} answers compared, ${wrong} of them wrong`);
}

main().catch((error) => {
  console.log(error);
  process.exit(1);
});
