// The page: a model is opened, edited, checked as one types, kept; the rest is in the other files.

import { World } from './agents.js';
import { ask, stay } from './ask.js';
import { Grammar } from './colours.js';
import { Editor } from './editor.js';
import { showFault, showWaiting } from './faults.js';
import { $, keep } from './hands.js';
import { Runs } from './runs.js';
import { Panel, sliders, spelled } from './sliders.js';
import { Sweep } from './sweep.js';

// So many milliseconds after the last key the script is checked.
const QUIET = 300;

/** The script of the page, and the file that it came from. */
const model = {
  name: 'model.brasil', opened: '', openedPath: null, was: null, isMine: false, checks: 0,
  get text() { return editor.text; },
  get isChanged() { return editor.text !== this.opened; },
  /** Where a file with this very text is, or null. */
  get path() { return this.isChanged ? null : this.openedPath; },
};
let editor, world, runs, sweep, panel, timer;

const viewer = () => $('viewer').contentWindow.viewer;
const classes = () => $('viewer').contentWindow.readScript(editor.text);

/** Puts a script into the editor, as it was opened. */
function open({ name, script, scriptPath = null, was = null }, isMine) {
  const opened = script.replaceAll('\r\n', '\n');
  Object.assign(model, { name, opened, openedPath: scriptPath, was, isMine });
  editor.text = opened;
}

async function openChosen() {
  const option = $('models').value, [kind, name] = option.split(' ');
  if (!kind) return;
  try {
    const found = await ask('open', { kind, name });
    // Meanwhile another one may have been chosen.
    if ($('models').value !== option) return;
    if (!mayLeave()) {
      $('models').value = model.option ?? '';
      return;
    }
    open(found, kind === 'script');
    model.option = option;
    if (found.agents !== undefined) world.take(found.agents, found.agentsName, found.agentsPath);
    if (found.ticks !== undefined) $('ticks').value = found.ticks;
    showState();
  } catch (error) {
    say(error.message);
  }
}

/** Whether what was written since the script was opened or saved may go. */
function mayLeave() {
  return !model.isChanged || confirm(`${model.name} was changed and not saved. Open another?`);
}

async function openFile(input) {
  const [file] = input.files;
  input.value = '';  // so that the same file can be chosen again
  if (!file) return;
  const name = file.name.replace(/\.\w+$/, '').replace(/[^\w.+-]/g, '_');
  const script = await file.text();
  if (!mayLeave()) return;
  open({ name: `${name || 'model'}.brasil`, script }, false);
  $('models').value = model.option = '';
  showState();
}

/** What is said beside the model's name: where it is from, or what went wrong. */
function say(what) {
  $('modelState').textContent = what;
}

function showState() {
  say(`${model.name}${model.isChanged ? ', changed' : ''}`);
}

/** All that follows the script as it is written. */
function changed() {
  showState();
  panel.show(sliders(editor.text));
  world.showFields();
  sweep.show();
  // What is said of an older text comes too late.
  model.checks++;
  showWaiting();
  clearTimeout(timer);
  timer = setTimeout(check, QUIET);
}

async function check() {
  const mine = ++model.checks;
  try {
    const found = await ask('check', { name: model.name, script: editor.text });
    if (mine !== model.checks) return;
    showFault(found.status === 0 ? null : found);
    editor.mark(found.line ? found : null);
  } catch (error) {
    say(error.message);
  }
}

async function fmt() {
  const { text } = editor, hasComments = /\/\/|\/\*/.test(text);
  if (hasComments && !confirm('Format drops all comments, sliders too. Go on?')) return;
  try {
    const found = await ask('fmt', { name: model.name, script: text });
    // What was written meanwhile stays.
    if (editor.text !== text) return;
    if (found.status === 0) editor.replace(0, text.length, found.text);
    else check();
  } catch (error) {
    say(error.message);
  }
}

/** Saves into the folder given: over the file that was opened, or under a new name. */
async function save() {
  let { name, was } = model;
  if (!model.isMine) {
    name = prompt('Save into the folder given, as', name);
    was = null;
  }
  if (!name) return;
  const script = editor.text, { option } = model;
  try {
    const saved = await ask('save', { name, script, was });
    // Meanwhile another one may have been opened, or this one changed.
    const isOpen = model.option === option;
    if (isOpen) {
      Object.assign(model, {
        name, opened: script, openedPath: saved.scriptPath, was: saved.was, isMine: true,
        option: `script ${name}`,
      });
    }
    await list();
    $('models').value = model.option;
    if (isOpen && !model.isChanged) say(`${name}, saved`);
    else showState();
  } catch (error) {
    say(error.message);
  }
}

/** What there is to open. */
async function list() {
  const found = await ask('models');
  const group = (label, kind, all) => {
    const made = document.createElement('optgroup');
    made.label = label;
    made.append(...all.map(({ name, title }) => new Option(title ?? name, `${kind} ${name}`)));
    return made;
  };
  $('models').replaceChildren(group('Examples', 'example', found.examples));
  if (found.folder !== null) {
    $('models').append(group(found.folder, 'script', found.scripts.map(name => ({ name }))));
  }
  $('save').hidden = found.folder === null;
  world.list(found.tables);
  return found;
}

function showTab(name) {
  for (const tab of document.querySelectorAll('[role="tab"]')) {
    tab.setAttribute('aria-selected', tab.dataset.tab === name);
  }
  for (const tab of document.querySelectorAll('.tab')) tab.hidden = tab.id !== name;
}

/** A fault of a run has the place of its site, which is marked as one of the script. */
function faulted(ending) {
  if (ending?.line) editor.mark(ending);
  else if (ending === null) editor.mark(null);
}

function wire() {
  $('models').addEventListener('change', openChosen);
  $('scriptFile').addEventListener('change', event => openFile(event.target));
  $('save').addEventListener('click', save);
  $('keep').addEventListener('click', () => keep(model.name, new Blob([editor.text])));
  $('fmt').addEventListener('click', fmt);
  for (const tab of document.querySelectorAll('[role="tab"]')) {
    tab.addEventListener('click', () => showTab(tab.dataset.tab));
  }
  document.addEventListener('keydown', event => {
    if (event.key !== 'Enter' || !(event.ctrlKey || event.metaKey)) return;
    event.preventDefault();
    runs.start();
  });
  window.addEventListener('beforeunload', event => {
    if (model.isChanged) event.preventDefault();
  });
}

async function viewerLoaded() {
  while (!viewer()) await new Promise(done => setTimeout(done, 20));
}

async function begin() {
  stay().catch(() => {}).then(() => say('the server of this page has ended'));
  const grammar = new Grammar(await (await fetch('grammar.json')).json());
  await viewerLoaded();
  panel = new Panel($('sliders'), (slider, value) =>
    editor.replace(slider.from, slider.to, spelled(slider, value)));
  editor = new Editor($('editor'), grammar, changed);
  world = new World(classes);
  world.script = () => editor.text;
  runs = new Runs(model, world, viewer, faulted);
  sweep = new Sweep(model, world, classes);
  wire();
  const { processors } = await list();
  $('processes').value = Math.max(1, Math.min(8, processors - 1));
  $('models').value = 'example flock';
  await openChosen();
  document.body.dataset.ready = 'yes';
}

begin();
