// The agents that a run begins with: of a file, or made of a line of values a state.

import { ask } from './ask.js';
import { $, element, keep } from './hands.js';

const SHOWN_LINES = 8;
const AREA = ['left', 'low', 'right', 'top'];

export class World {
  /** `classes` answers those of the script as it is. */
  constructor(classes) {
    Object.assign(this, { classes, text: '', name: 'agents.csv', path: null, shape: '' });
    $('agentsFile').addEventListener('change', event => this.choose(event.target));
    $('tables').addEventListener('change', () => this.openTable($('tables').value));
    $('keepAgents').addEventListener('click', () => keep(this.name, new Blob([this.text])));
    $('makeAgents').addEventListener('click', () => this.make());
  }

  /** Takes the text of an agent file; `path` is where it is, or null where it is only here. */
  take(text, name, path = null) {
    Object.assign(this, { text, name, path });
    const lines = text.split('\n'), count = lines.filter(line => line.trim()).length;
    $('worldName').textContent = `${path ?? `${name}, in this page alone`}: ${count} agents`;
    $('worldHead').textContent = lines.slice(0, SHOWN_LINES).join('\n')
      + (count > SHOWN_LINES ? '\n..' : '');
    this.say('');
  }

  say(what) {
    $('agentsFault').textContent = what;
  }

  async choose(input) {
    const [file] = input.files;
    input.value = '';  // so that the same file can be chosen again
    if (file) this.take(await file.text(), file.name.replace(/[^\w.+-]/g, '_'));
  }

  /** The agent files of the folder given, to be chosen of. */
  list(names) {
    const select = $('tables');
    select.hidden = names.length === 0;
    select.replaceChildren(new Option('of the folder ..', ''),
      ...names.map(name => new Option(name, name)));
  }

  async openTable(name) {
    if (!name) return;
    try {
      const { agents, agentsName, agentsPath } = await ask('open', { kind: 'table', name });
      this.take(agents, agentsName, agentsPath);
    } catch (error) {
      this.say(error.message);
    }
    $('tables').value = '';
  }

  /** Fields for each class of the script; what was written in them stays. */
  showFields() {
    const classes = this.classes(), shape = JSON.stringify(classes);
    if (shape === this.shape) return;
    this.shape = shape;
    const kept = new Map([...document.querySelectorAll('#crowds input')]
      .map(input => [input.dataset.field, input.value]));
    $('crowds').replaceChildren(...classes.map(({ name, states }, i) => crowd(name, states, i)));
    for (const input of document.querySelectorAll('#crowds input')) {
      input.value = kept.get(input.dataset.field) ?? input.value;
    }
  }

  /** What the fields ask for, a crowd a class. */
  crowds() {
    const value = field => document.querySelector(`#crowds [data-field="${field}"]`).value;
    return this.classes().map(({ name, states }) => ({
      class: name,
      count: Number(value(`${name} count`)),
      area: AREA.map(side => Number(value(`${name} ${side}`))),
      values: Object.fromEntries(lined(states).map(state =>
        [state.name, value(`${name}.${state.name}`)])),
    }));
  }

  async make() {
    try {
      const { agents } = await ask('agents', {
        script: this.script(), crowds: this.crowds(), seed: Number($('agentsSeed').value),
      });
      this.take(agents, 'agents.csv');
    } catch (error) {
      this.say(error.message);
    }
  }
}

/** The states that have a line of values: all but the place, which is drawn in the area. */
const lined = states => states.filter(({ name }) => name !== 'x' && name !== 'y');

function field(label, name, value, type = 'text') {
  const made = element('label', label), input = document.createElement('input');
  Object.assign(input, { type, value });
  input.dataset.field = name;
  made.append(input);
  return made;
}

/** The fields of a class: how many, where, and a line a state. */
function crowd(name, states, number) {
  const made = document.createElement('fieldset'), area = element('span', '', 'area');
  const sides = [0, 0, 40, 40];
  AREA.forEach((side, i) => {
    const [input] = field('', `${name} ${side}`, sides[i], 'number').children;
    Object.assign(input, { title: side, step: 'any' });
    area.append(input);
  });
  const areaLabel = element('label', 'area');
  areaLabel.title = 'left, low, right and top';
  areaLabel.append(area);
  made.append(element('legend', name), field('count', `${name} count`, number ? 0 : 100, 'number'),
    areaLabel, ...lined(states).map(state =>
      field(`${state.name} (${state.type})`, `${name}.${state.name}`,
        state.type === 'bool' ? 'false' : '0')));
  return made;
}
