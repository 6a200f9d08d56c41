// A run: its words, its rows as they come, its end.

import { ask, pieces, post } from './ask.js';
import { told } from './faults.js';
import { $, copy, element, keep, numberIn, quoted } from './hands.js';

// The most bytes of rows that are copied; more are kept as a file.
const MOST_COPIED = 1 << 25;
const CUTS = ['none', '2 x 1', '4 x 1', '8 x 1', '2 x 2', '4 x 2', '4 x 4', '8 x 8'];

/** How a run is asked for by the fields of the page. */
function settings() {
  const cuts = $('cuts').value;
  return {
    ticks: numberIn('ticks', 'ticks'), seed: numberIn('seed', 'seed'),
    every: numberIn('every', 'every'), workers: numberIn('workers', 'workers'),
    cuts: cuts === 'none' ? null : cuts.split(' x ').map(Number),
  };
}

export class Runs {
  /** `faulted` is told the place of a fault, or null where a run begins. */
  constructor(model, world, viewer, faulted) {
    Object.assign(this, { model, world, viewer, faulted, run: null, ticks: 0, script: '' });
    $('cuts').replaceChildren(...CUTS.map(cut => new Option(cut, cut)));
    $('settings').addEventListener('submit', event => {
      event.preventDefault();
      this.start();
    });
    $('stop').addEventListener('click', () => this.stop());
    $('copyRows').addEventListener('click', () => copy('rows', () => this.copyRows()));
    $('keepRows').addEventListener('click', () => keep('rows.csv', this.viewer().rows().slice()));
    $('copyPicture').addEventListener('click', () => copy('picture', () => this.copyPicture()));
    $('copyCommand').addEventListener('click', () =>
      copy('command', () => navigator.clipboard.writeText(this.command())));
  }

  /** Runs the script as it is; a run that goes on is stopped first. */
  async start() {
    let asked;
    try {
      asked = settings();
    } catch (error) {
      this.say(error.message);
      return;
    }
    await this.stop();
    this.begin(asked.ticks);
    try {
      const answer = await post('run', {
        ...asked, name: this.model.name, script: this.script, agents: this.world.text,
      });
      this.run = answer.headers.get('Run');
      $('stop').disabled = false;
      await this.take(answer);
      this.end(await ask('end', { run: this.run }));
    } catch (error) {
      this.end({ status: null, message: error.message });
    }
  }

  begin(ticks) {
    Object.assign(this, { ticks, script: this.model.text });
    this.faulted(null);
    this.say('Running.');
    $('stats').textContent = '';
    $('bar').value = 0;
    $('barText').textContent = '';
    $('run').disabled = true;
    this.viewer().begin(this.model.name, this.script);
  }

  /** Hands the rows over to the viewer, and moves the bar. */
  async take(answer) {
    for await (const piece of pieces(answer)) {
      this.reach(this.viewer().push(piece));
    }
  }

  reach(tick) {
    $('bar').value = this.ticks > 0 ? tick / this.ticks : 1;
    $('barText').textContent = `tick ${tick} of ${this.ticks}`;
  }

  end(ending) {
    const { status, message } = ending;
    this.viewer().finish(status === 0 || status === 7);
    this.run = null;
    $('stop').disabled = true;
    $('run').disabled = false;
    const hasRows = Boolean(this.viewer().rows());
    for (const id of ['copyRows', 'keepRows', 'copyPicture']) $(id).disabled = !hasRows;
    if (status === 0) this.wrote(message);
    else if (status === null) this.say(`The run ended: ${message}.`);
    else this.failed(ending);
  }

  wrote(message) {
    const [, ...counts] = message.split(' ');
    // The last ticks have no rows where nobody is left.
    this.reach(this.ticks);
    this.say('Status 0: all was written.');
    $('stats').textContent = counts.length > 0 ? `stats: ${counts.join(' ')}` : '';
  }

  /** A failure is told with its advice; those at whom a run faulted get rings. */
  failed(ending) {
    const { status, message, agent, outer, inner } = ending;
    $('status').replaceChildren(element('span', `Status ${status}: ${message}`, 'bad'));
    $('stats').replaceChildren(told(ending));
    // The place is one of the script that ran.
    if (this.model.text === this.script) this.faulted(ending);
    if (status === 7) this.viewer().mark([agent, outer, inner].filter(id => id !== null));
  }

  say(what) {
    $('status').textContent = what;
  }

  async stop() {
    if (!this.run) return;
    const { run } = this;
    await ask('stop', { run });
    await ask('end', { run });
    // The run's own hand ends it here, too.
    while (this.run === run) await new Promise(done => setTimeout(done, 20));
  }

  async copyRows() {
    const rows = this.viewer().rows();
    if (rows.size > MOST_COPIED) throw new Error('they are too many; keep them');
    await navigator.clipboard.writeText(await rows.slice().text());
  }

  async copyPicture() {
    const picture = await this.viewer().picture();
    await navigator.clipboard.write([new ClipboardItem({ 'image/png': picture })]);
  }

  /** The command line that does the same; what is only in the page has to be kept first. */
  command() {
    const { ticks, seed, every, workers, cuts } = settings();
    const script = quoted(this.model.path ?? this.model.name);
    const agents = quoted(this.world.path ?? this.world.name);
    const more = [seed ? ` --seed ${seed}` : '', every > 1 ? ` --every ${every}` : '',
      cuts ? ' --cuts cuts.plan' : '', workers > 1 ? ` --workers ${workers}` : ''].join('');
    const plan = cuts ? `tools/cuts.py ${agents} --script ${script} --across ${cuts[0]} `
      + `--up ${cuts[1]} --out cuts.plan && ` : '';
    return `${plan}./brace run --script ${script} --agents ${agents} --ticks ${ticks}${more}`;
  }
}
