// A sweep: all values of a slider under some seeds, and a line a value of a column's mean.

import { ask, lines, post } from './ask.js';
import { $, brief, copy, element, numberIn } from './hands.js';
import { sliders, spelled, values, withValue } from './sliders.js';

const COLOURS = ['#2f7ed8', '#e07b1a', '#2a9d60', '#c9408c', '#8a63d2', '#c4483a', '#1f9eab',
  '#8f8a2c'];
const MOST_VALUES = 50;
// What is left free about the plot for its texts.
const LEFT = 8, TOP = 18, BOTTOM = 22;

/** The mean of some runs' means of a column, tick by tick; agents that are no more have none. */
function meanOf(runs, kind, column) {
  const sums = new Map();
  for (const { classes } of runs) {
    const { ticks, count, means } = classes[kind] ?? { ticks: [], count: [], means: {} };
    ticks.forEach((tick, i) => {
      const [number, sum] = sums.get(tick) ?? [0, 0];
      sums.set(tick, [number + 1, sum + (column ? means[column][i] : count[i])]);
    });
  }
  return [...sums].sort(([a], [b]) => a - b).map(([tick, [number, sum]]) => [tick, sum / number]);
}

export class Sweep {
  constructor(model, world, classes) {
    Object.assign(this, { model, world, classes, stopper: null, runs: [], labels: [] });
    $('sweepRun').addEventListener('click', () => this.start());
    $('sweepStop').addEventListener('click', () => this.stopper?.abort());
    $('column').addEventListener('change', () => this.draw());
    $('copyLines').addEventListener('click', () =>
      copy('table', () => navigator.clipboard.writeText(this.table())));
    new ResizeObserver(() => this.draw()).observe($('lines'));
  }

  /** The sliders and columns of the script as it is. */
  show() {
    const found = sliders(this.model.text), chosen = $('swept').value;
    $('swept').replaceChildren(...found.map((slider, i) =>
      new Option(`${slider.name} (${values(slider).length} values)`, i)));
    if (found[chosen]) $('swept').value = chosen;
    $('sweepRun').disabled = found.length === 0 || this.stopper !== null;
    const columns = this.classes().flatMap(({ name, states }) => [
      new Option(`number of ${name}`, `${name} `),
      ...states.map(state => new Option(`${name}.${state.name}`, `${name} ${state.name}`)),
    ]);
    const kept = $('column').value;
    $('column').replaceChildren(...columns);
    if (columns.some(({ value }) => value === kept)) $('column').value = kept;
  }

  /** What the fields ask for: a script a value, and the seeds. */
  asked() {
    const slider = sliders(this.model.text)[$('swept').value], all = values(slider);
    if (all.length > MOST_VALUES) {
      throw new Error(`${slider.name} has more than ${MOST_VALUES} values`);
    }
    const first = numberIn('seed', 'seed'), count = numberIn('seeds', 'seeds');
    this.labels = all.map(value => `${slider.name} ${spelled(slider, value)}`);
    return {
      name: this.model.name, agents: this.world.text, ticks: numberIn('ticks', 'ticks'),
      every: numberIn('every', 'every'), cuts: null, processes: numberIn('processes', 'at once'),
      scripts: all.map(value => withValue(this.model.text, slider, value)),
      seeds: Array.from({ length: count }, (_, i) => first + i),
    };
  }

  async start() {
    let asked;
    try {
      asked = this.asked();
    } catch (error) {
      this.say(error.message);
      return;
    }
    this.runs = [];
    this.begin(new AbortController());
    const count = asked.scripts.length * asked.seeds.length;
    try {
      const answer = await post('sweep', asked, this.stopper.signal);
      for await (const line of lines(answer)) this.take(JSON.parse(line), count);
      this.say(this.summary(count));
    } catch (error) {
      const isStopped = error.name === 'AbortError';
      this.say(isStopped ? `Stopped after ${this.runs.length} runs.` : error.message);
    }
    this.begin(null);
  }

  begin(stopper) {
    this.stopper = stopper;
    $('sweepRun').disabled = Boolean(stopper);
    $('sweepStop').disabled = !stopper;
    $('copyLines').disabled = this.runs.length === 0;
  }

  take(run, count) {
    this.runs.push(run);
    $('sweepBar').value = this.runs.length / count;
    this.say(`${this.runs.length} of ${count} runs`);
    this.draw();
  }

  /** How the runs ended; rows before a fault count. */
  summary(count) {
    const failed = this.runs.filter(({ status }) => status !== 0);
    if (failed.length === 0) return `All ${count} runs ended with status 0.`;
    const { script, seed, message } = failed[0];
    return `${failed.length} of ${count} runs failed, the first at ${this.labels[script]}, seed `
      + `${seed}: ${message}`;
  }

  say(what) {
    $('sweepState').textContent = what;
  }

  /** A line a value that some run has ended of: its label, its colour and its points. */
  drawn() {
    const [kind, column] = $('column').value.split(' ');
    return this.labels.map((label, i) => ({
      label, colour: COLOURS[i % COLOURS.length], isDashed: i >= COLOURS.length,
      points: meanOf(this.runs.filter(run => run.script === i && run.classes), kind, column),
    })).filter(({ points }) => points.length > 0);
  }

  draw() {
    const canvas = $('lines'), width = canvas.clientWidth, height = canvas.clientHeight;
    const ratio = window.devicePixelRatio || 1, pen = canvas.getContext('2d'), all = this.drawn();
    Object.assign(canvas, { width: Math.round(width * ratio), height: Math.round(height * ratio) });
    pen.scale(ratio, ratio);
    if (all.length > 0) this.plot(pen, all, width, height);
    $('lineNames').replaceChildren(...this.names(all));
  }

  plot(pen, all, width, height) {
    const style = getComputedStyle(document.documentElement);
    const points = all.flatMap(({ points: each }) => each);
    const [first, last] = ends(points.map(([tick]) => tick));
    const [low, top] = ends(points.map(([, value]) => value));
    const x = tick => LEFT + (tick - first) / (last - first || 1) * (width - 2 * LEFT);
    const y = value => height - BOTTOM - (value - low) / (top - low || 1) * (height - TOP - BOTTOM);
    pen.font = '12px system-ui, sans-serif';
    pen.fillStyle = style.getPropertyValue('--faint');
    pen.strokeStyle = style.getPropertyValue('--line');
    pen.strokeRect(LEFT - 0.5, TOP - 0.5, width - 2 * LEFT + 1, height - TOP - BOTTOM + 1);
    pen.fillText(brief(top), LEFT, TOP - 5);
    pen.fillText(brief(low), LEFT, height - 6);
    const text = `ticks ${first} to ${last}`;
    pen.fillText(text, width - LEFT - pen.measureText(text).width, height - 6);
    for (const { colour, isDashed, points: each } of all) {
      pen.strokeStyle = colour;
      pen.lineWidth = 2;
      pen.setLineDash(isDashed ? [6, 4] : []);
      pen.beginPath();
      for (const [tick, value] of each) pen.lineTo(x(tick), y(value));
      pen.stroke();
    }
  }

  /** The legend: what each line is, and where it ends. */
  names(all) {
    return all.map(({ label, colour, points }) => {
      const row = element('tr'), name = element('td'), mark = element('span', '', 'swatch');
      mark.style.background = colour;
      name.append(mark, label);
      row.append(name, element('td', `${brief(points[points.length - 1][1])} at tick `
        + `${points[points.length - 1][0]}`));
      return row;
    });
  }

  /** The lines as CSV: a row a tick, a column a value. */
  table() {
    const all = this.drawn().map(({ label, points }) => ({ label, at: new Map(points) }));
    const ticks = [...new Set(all.flatMap(({ at }) => [...at.keys()]))].sort((a, b) => a - b);
    return [['tick', ...all.map(({ label }) => label)],
      ...ticks.map(tick => [tick, ...all.map(({ at }) => at.get(tick) ?? '')])]
      .map(row => `${row.join(',')}\n`).join('');
  }
}

function ends(numbers) {
  return [numbers.reduce((a, b) => Math.min(a, b)), numbers.reduce((a, b) => Math.max(a, b))];
}
