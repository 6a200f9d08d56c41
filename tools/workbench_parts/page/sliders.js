// Sliders: a comment `/*@ name least greatest step */` before a number of the script.

const NUMBER = '-?\\d+(?:\\.\\d{1,6})?';
const COMMENT = new RegExp(`/\\*@\\s+([A-Za-z_]\\w*)\\s+(${NUMBER})\\s+(${NUMBER})\\s+(${NUMBER})`
  + `\\s*\\*/\\s*(${NUMBER})`, 'g');

const decimals = spelled => (spelled.split('.')[1] ?? '').length;

/** A slider of its comment and number, in whole counts of its last decimal, or null. */
function made(found) {
  const [all, name, least, greatest, step, value] = found, isFixed = value.includes('.');
  const places = Math.max(isFixed ? 1 : 0, ...[least, greatest, step].map(decimals));
  const count = spelled => Math.round(Number(spelled) * 10 ** places);
  const slider = {
    name, places, least: count(least), greatest: count(greatest), step: count(step),
    value: Number(value) * 10 ** places, to: found.index + all.length,
    from: found.index + all.length - value.length,
  };
  const isOne = slider.least < slider.greatest && slider.step > 0 && (isFixed || places === 0);
  return isOne ? slider : null;
}

/** The sliders of a script, in order. */
export function sliders(text) {
  return [...text.matchAll(COMMENT)].map(made).filter(Boolean);
}

/** The text of a slider's value, as the script has it. */
export function spelled(slider, value) {
  return (value / 10 ** slider.places).toFixed(slider.places);
}

/** All values of a slider. */
export function values(slider) {
  const count = Math.floor((slider.greatest - slider.least) / slider.step) + 1;
  return Array.from({ length: count }, (_, i) => slider.least + i * slider.step);
}

/** A script with another value of one of its sliders. */
export function withValue(text, slider, value) {
  return text.slice(0, slider.from) + spelled(slider, value) + text.slice(slider.to);
}

/** The panel of the sliders; `moved` is called with a slider and its new value. */
export class Panel {
  constructor(root, moved) {
    Object.assign(this, { root, moved, names: null, rows: [] });
  }

  /** Shows these sliders; rows stay where they are the same, so that a hand can go on. */
  show(found) {
    const key = JSON.stringify(found.map(({ name, least, greatest, step, places }) =>
      [name, least, greatest, step, places]));
    this.found = found;
    if (key !== this.key) this.make(found);
    this.key = key;
    found.forEach((slider, i) => {
      this.rows[i].input.value = slider.value;
      this.rows[i].output.textContent = spelled(slider, slider.value);
    });
  }

  make(found) {
    this.root.hidden = found.length === 0;
    this.rows = found.map((slider, i) => this.row(slider, i));
    this.root.replaceChildren(...this.rows.map(({ label }) => label));
  }

  row({ name, least, greatest, step }, i) {
    const label = document.createElement('label'), input = document.createElement('input');
    const output = document.createElement('output');
    Object.assign(input, { type: 'range', min: least, max: greatest, step });
    input.addEventListener('input', () => this.moved(this.found[i], Number(input.value)));
    label.append(name, input, output);
    return { label, input, output };
  }
}
