// The editor: a text area whose text is transparent, over the same text in colours.

// Longer scripts have no colours.
const MOST_COLOURED = 200000;

/** The place in a text that is told by its line, and its column in bytes. */
export function placeOf(text, line, column) {
  const lines = text.split('\n'), before = lines.slice(0, line - 1).join('\n').length;
  const bytes = new TextEncoder().encode(lines[line - 1] ?? '').subarray(0, column - 1);
  return before + (line > 1 ? 1 : 0) + new TextDecoder().decode(bytes).length;
}

/** Where the token at a place ends. */
function tokenEnd(text, place) {
  const found = /\w+|<-|[<>=!]=|&&|\|\||\S/y;
  found.lastIndex = place;
  return found.test(text) ? found.lastIndex : place;
}

/** The whole of a text in spans, those without a scope too, cut at two places. */
function* cut(text, spans, from, to) {
  let at = 0;
  function* part(first, last, scope) {
    const edges = [first, ...[from, to].filter(edge => edge > first && edge < last), last];
    for (let i = 1; i < edges.length; i++) yield [edges[i - 1], edges[i], scope];
  }
  for (const [first, last, scope] of spans) {
    if (first > at) yield* part(at, first, '');
    yield* part(Math.max(at, first), last, scope);
    at = Math.max(at, last);
  }
  if (at < text.length) yield* part(at, text.length, '');
}

export class Editor {
  /** `changed` is called when the text is another one, by whatever hand. */
  constructor(root, grammar, changed) {
    this.area = root.querySelector('textarea');
    this.paper = root.querySelector('pre');
    this.gutter = root.querySelector('.gutter');
    this.grammar = grammar;
    this.changed = changed;
    this.fault = null;
    this.area.addEventListener('input', () => this.take());
    this.area.addEventListener('scroll', () => this.scroll());
    this.area.addEventListener('keydown', event => this.key(event));
  }

  get text() {
    return this.area.value;
  }

  set text(text) {
    this.area.value = text;
    this.area.scrollTop = this.area.scrollLeft = 0;
    this.take();
  }

  /** Puts a text in the place of a part. */
  replace(from, to, text) {
    this.area.setRangeText(text, from, to);
    this.take();
  }

  take() {
    this.fault = null;
    this.paint();
    this.changed();
  }

  /** Marks the token at a place, or takes the mark away. */
  mark(fault) {
    this.fault = fault;
    this.paint();
  }

  scroll() {
    const { scrollLeft, scrollTop } = this.area;
    this.paper.style.transform = `translate(${-scrollLeft}px, ${-scrollTop}px)`;
    this.gutter.style.transform = `translateY(${-scrollTop}px)`;
  }

  paint() {
    const { text, fault } = this, from = fault ? placeOf(text, fault.line, fault.column) : -1;
    const to = from < 0 ? -1 : tokenEnd(text, from), fragment = document.createDocumentFragment();
    const spans = text.length > MOST_COLOURED ? [] : this.grammar.spans(text);
    for (const [first, last, scope] of cut(text, spans, from, to)) {
      const isFault = first >= from && last <= to && from >= 0;
      fragment.append(piece(text.slice(first, last), scope, isFault));
    }
    if (from >= 0 && from === to) fragment.append(piece(' ', '', true));
    this.paper.replaceChildren(fragment);
    this.number();
    this.scroll();
  }

  /** The numbers of the lines, that of the fault marked. */
  number() {
    const count = this.text.split('\n').length, line = this.fault?.line ?? 0;
    const numbers = (first, last) => Array.from({ length: Math.max(0, last - first + 1) },
      (_, i) => first + i).join('\n');
    if (line < 1 || line > count) {
      this.gutter.textContent = numbers(1, count);
      return;
    }
    const bold = document.createElement('b');
    bold.textContent = line;
    this.gutter.replaceChildren(numbers(1, line - 1), line > 1 ? '\n' : '', bold,
      line < count ? '\n' : '', numbers(line + 1, count));
  }

  /** Tab writes two blanks, and Enter the blanks that the line begins with; Escape leaves. */
  key(event) {
    const before = this.text.slice(0, this.area.selectionStart), line = before.split('\n').pop();
    const typed = { Tab: '  ', Enter: `\n${/^ */.exec(line)[0]}` }[event.key];
    if (event.key === 'Escape') this.area.blur();
    if (!typed || event.shiftKey || event.ctrlKey || event.metaKey || event.altKey) return;
    event.preventDefault();
    // The one way that keeps what can be undone.
    document.execCommand('insertText', false, typed);
  }
}

/** A part of the text in its colour. */
function piece(text, scope, isFault) {
  if (!scope && !isFault) return text;
  const made = document.createElement('span');
  made.dataset.scope = scope;
  if (isFault) made.className = 'fault';
  made.textContent = text;
  return made;
}
