// The colours of scripts, by the TextMate grammar that editors take (tools/editors).

/** The rules of a grammar in order, with what they include. */
function* flat(patterns, repository) {
  for (const pattern of patterns) {
    const rule = pattern.include ? repository[pattern.include.slice(1)] : pattern;
    if (rule.patterns) yield* flat(rule.patterns, repository);
    else yield rule;
  }
}

/** A rule with its forms; `next` is its first match from a place on, looked for once. */
class Rule {
  constructor(rule) {
    this.rule = rule;
    this.form = new RegExp(rule.match ?? rule.begin, 'gd');
    this.end = rule.end ? new RegExp(rule.end, 'g') : null;
  }

  begin(text) {
    this.text = text;
    this.next = undefined;
  }

  from(at) {
    if (this.next === null || (this.next && this.next.index >= at)) return this.next;
    this.form.lastIndex = at;
    this.next = this.form.exec(this.text);
    return this.next;
  }

  /** Where a match ends; that of a region goes on to its end. */
  endOf(found) {
    const last = found.index + found[0].length;
    if (!this.end) return last;
    this.end.lastIndex = last;
    return this.end.exec(this.text) ? this.end.lastIndex : this.text.length;
  }

  /** The parts of a match that have a scope. */
  *spans(found) {
    if (this.rule.name) yield [found.index, this.endOf(found), this.rule.name];
    for (const [group, { name }] of Object.entries(this.rule.captures ?? {})) {
      const place = found.indices[group];
      if (place) yield [...place, name];
    }
  }
}

export class Grammar {
  constructor({ patterns, repository }) {
    this.rules = [...flat(patterns, repository)].map(rule => new Rule(rule));
  }

  /** The parts of a text that have a scope, in order: from, to, scope. */
  *spans(text) {
    for (const rule of this.rules) rule.begin(text);
    for (let at = 0; ;) {
      const firsts = this.rules.filter(rule => rule.from(at));
      if (firsts.length === 0) return;
      const first = firsts.reduce((a, b) => b.next.index < a.next.index ? b : a);
      yield* first.spans(first.next);
      at = Math.max(first.endOf(first.next), first.next.index + 1);
    }
  }
}
