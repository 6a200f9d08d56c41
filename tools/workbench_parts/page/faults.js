// What is wrong with the script, and what the pages say of it.

import { $, element, prose } from './hands.js';

/** What one row of docs/TROUBLE.md says: why, and what to write. */
function advice({ wrong, why, write }) {
  const made = document.createElement('li');
  if (why) made.append(prose(`${why}. `));
  if (write.includes('`')) made.append('Write ', prose(write));
  else made.append('Write ', element('code', write));
  if (wrong) made.append(' in place of ', element('code', wrong));
  return made;
}

/** The lines that tell a failure, as the server answers it. */
export function told({ message, line, column, advice: { kind, what, slips } }) {
  const made = document.createDocumentFragment();
  const head = element('div');
  if (line) head.append(element('b', `${line}:${column} ${kind}`));
  else head.append(element('b', message));
  if (what) head.append(': ', prose(what));
  made.append(head);
  if (slips.length > 0) {
    const list = document.createElement('ul');
    list.append(...slips.map(advice));
    made.append(list);
  }
  return made;
}

/** Shows that the script is not checked yet. */
export function showWaiting() {
  $('fault').className = '';
  $('fault').replaceChildren(element('span', 'Checking.', 'hint'));
}

/** Shows what `check` answered, or that the script is accepted. */
export function showFault(failure) {
  $('fault').className = failure ? 'is-bad' : '';
  $('fault').replaceChildren(failure ? told(failure) : element('span', 'Accepted.', 'hint'));
}
