// Small hands that several pieces of the page need.

export const $ = id => document.getElementById(id);

/** An element with a text and a class. */
export function element(tag, text = '', name = '') {
  const made = document.createElement(tag);
  made.textContent = text;
  made.className = name;
  return made;
}

/** Text in which what stands between backquotes is code. */
export function prose(text) {
  const made = document.createDocumentFragment();
  text.split('`').forEach((part, i) => made.append(i % 2 ? element('code', part) : part));
  return made;
}

/** Hands a file to the browser, which keeps it where it keeps what is loaded down. */
export function keep(name, blob) {
  const link = document.createElement('a');
  link.href = URL.createObjectURL(blob);
  link.download = name;
  link.click();
  setTimeout(() => URL.revokeObjectURL(link.href), 60000);
}

/** Shows for a while that something was copied, or that it could not be. */
export async function copy(what, write) {
  const told = $('copied');
  try {
    await write();
    told.textContent = `${what} copied`;
  } catch (error) {
    told.textContent = `${what} not copied: ${error.message}`;
  }
  clearTimeout(copy.timer);
  copy.timer = setTimeout(() => { told.textContent = ''; }, 6000);
}

/** A number for the eye: about six digits. */
export function brief(number) {
  return Number.isFinite(number) ? String(+number.toPrecision(6)) : '–';
}

/** A word as a shell reads it. */
export function quoted(word) {
  return /^[\w./:=@%+-]+$/.test(word) ? word : `'${word.replaceAll("'", "'\\''")}'`;
}

/** The whole number in a field, or an error that names it. */
export function numberIn(id, what) {
  const field = $(id), number = Number(field.value);
  const most = field.max === '' ? Number.MAX_SAFE_INTEGER : Number(field.max);
  const isWhole = field.value !== '' && Number.isInteger(number);
  if (!isWhole || number < Number(field.min) || number > most) {
    throw new Error(`${what} is a whole number from ${field.min} to ${most}`);
  }
  return number;
}
