// The document itself. Only this module, draw.js and page.js touch it.

export const $ = (id) => document.getElementById(id);

// Sets the HTML of an element only where it changes, so that focus and scrolling stay.
export function set_html(element, html) {
  if (element.shown_html === html) return false;
  element.shown_html = html;
  element.innerHTML = html;
  return true;
}

// Saves bytes as a file.
export function download({ name, bytes, type }) {
  const at = URL.createObjectURL(new Blob([bytes], { type })), link = document.createElement('a');
  link.href = at;
  link.download = name;
  link.click();
  setTimeout(() => URL.revokeObjectURL(at), 1000);
}
