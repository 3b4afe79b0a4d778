// Helpers of what is drawn, as text.

export const escaped = (text) =>
  String(text).replace(/[&<>"]/g, (it) => ({ '&': '&amp;', '<': '&lt;', '>': '&gt;', '"': '&quot;' }[it]));
// What of HTML is to be read.
export function plain(html) {
  const text = html.replace(/<[^>]+>/g, '').replace(/&nbsp;/g, ' ');
  return text.replace(/&lt;/g, '<').replace(/&gt;/g, '>').replace(/&quot;/g, '"').replace(/&amp;/g, '&');
}
export const hexadecimal = (address) => `0x${Number(address).toString(16).padStart(4, '0')}`;
