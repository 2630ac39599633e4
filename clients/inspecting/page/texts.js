// Texts as the page shows them.

// Characters that cannot be seen, or that change the direction in which their neighbours are read: controls, formats,
// whatever may be left out when a text is drawn, ends of lines and paragraphs, halves of surrogate pairs, and all spaces
// but the plain one. Whoever sees one of these could take a text for another.
const HIDDEN = /[\p{Cc}\p{Cf}\p{Cs}\p{Zl}\p{Zp}\p{Default_Ignorable_Code_Point}\u00a0\u1680\u2000-\u200a\u202f\u205f\u2800\u3000]/gu;

/** A text in which characters that mislead are written as JSON would escape them: `\u202e`. */
export function plain(text) {
  return String(text).replace(HIDDEN, escaped);
}

function escaped(found) {
  return found.split("").map((it) => `\\u${it.charCodeAt(0).toString(16).padStart(4, "0")}`).join("");
}

/** Replaces the contents of an element by a text, or by the texts of several lines. */
export function write(place, text) {
  place.textContent = Array.isArray(text) ? text.map(plain).join("\n") : plain(text);
}
