// Elements of the page and of pictures, made by calls: no text is ever read as markup.

const SVG = "http://www.w3.org/2000/svg";

function filled(element, attributes, children) {
  for (const [name, value] of Object.entries(attributes)) {
    if (name.startsWith("on")) element.addEventListener(name.slice(2), value);
    else if (value === true) element.setAttribute(name, "");
    else if (value !== false && value !== null && value !== undefined) element.setAttribute(name, value);
  }
  element.append(...children.filter((it) => it !== null && it !== undefined));
  return element;
}

/** An element of the page with its attributes (those that begin with `on` are called) and what stands in it. */
export function make(tag, attributes = {}, ...children) {
  return filled(document.createElement(tag), attributes, children);
}

/** An element of a picture. */
export function draw(tag, attributes = {}, ...children) {
  return filled(document.createElementNS(SVG, tag), attributes, children);
}

/** A text whose control characters are shown by a sign. */
export function visible(text) {
  return text.replace(/[\u0000-\u0008\u000b-\u001f\u007f-\u009f\u2028\u2029\u202a-\u202e\u2066-\u2069\ud800-\udfff]/g,
    (it, place, whole) => isPair(whole, place) ? it : "\ufffd");
}

function isPair(text, place) {
  const code = text.charCodeAt(place);
  const other = text.charCodeAt(code < 0xdc00 ? place + 1 : place - 1);
  return code >= 0xd800 && code <= 0xdfff && (code < 0xdc00 ? other >= 0xdc00 && other <= 0xdfff
    : other >= 0xd800 && other <= 0xdbff);
}
