/* parts.js: what the page and the live map share: the names of the library, and parts of a document. */
"use strict";

const { load, AirHead, GroundHead, BEYOND_RANGE, TOO_FAST, Code, Format, Kind, Unit, What } = squitterModule();

/** Returns the element with an id. @returns {any} */
const byId = (id) => document.getElementById(id);

/**
 * An element with attributes and children, which may be texts.
 * @param {string} name
 * @param {Record<string, any>} [attributes]
 * @param {...(Node | string)} children
 */
function element(name, attributes = {}, ...children) {
  const made = document.createElement(name);
  for (const [key, value] of Object.entries(attributes)) made.setAttribute(key, String(value));
  made.append(...children);
  return made;
}

const hexadecimal = (number, digits) => number.toString(16).toUpperCase().padStart(digits, "0");
