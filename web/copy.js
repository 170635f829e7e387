/* copy.js: buttons that copy a text. */
"use strict";

/** How long a button says that its text is copied (ms). */
const COPIED_FOR = 2000;

/** Copies a text. If the browser refuses the clipboard, a selection is copied, as by hand. Returns whether it worked.
 * @returns {Promise<boolean>} */
async function copyText(text) {
  try {
    await navigator.clipboard.writeText(text);
    return true;
  } catch {
    const field = element("textarea", { readonly: "", class: "away", "aria-hidden": "true", tabindex: -1 });
    const focused = /** @type {HTMLElement | null} */ (document.activeElement);
    field.value = text;
    document.body.append(field);
    field.select();
    const isCopied = document.execCommand("copy");
    field.remove();
    focused?.focus();
    return isCopied;
  }
}

/** Selects the text of an element, for the reader to copy. */
function selectText(node) {
  const range = document.createRange();
  range.selectNodeContents(node);
  getSelection()?.removeAllRanges();
  getSelection()?.addRange(range);
}

/** Returns a button that copies the text of an element, or another one that the element shows only if the browser
 * refuses. Then the button selects the text. */
function copyButton(node, what, name = "Copy", textOf = null) {
  const button = element("button", { type: "button", class: "copy" });
  // The name for screen readers begins with the text, and changes with it.
  const say = (text, more) => {
    button.textContent = text;
    button.setAttribute("aria-label", `${text} ${more}`);
  };
  say(name, what);
  button.addEventListener("click", async () => {
    const text = textOf?.() ?? node.textContent, isCopied = await copyText(text);
    if (!isCopied && textOf) node.textContent = text;
    if (!isCopied) selectText(node);
    say(isCopied ? "Copied" : "Press Ctrl+C", isCopied ? what : `to copy ${what}`);
    setTimeout(() => say(name, what), COPIED_FOR);
  });
  return button;
}

/** Returns buttons that copy texts which the page does not show, each with its name and what it copies.
 * @param {[string, string, () => string][]} buttons */
function copyRow(buttons) {
  const shown = element("code", { class: "copied" });
  const made = buttons.map(([name, what, textOf]) => copyButton(shown, what, name, textOf));
  return element("p", { class: "examples" }, ...made, shown);
}
