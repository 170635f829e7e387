/* modules.js: loads a module of dist/ by its name, for the adapters by node. */
"use strict";
const { readFileSync } = require("node:fs");

/** A memory of 64 bits grows by a BigInt, but in engines from before the final standard by a number. */
function growByEither(memory) {
  const grow = memory.grow.bind(memory);
  memory.grow = (pages) => {
    try {
      return grow(pages);
    } catch (error) {
      if (!(error instanceof TypeError)) throw error;
      return grow(BigInt(pages));
    }
  };
}

/** Returns web/squitter.js, and the library that it loads from dist/NAME, by default the one of the product. A path is
 * that of an installed package, which loads its own module. */
async function loaded(name = "squitter.wasm") {
  if (name.includes("/")) {
    const squitter = require(name);
    return { squitter, library: await squitter.load() };
  }
  const { instantiate } = WebAssembly;
  WebAssembly.instantiate = async (...given) => {
    const made = await instantiate(...given);
    growByEither(made.instance.exports.memory);
    return made;
  };
  const squitter = await import("../../web/squitter.js");
  return { squitter, library: await squitter.load(readFileSync(`${__dirname}/../../dist/${name}`)) };
}

module.exports = { loaded };
