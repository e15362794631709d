import { readFileSync } from "node:fs";
import { fencesOf, productionsOf } from "../productions.mjs";

/** The words with which the program writes the sheets that are included. */
const INCLUDED = { "@leiden": ["sheet"], "@leiden2": ["sheet", "2"] };

/**
 * The sheet by which texts and XML documents are read: open, with its productions, its fences, and
 * what closes them.
 */
export class Notation {
  /**
   * @param {import("../xsugar.mjs").Xsugar} xsugar
   * @param {string} name that of a sheet that is included, or the path of a file
   */
  constructor(xsugar, name) {
    const isIncluded = Object.hasOwn(INCLUDED, name);
    const source = isIncluded ? xsugar.run(INCLUDED[name]).output : readFileSync(name, "utf8");
    this.sheet = xsugar.open(isIncluded ? name : source);
    this.productions = productionsOf(source);
    this.fences = fencesOf(xsugar, source);
    this.closing = this.fences.map(([, right]) => right);
  }
}
