/**
 * The tags of an XML document, so far as they are right.
 *
 * @typedef {{isClosing: boolean, isEmpty: boolean, name: string, label: string, begin: number,
 *   end: number}} Tag its name, and its name with its attributes
 */
const VALUED = `(?:"[^"]*"|'[^']*'|[^"'<>])*?`;
const TAG = new RegExp(
  `<!--.*?-->|<\\?.*?\\?>|<!\\[CDATA\\[.*?\\]\\]>`
    + `|<(?<close>/?)(?<label>(?<name>[^\\s<>/]+)${VALUED})\\s*(?<empty>/?)>`,
  "gsu",
);

/**
 * @param {string} xml
 * @returns {Generator<Tag>}
 */
export function* tagsOf(xml) {
  for (const it of xml.matchAll(TAG)) {
    const { close, label, name, empty } = it.groups;
    const [begin, end] = [it.index, it.index + it[0].length];
    if (name) yield { isClosing: close !== "", isEmpty: empty !== "", name, label, begin, end };
  }
}
