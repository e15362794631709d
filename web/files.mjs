/**
 * Files that are opened and saved. The end of a file's name says which pane it is of.
 *
 * @typedef {"text" | "xml" | "source"} Kind
 */
const ENDINGS = { text: ".txt", xml: ".xml", source: ".xsugar" };
const ENDING = /\.(?:txt|leiden|xml|xsugar)$/iu;

/** Returns of which pane a file is. */
function kindOf(name) {
  if (/\.xsugar$/iu.test(name)) return "source";
  return /\.xml$/iu.test(name) ? "xml" : "text";
}

/**
 * Reads a file; the text is null where it is not UTF-8.
 *
 * @param {File} file
 * @returns {Promise<{kind: Kind, text: string | null}>}
 */
export async function opened(file) {
  const kind = kindOf(file.name);
  try {
    const text = new TextDecoder("utf-8", { fatal: true }).decode(await file.arrayBuffer());
    return { kind, text: text.replaceAll("\r\n", "\n") };
  } catch (error) {
    if (!(error instanceof TypeError)) throw error;
    return { kind, text: null };
  }
}

/**
 * Hands a text to the browser to be saved.
 *
 * @param {string} name that of a file, of which a pane of another kind changes the ending
 * @param {Kind} kind
 * @param {string} text
 */
export function save(name, kind, text) {
  const link = document.createElement("a");
  link.href = URL.createObjectURL(new Blob([text], { type: "text/plain" }));
  link.download = kindOf(name) === kind ? name : name.replace(ENDING, "") + ENDINGS[kind];
  link.click();
  URL.revokeObjectURL(link.href);
}
