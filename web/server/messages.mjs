/** The base protocol: messages of JSON, each after a header that tells its length. */

const HEADER_END = "\r\n\r\n";

/** Returns the bytes that carry a message. */
export function framed(message) {
  const body = Buffer.from(JSON.stringify({ jsonrpc: "2.0", ...message }));
  return Buffer.concat([Buffer.from(`Content-Length: ${body.length}${HEADER_END}`), body]);
}

/** Cuts what comes in, in pieces of any length, into the bodies of messages. */
export class Bodies {
  #bytes = Buffer.alloc(0);

  /**
   * Takes a piece, and yields each body that is whole now.
   *
   * @param {Buffer} piece
   */
  *add(piece) {
    this.#bytes = Buffer.concat([this.#bytes, piece]);
    for (let body = this.#next(); body !== null; body = this.#next()) yield body;
  }

  /** Takes the next body from the front, or nothing where it is not whole. */
  #next() {
    const end = this.#bytes.indexOf(HEADER_END);
    if (end < 0) return null;
    const length = /^Content-Length: *(\d+)\r?$/imu.exec(this.#bytes.toString("latin1", 0, end));
    if (length === null) throw new Error("a message has no Content-Length");
    const [begin, after] = [end + HEADER_END.length, end + HEADER_END.length + Number(length[1])];
    if (this.#bytes.length < after) return null;
    const body = this.#bytes.toString("utf8", begin, after);
    this.#bytes = this.#bytes.subarray(after);
    return body;
  }
}
