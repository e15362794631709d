"use strict";
const { spawn } = require("node:child_process");

const HEADER_END = "\r\n\r\n";

/** A server that runs as a process of its own, and what is written to it and read from it. */
class Connection {
  #process;
  #bytes = Buffer.alloc(0);
  #waiting = new Map();
  #handlers;
  #count = 0;

  /**
   * @param {string} path that of the server
   * @param {Object<string, (params: object) => void>} handlers what is done at a notification
   */
  constructor(path, handlers) {
    this.#handlers = handlers;
    // in an editor that is built on Electron, this is how its own node is started
    const env = { ...process.env, ELECTRON_RUN_AS_NODE: "1" };
    this.#process = spawn(process.execPath, [path], { env, stdio: ["pipe", "pipe", "inherit"] });
    this.#process.stdout.on("data", (piece) => this.#read(piece));
    this.#process.on("exit", () => this.#ended());
  }

  /** Asks for an answer. */
  request(method, params) {
    this.#count += 1;
    const id = this.#count;
    const answer = new Promise((resolve, reject) => this.#waiting.set(id, { resolve, reject }));
    this.#write({ id, method, params });
    return answer;
  }

  notify(method, params) {
    this.#write({ method, params });
  }

  /** Ends the server by the protocol. */
  async stop() {
    await this.request("shutdown");
    this.notify("exit");
  }

  #write(message) {
    const body = Buffer.from(JSON.stringify({ jsonrpc: "2.0", ...message }));
    this.#process.stdin.write(`Content-Length: ${body.length}${HEADER_END}`);
    this.#process.stdin.write(body);
  }

  #read(piece) {
    this.#bytes = Buffer.concat([this.#bytes, piece]);
    for (let end = this.#bytes.indexOf(HEADER_END); end >= 0; end = this.#bytes.indexOf(HEADER_END)) {
      const length = Number(/Content-Length: (\d+)/u.exec(this.#bytes.toString("latin1", 0, end))[1]);
      const begin = end + HEADER_END.length;
      if (this.#bytes.length < begin + length) return;
      const body = this.#bytes.toString("utf8", begin, begin + length);
      this.#bytes = this.#bytes.subarray(begin + length);
      this.#received(JSON.parse(body));
    }
  }

  #received({ id, method, params, result, error }) {
    if (method !== undefined) {
      this.#handlers[method]?.(params);
      return;
    }
    const { resolve, reject } = this.#waiting.get(id);
    this.#waiting.delete(id);
    if (error === undefined) resolve(result);
    else reject(new Error(error.message));
  }

  #ended() {
    for (const { reject } of this.#waiting.values()) reject(new Error("the server has ended"));
    this.#waiting.clear();
  }
}

module.exports = { Connection };
