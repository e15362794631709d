#!/usr/bin/env node
/**
 * A language server for editors: it reads messages from standard input and writes to standard
 * output. docs/web.md says what it does. Usage: web/server.mjs [MODULE [MEGABYTES]], where MODULE
 * is another file than web/xsugar.wasm, and MEGABYTES the most memory that it takes, else 1,024.
 */
import { readFile } from "node:fs/promises";
import { LanguageServer } from "./server/language_server.mjs";
import { Bodies, framed } from "./server/messages.mjs";
import { load } from "./xsugar.mjs";

const PARSE_ERROR = -32700;

const send = (message) => process.stdout.write(framed(message));

/** Returns the message of a body; one that is no JSON is answered at once. */
function messageOf(body) {
  try {
    return JSON.parse(body);
  } catch (error) {
    send({ id: null, error: { code: PARSE_ERROR, message: error.message } });
    return {};
  }
}

/** Returns the core; where its module is not there, the server ends and says so. */
async function core(module, megabytes) {
  try {
    return await load(await readFile(module), { megabytes: megabytes && Number(megabytes) });
  } catch (error) {
    console.error(`web/server.mjs: ${error.message}: scripts/web makes the module`);
    process.exit(2);
  }
}

const [, , module = new URL("xsugar.wasm", import.meta.url), megabytes] = process.argv;
const xsugar = await core(module, megabytes);
const server = new LanguageServer(xsugar, send, process.exit);
const bodies = new Bodies();
for await (const piece of process.stdin) {
  for (const body of bodies.add(piece)) server.receive(messageOf(body));
}
process.exit(1);
