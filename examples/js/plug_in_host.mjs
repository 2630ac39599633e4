/** From nothing to a host, a plug-in in a second process, and an observer of both: node plug_in_host.mjs [PROGRAM] */

import { spawn } from "node:child_process";
import { once } from "node:events";
import { readFileSync } from "node:fs";
import { fileURLToPath } from "node:url";

import { MetadError, SignalSpy, connect, startFront, withRelay } from "../../clients/js/index.mjs";

const CLASSES = JSON.parse(readFileSync(new URL("../plug_in_host/classes.json", import.meta.url), "utf8"));

async function plugIn(path, host) {
  const client = await connect(path);
  const session = client.session("plug_in");
  const speller = await session.new("Speller");
  await speller.says.publish("says");
  await speller.check.join(host, "word");
  await speller.deleteLater.join(host, "closing");
  const end = await SignalSpy.on(speller.destroyed); // listens before anybody can end it
  console.log(session.knownAs);
  await session.waitFor(() => end.length, { timeout: 60_000 });
  await client.close();
}

async function host(program = "metad") {
  const front = await startFront({ program, classes: withRelay(CLASSES), monitor: true });
  try {
    const seen = await front.monitor();
    const session = (await front.connect()).session("host");
    const [window, ear] = [await session.new("Host"), await session.new("PlugIn")];
    await window.word.publish("word");
    await window.closing.publish("closing");
    const words = [fileURLToPath(import.meta.url), front.path, session.knownAs];
    const other = spawn(process.execPath, words, { stdio: ["ignore", "pipe", "inherit"] });
    const ended = once(other, "close");
    const [name] = await once(other.stdout, "data");
    await ear.says.join(String(name).trim(), "says");
    const said = await SignalSpy.on(ear.says);
    await window.word("teh");
    console.log("the plug-in says", ...(await session.waitFor(() => said[0])));
    await window.closing();
    await ended;
    await front.close();
    for await (const line of seen) if ("call" in line) console.log(line.session, line.call, line.args);
  } finally {
    await front.close();
  }
}

try {
  const [first, second] = process.argv.slice(2);
  await (second === undefined ? host(first) : plugIn(first, second));
} catch (error) {
  if (!(error instanceof MetadError)) throw error;
  console.error(`plug_in_host: ${error.message}`);
  process.exitCode = 1;
}
