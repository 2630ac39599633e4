/**
 * Replays dumps, each in a session of its own, and prints the dump of each session as JSON: its text and its commands.
 * Usage: dumper.mjs PROGRAM DUMPS [CLASSES], where DUMPS is a file with a list of lists of commands.
 */

import { readFile } from "node:fs/promises";

import { connect, readJson, writeJson } from "../../clients/js/index.mjs";

const [program, dumps, ...args] = process.argv.slice(2);
const client = await connect({ program, args }, { timeout: 30_000 });
const said = [];
for (const [at, commands] of readJson(await readFile(dumps, "utf8")).entries()) {
  const session = client.session(`s${at}`);
  await session.replay(commands);
  const again = await session.replay(commands).then(
    () => "replayed twice",
    (error) => error.name,
  );
  await session.reset();
  await session.replay(commands);
  said.push({ text: await session.dump(), commands: await session.dumpCommands(), again });
}
console.log(writeJson(said));
await client.close();
