/** What the declarations of the client accept and refuse: a compiler of TypeScript checks it, and nobody runs it. */

import { MetadError, add, connect, type Method, type Property } from "../../clients/js/index.mjs";

const client = await connect({ program: "bin/metad" }, { timeout: 5_000 });
const session = client.session("a");
const cell = await session.new<{ x: Property<number>; setX: Method; xChanged: Method }>("Cell");
const x: number = await cell.x;
await cell.setX(x + 1, { type: "queued" });
const connected = await cell.xChanged.connect((value: number) => console.log(value));
const stood: boolean = await connected.disconnect();
const broken: number = await session.disconnect({ sender: cell, signal: "xChanged(int)" });
const one: boolean = await session.disconnect(3);
const found: number | null = await session.find(cell, { name: "a", timeout: 5 });
const kind: string | null = (await session.properties(cell))[0].type;
for await (const call of session.calls({ timeout: 4 })) call.method.length;
await cell.bind("x", add(cell.x, 1));
const other = await session.object(4);
await other.anything;
try {
  await session.delete(7);
} catch (error) {
  if (error instanceof MetadError) console.log(error.code, error.text, error.command?.do, stood, broken, one, found, kind);
}

// @ts-expect-error a key is missing
await session.get(cell);
// @ts-expect-error no truth
await session.block(cell, "on");
// @ts-expect-error no type of a connection
await session.invoke(cell, "f()", [], { type: "later" });
// @ts-expect-error nothing to hear
session.on("calls", () => {});
// @ts-expect-error no command
await session.jump(cell);
// @ts-expect-error one operand
add(cell.x);
