/** A form that everybody who opens the page fills in together: its fields are objects of a session that they share. */

import { and, choose, concat, connect, equal, not } from "/metad/index.mjs";

const PARTS = { name: "Text", seat: "Text", greeting: "Text", book: "Button" };
const field = (name) => document.getElementById(name);
const pause = () => new Promise((resolve) => setTimeout(resolve, 50));

/** The number of the form. The first page makes it; if two pages do so at the same time, the later one drops its own. */
async function formIn(session) {
  const own = (await session.children()).length ? null : await session.new("Form");
  const [first] = await session.children();
  if (own?.number === first) await make(session, own);
  else await own?.delete();
  return first;
}

/** Makes the parts of the form. They get their names last, so that other pages find them complete. */
async function make(session, form) {
  const made = {};
  for (const [name, kind] of Object.entries(PARTS)) made[name] = await session.new(kind, form);
  const { name, seat, greeting, book } = made;
  for (const it of [name, seat, greeting]) await it.textChanged.connect(form.show);
  await book.enabledChanged.connect(form.enable);
  await greeting.text.bind(choose(equal(name.text, ""), "Who are you?", concat("Hello, ", name.text)));
  await book.enabled.bind(and(not(equal(name.text, "")), not(equal(seat.text, ""))));
  for (const name of Object.keys(PARTS)) await made[name].objectName.set(name);
}

/** The part of this name, once it is there. */
async function partOf(session, form, name) {
  for (;;) {
    const number = await session.find(form, { name });
    if (number) return session.object(number);
    await pause();
  }
}

/** Shows a value; what is being typed here stays. */
function show(element, value) {
  if (element.id === "book") element.disabled = !value;
  else if (element.id === "greeting") element.textContent = value;
  else if (element !== document.activeElement) element.value = value;
}

const client = await connect(`${location.protocol === "https:" ? "wss" : "ws"}://${location.host}/`, { share: "form" });
const session = client.session("form");
const form = await formIn(session);
const [parts, elements] = [{}, new Map()];
session.on("call", ({ args: [value], sender }) => elements.has(sender) && show(elements.get(sender), value));
for (const name of Object.keys(PARTS)) {
  const part = (parts[name] = await partOf(session, form, name));
  elements.set(part.number, field(name));
  show(field(name), await (name === "book" ? part.enabled : part.text));
  field(name).addEventListener("input", () => part.text.set(field(name).value));
}
field("book").addEventListener("click", () => ["name", "seat"].forEach((name) => parts[name].text.set("")));
field("status").textContent = `Connected as ${session.knownAs}.`;
client.ended.then(() => (field("status").textContent = "The connection has ended. Reload the page."));
