/** A form whose button is enabled, and whose greeting is worded, by bindings: node bound_form.mjs [PROGRAM] */

import { readFileSync } from "node:fs";

import { MetadError, and, choose, concat, connect, equal, not } from "../../clients/js/index.mjs";

const classes = JSON.parse(readFileSync(new URL("../form/classes.json", import.meta.url), "utf8"));

/** Makes the form, with what is shown of it. */
async function made(session) {
  const form = await session.new("Form");
  const [name, password, greeting] = await Promise.all(["Text", "Text", "Text"].map((it) => session.new(it, form)));
  const button = await session.new("Button", form);
  await name.objectName.set("name");
  await password.objectName.set("password");
  form.onCall("enable(bool)", ({ args: [isOn] }) => console.log(`the button is ${isOn ? "enabled" : "disabled"}`));
  form.onCall("show(QString)", ({ args: [text] }) => console.log(`it reads: ${text}`));
  await button.enabledChanged.connect(form.enable);
  await button.clicked.connect(form.send);
  await greeting.textChanged.connect(form.show);
  return { form, name, password, greeting, button };
}

async function run(program = "metad") {
  const client = await connect({ program, classes });
  const session = client.session("ann");
  session.on("warning", ({ property, meaning }) => console.log(`${property}: ${meaning}`));
  const { name, password, greeting, button } = await made(session);
  await button.enabled.bind(and(not(equal(name.text, "")), not(equal(password.text, ""))));
  await greeting.text.bind(choose(equal(name.text, ""), "Who are you?", concat("Hello, ", name.text)));
  await name.text.set("ann");
  await button.press();
  await password.text.set("secret");
  console.log("it is pressed");
  await button.press();
  await session.begin(); // nothing is reported before the group ends
  await name.text.set("bob");
  await password.text.set("also secret");
  console.log("the group ends");
  await session.end();
  await password.delete();
  console.log("the button is in error:", await button.enabled.error());
  await client.close();
}

try {
  await run(process.argv[2]);
} catch (error) {
  if (!(error instanceof MetadError)) throw error;
  console.error(`bound_form: ${error.message}`);
  process.exitCode = 1;
}
