/** A teacher asks, and each pupil answers from a session of its own behind one front: node classroom.mjs [PROGRAM] */

import { MetadError, startFront } from "../../clients/js/index.mjs";

const classes = {
  classes: [
    { name: "Teacher", super: "QObject", signals: ["asks(int,int)"], slots: [{ sig: "hear(QString,int)", body: [] }] },
    { name: "Pupil", super: "QObject", signals: ["answers(QString,int)"], slots: [{ sig: "hear(int,int)", body: [] }] },
  ],
};

const PUPILS = { ann: (one, other) => one * other, bob: (one, other) => one + other, eve: (one, other) => other * one };

/** A pupil hears what is asked, and answers. */
async function pupil(front, name, think, teacher) {
  const client = await front.connect();
  const session = client.session(name);
  const self = await session.new("Pupil");
  await self.answers.publish("answers");
  await self.hear.join(teacher, "question");
  self.onCall("hear(int,int)", ({ args }) => self.answers(name, think(...args)));
  return { client, name: session.knownAs };
}

async function run(program = "metad") {
  const front = await startFront({ program, classes });
  try {
    const session = (await front.connect()).session("teacher");
    const teacher = await session.new("Teacher");
    await teacher.asks.publish("question");
    const pupils = [];
    for (const [name, think] of Object.entries(PUPILS)) {
      pupils.push(await pupil(front, name, think, session.knownAs));
      await teacher.hear.join(pupils[pupils.length - 1].name, "answers");
    }
    const answers = [];
    teacher.onCall("hear(QString,int)", ({ args: [name, answer] }) => void answers.push(`${name} says ${answer}`));
    for (const [one, other] of [[6, 7], [2, 2]]) {
      console.log(`how much is ${one} times ${other}?`);
      await teacher.asks(one, other);
      await session.waitFor(() => answers.length === pupils.length, { timeout: 60_000 });
      for (const it of answers.splice(0).sort()) console.log(it);
      await pupils.pop().client.close(); // one goes home, and the others notice nothing
    }
  } finally {
    await front.close();
  }
}

try {
  await run(process.argv[2]);
} catch (error) {
  if (!(error instanceof MetadError)) throw error;
  console.error(`classroom: ${error.message}`);
  process.exitCode = 1;
}
