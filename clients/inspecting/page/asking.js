// What the page asks of the inspector, below the address that has the token, and whether it still waits for something.

let waiting = 0, ended = 0; // requests and pauses: how many there are now, and how many have ended

/** Whether the page waits for an answer, or for the end of a pause before it draws. What an answer brings is drawn at once. */
export function isWaiting() {
  return waiting > 0;
}

/** How many requests and pauses have ended: where it is the same again, nothing was drawn because of them since. */
export function endedSoFar() {
  return ended;
}

function begin() {
  waiting += 1;
}

function end() {
  waiting -= 1;
  ended += 1;
}

/** The answer to a request, as JSON. */
async function answered(...request) {
  begin();
  try {
    const answer = await fetch(...request);
    if (!answer.ok) throw new Error(`refused (${answer.status})`);
    return await answer.json();
  } finally { end(); }
}

/** What is known, as JSON; null where nothing is. */
export function get(name, asked = {}) {
  const words = Object.entries(asked).filter(([, value]) => value !== null && value !== undefined && value !== "");
  return answered(`${name}?${new URLSearchParams(words)}`);
}

export function post(name, asked) {
  return answered(name, { method: "POST", headers: { "Content-Type": "application/json" }, body: JSON.stringify(asked) });
}

/** The version of what the inspector knows now. This request is not counted. */
export async function versionNow() {
  return (await (await fetch("about")).json()).version;
}

/** Does something after a pause. A pause that begins ends the one before. */
export class Pause {
  constructor(does) {
    this.does = does;
    this.timer = null;
  }

  begin(milliseconds) {
    this.end();
    begin();
    this.timer = setTimeout(() => { this.end(); this.does(); }, milliseconds);
  }

  end() {
    if (this.timer === null) return;
    clearTimeout(this.timer);
    this.timer = null;
    end();
  }
}

/** Hears of each change; a browser that slept hears of the newest. */
export function hear(tell, lost) {
  const source = new EventSource("news");
  source.onmessage = (event) => tell(JSON.parse(event.data));
  source.onerror = lost;
}

/** Does something again and again, at most once at a time: what is asked for meanwhile is done once, right after it. */
export function oneAtATime(does) {
  let isUnderWay = false, isWanted = false;
  return async function again() {
    if (isUnderWay) { isWanted = true; return; }
    isUnderWay = true;
    try {
      do { isWanted = false; await does(); } while (isWanted);
    } catch (error) {
      console.warn(String(error));
    } finally { isUnderWay = false; }
  };
}
