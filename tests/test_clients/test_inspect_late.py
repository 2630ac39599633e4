"""What the page of the inspector shows where answers come late, and in another order than they were asked for."""

import json

from .fronts import Client, classes_in
from .test_inspect_input import ALL, NEW
from .test_inspect_page import CELL, PageCases, setting

LATE = 700  # milliseconds, in which news come too
# lets the answers to requests that begin by some words come late
DELAYED = """{
  const soon = window.fetch;
  window.late = [], window.asked = [];
  window.fetch = async (name, ...more) => {
    window.asked.push(name);
    const found = await soon(name, ...more);
    if (window.late.some((it) => name.startsWith(it))) await new Promise((done) => setTimeout(done, %d));
    return found;
  };
}""" % LATE
CRUMBS = "[...document.querySelectorAll('#crumbs li')].map((it) => it.textContent)"
TREE = "[...document.querySelectorAll('[role=tree] [data-object]')].map((it) => it.textContent)"
# chooses another session while the objects of this one are asked for, and keeps what the tree shows from then on
OTHER_SESSION = """(async () => {
  const turned = new Promise((done) => addEventListener("hashchange", done, { once: true })), tree = document.querySelector("[role=tree]");
  const see = () => window.seen.push(TREE.join());
  window.seen = [];
  page.view().list.refresh();
  document.querySelector("[data-session=c2]").click();
  await turned;
  see();
  new MutationObserver(see).observe(tree, { childList: true });
})()""".replace("TREE", TREE)
# shows line 3, and line 2 as soon as all is asked for that is to be known of line 3
OTHER_CHAIN = """(async () => {
  window.asked = [];
  page.view().chain.show(3, %s);
  while (!window.asked.some((it) => it.startsWith("%s"))) await new Promise((done) => setTimeout(done, 5));
  page.view().chain.show(2);
})()"""
HEAD = "document.querySelector('#object h2').textContent"
CHAIN = "document.querySelector('#chain h2').textContent"


class Late(PageCases):
    """Late answers."""

    shares_browser = True

    def delay(self, browser, *names):
        """Lets the answers to requests of these names come late."""
        browser.value(f"window.late = {json.dumps(names)}")

    def test_settled(self):
        """A page that says that it has drawn all has done so, whatever comes late."""
        with self.shown() as (path, _, asker), Client(path) as one, Client(path) as other:
            for client, name in ((one, "left"), (other, "right")):
                self.give(client, [CELL, CELL, setting(1, "objectName", name), setting(2, "objectName", f"{name} too")])
            with self.opened(asker.address + "#session=c1&object=1") as browser:
                browser.value(DELAYED)
                for late in ("place", "object", "tree", "sessions", "about"):
                    for session, number, name in (("c2", 2, "right too"), ("c1", 1, "left")):
                        self.delay(browser, late)
                        browser.click(f"[data-session={session}]")
                        browser.click(f'[data-object="{number}"]')
                        self.assertEqual(browser.value(CRUMBS), ["all sessions", session, "Cell", f'#{number} "{name}"'], late)
                        self.assertEqual(browser.value(HEAD), f'#{number} Cell "{name}"', late)
                        self.assertIn(f'#{number}Cell"{name}"', browser.value(TREE), late)
                    self.give(one, [setting(1, "objectName", f"left {late}")])
                    self.assertEqual(browser.value(HEAD), f'#1 Cell "left {late}"')
                    self.give(one, [setting(1, "objectName", "left")])

    def test_other_session(self):
        """Where the objects of a session come late, those of the one before are not shown in their place."""
        with self.shown() as (path, _, asker), Client(path) as one, Client(path) as other:
            self.give(one, [CELL, setting(1, "objectName", "left")])
            self.give(other, [CELL, setting(1, "objectName", "right")])
            with self.opened(asker.address + "#session=c1") as browser:
                browser.value(DELAYED)
                self.assertEqual(browser.value(TREE), ['#1Cell"left"'])
                self.delay(browser, "tree")
                browser.value(OTHER_SESSION)
                self.assertEqual(browser.value(TREE), ['#1Cell"right"'])
                self.assertEqual(set(browser.value("window.seen")), {"", '#1Cell"right"'})

    def test_chains(self):
        """Of two commands that are chosen one after the other, the second one is shown, though the first one comes last."""
        with self.shown() as (path, _, asker), Client(path) as client:
            self.give(client, [CELL, setting(1, "x", 1), {"do": "invoke", "object": 1, "method": "setX(int)", "args": [2]}])
            with self.opened(asker.address + "#session=c1&view=happened") as browser:
                browser.value(DELAYED)
                for late, call in (("entry?number=3", "null"), ("chain", "0")):
                    self.delay(browser, late)
                    browser.value(OTHER_CHAIN % (call, late))
                    self.assertEqual(browser.value(CHAIN).partition(",")[0], "Line 2 of c1", late)

    def test_drafts(self):
        """What was typed is gone from the fields after the command was given, though the page was drawn before the answer came."""
        with self.shown(classes_in(self.room, [ALL]), options=("--inspect-write",)) as (path, _, asker), Client(path) as client:
            self.give(client, [NEW])
            with self.opened(asker.address + "#session=c1&object=1") as browser:
                browser.value(DELAYED)
                self.delay(browser, "ask")
                method = "[data-method=\"both(int,QString)\"]"
                for at, text in enumerate(("12", "twelve"), 1):
                    browser.write(f"{method} td:last-child span:nth-of-type({at}) input", text)
                browser.click(f"{method} [type=submit]")
                browser.wait_for("document.querySelector('[data-property=of_QString]').children[2].textContent === '\"twelve\"'")
                self.assertEqual(browser.value(f"[...document.querySelectorAll({json.dumps(method + ' input')})].map((it) => it.value)"), ["0", ""])
