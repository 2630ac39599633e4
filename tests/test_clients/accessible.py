"""Checks of a page for those who read it with a keyboard, a screen reader, or weak eyes: what the browser itself says of names
and roles, what its marks refer to, in which order the keys reach what is there, and how much texts differ from what is under
them."""

CONTRAST = 4.5
FIELDS = {"textbox", "searchbox", "combobox", "checkbox", "button", "slider", "tab", "listbox", "tree", "radio", "spinbutton", "link"}
FOCUSABLE = "button, input, select, textarea, a[href], summary, [tabindex]:not([tabindex='-1'])"
SEEN = """(it) => it.checkVisibility({ visibilityProperty: true }) && it.getClientRects().length > 0"""

# the texts that can be seen, each with its colour and those of what is under it, the nearest first
TEXTS = """(() => {
  const seen = %s, found = [];
  const grounds = (it) => {
    const all = [], box = it.closest("svg .node")?.querySelector("rect");
    if (box) all.push(getComputedStyle(box).fill);
    for (let at = it; at; at = at.parentElement) all.push(getComputedStyle(at).backgroundColor);
    return all;
  };
  const walk = document.createTreeWalker(document.body, NodeFilter.SHOW_TEXT);
  while (walk.nextNode()) {
    const it = walk.currentNode.parentElement, text = walk.currentNode.data.trim();
    if (!text || it.closest("title, script, option, :disabled") || !seen(it)) continue;
    const style = getComputedStyle(it), isDrawn = it instanceof SVGElement;
    found.push([text.slice(0, 40), it.tagName + "." + (it.getAttribute("class") ?? ""), isDrawn ? style.fill : style.color, grounds(it)]);
  }
  for (const it of document.querySelectorAll("input, select")) if (seen(it)) {
    found.push([it.value || "field", "field", getComputedStyle(it).color, grounds(it)]);
    if (it.placeholder) found.push([it.placeholder, "placeholder", getComputedStyle(it, "::placeholder").color, grounds(it)]);
  }
  return found;
})()""" % SEEN

MARKS = """(() => {
  const faults = [], ids = [...document.querySelectorAll("[id]")].map((it) => it.id);
  for (const it of ids) if (ids.indexOf(it) !== ids.lastIndexOf(it)) faults.push(`two elements are called ${it}`);
  for (const key of ["aria-controls", "aria-activedescendant", "aria-labelledby", "aria-describedby", "aria-owns"]) {
    for (const it of document.querySelectorAll(`[${key}]`)) for (const id of it.getAttribute(key).split(" ")) {
      if (!document.getElementById(id)) faults.push(`${key} names ${id}, which is not there`);
    }
  }
  for (const it of document.querySelectorAll("[tabindex]")) if (it.tabIndex > 0) faults.push(`tabindex ${it.tabIndex}`);
  for (const it of document.querySelectorAll("[aria-hidden=true] button, [aria-hidden=true] input, [role=option] button, [role=treeitem] button")) {
    faults.push(`a control that cannot be reached: ${it.outerHTML.slice(0, 80)}`);
  }
  for (const it of document.querySelectorAll("[role=listbox], [role=tree]")) {
    const kind = it.getAttribute("role") === "tree" ? "treeitem" : "option";
    for (const one of it.children) if (![kind, "presentation"].includes(one.getAttribute("role"))) faults.push(`in a ${it.role}: ${one.outerHTML.slice(0, 80)}`);
  }
  for (const it of document.querySelectorAll("th")) if (!it.getAttribute("scope")) faults.push(`a head without a scope: ${it.outerHTML}`);
  for (const key of ["main", "header", "aside", "nav[aria-label]", "[role=tablist]", "[role=tabpanel]", "h1"]) {
    if (document.querySelectorAll(key).length !== 1) faults.push(`not one ${key}`);
  }
  if (!document.documentElement.lang) faults.push("no language");
  return faults;
})()"""


def colour_of(text):
    """The parts of a colour as CSS writes it: red, green, blue from 0 to 255, and how much it covers."""
    parts = [float(it) for it in text[text.index("(") + 1 : text.index(")")].replace("/", ",").replace(" ", ",").split(",") if it]
    return (*parts[:3], parts[3] if len(parts) > 3 else 1.0)


def over(upper, lower):
    """A colour above another one."""
    return tuple(upper[at] * upper[3] + lower[at] * (1 - upper[3]) for at in range(3)) + (1.0,)


def ground_of(colours):
    """The colour of several above each other, the upper first, on white."""
    made = (255.0, 255.0, 255.0, 1.0)
    for text in reversed(colours):
        if text != "none":
            made = over(colour_of(text), made)
    return made


def light_of(colour):
    """How light a colour is, as the guidelines for web content define it."""
    parts = [it / 255 for it in colour[:3]]
    red, green, blue = (it / 12.92 if it <= 0.04045 else ((it + 0.055) / 1.055) ** 2.4 for it in parts)
    return 0.2126 * red + 0.7152 * green + 0.0722 * blue


def contrast(one, other):
    """By how much two colours differ, from 1 to 21."""
    low, high = sorted((light_of(one), light_of(other)))
    return (high + 0.05) / (low + 0.05)


def faint_texts(browser):
    """The texts of a page that differ too little from what is under them, and how many were looked at."""
    texts = browser.value(TEXTS)
    found = []
    for text, where, colour, grounds in texts:
        ground = ground_of(grounds)
        ratio = contrast(over(colour_of(colour), ground), ground)
        if ratio < CONTRAST:
            found.append(f"{text!r} ({where}): {ratio:.2f}")
    return found, len(texts)


def named(browser):
    """What the browser tells a screen reader: the roles, names and properties of what is there."""
    for node in browser.ask("Accessibility.getFullAXTree")["nodes"]:
        if not node.get("ignored"):
            how = {it["name"]: it["value"].get("value") for it in node.get("properties", ())}
            yield node["role"]["value"], node.get("name", {}).get("value", ""), how


def nameless(browser):
    """The controls without a name, and what has the focus of keys without a role."""
    found = list(named(browser))
    faults = [f"a {role} without a name" for role, name, _ in found if role in FIELDS and not name.strip()]
    odd = [f"{role} {name!r} takes the focus" for role, name, how in found if how.get("focusable") and role in ("generic", "none", "")]
    return faults + odd, len(found)


def reached(browser, most=400):
    """What the Tab key reaches, one after the other, until it is where it began: numbers in the order of the page."""
    browser.value(f"window.stops = [...document.querySelectorAll({FOCUSABLE!r})].filter({SEEN}).filter((it) => !it.disabled && it.tabIndex >= 0); document.activeElement.blur(); document.body.tabIndex = -1; document.body.focus(); document.body.removeAttribute('tabindex')")  # noqa: E501
    found, others = [], 0
    for _ in range(most):
        browser.tap("Tab")  # moves the focus, and draws nothing
        at = browser.evaluate("window.stops.indexOf(document.activeElement)")
        others = others + 1 if at < 0 else 0  # the browser stops at what can be scrolled, too
        if at in found or others > 3:
            break
        if at >= 0:
            found.append(at)
    return found, browser.value("window.stops.length")


def faults_in(browser, is_reached=True):
    """All that is wrong with a page."""
    faint, texts = faint_texts(browser)
    unnamed, nodes = nameless(browser)
    faults = [*faint, *unnamed, *browser.value(MARKS)]
    if is_reached:
        order, count = reached(browser)
        faults += [] if order == sorted(order) else [f"the keys go through the page in the order {order}"]
        faults += [] if len(order) == count else [f"the keys reach {len(order)} of {count}"]
    if texts < 20 or nodes < 20:
        faults.append(f"only {texts} texts and {nodes} nodes")
    return faults
