"""A form whose button is enabled, and whose greeting is worded, by bindings: python3 bound_form.py [PROGRAM]"""

import json
import sys
from pathlib import Path

import metad
from metad import choose, concat, prop

CLASSES = json.loads((Path(__file__).resolve().parent.parent / "form" / "classes.json").read_text())


def shown(call):
    """What is seen of a call of the form."""
    if call.method == "enable(bool)":
        print("the button is", "enabled" if call.args[0] else "disabled")
    elif call.method == "show(QString)":
        print("it reads:", call.args[0])


def warned(warning):
    print(f"{warning.property_name}: {warning.meaning}")


def made(session):
    """A form with its fields, its greeting and its button."""
    form = session.create("Form")
    name, password, greeting = (session.create("Text", form) for _ in range(3))
    button = session.create("Button", form)
    name.objectName, password.objectName = "name", "password"
    button.enabledChanged.connect(form.enable)
    button.clicked.connect(form.send)
    greeting.textChanged.connect(form.show)
    return name, password, greeting, button


def run(program="metad"):
    with metad.start(program, classes=CLASSES) as server:
        session = server.session("ann", on_call=shown, on_warning=warned)
        name, password, greeting, button = made(session)
        button.property("enabled").bind((prop("text", name) != "") & (prop("text", password) != ""))
        greeting.property("text").bind(choose(prop("text", name) == "", "Who are you?", concat("Hello, ", prop("text", name))))
        name.text = "ann"
        button.press()
        password.text = "secret"
        print("it is pressed")
        button.press()
        session.begin()  # nothing is reported before the group ends
        name.text = "bob"
        password.text = "also secret"
        print("the group ends")
        session.end()
        password.delete()
        print("the button is in error:", button.property("enabled").error)


if __name__ == "__main__":
    try:
        run(*sys.argv[1:])
    except (OSError, metad.MetadError, KeyboardInterrupt) as error:
        sys.exit(f"bound_form: {error}")
