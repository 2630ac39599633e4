"""From nothing to a host, a plug-in in a second process, and an observer of both: python3 host.py [PROGRAM]"""

import json
import sys
from pathlib import Path
from subprocess import PIPE, Popen

import metad


def plug_in(path, host):
    with metad.connect(path) as server:
        speller = server.session("plug_in").create("Speller")
        speller.says.publish("says")
        speller.check.join(host, "word"), speller.deleteLater.join(host, "closing")
        with metad.SignalSpy(speller.destroyed) as end:  # listens before anybody can end it
            print(speller.session.known_as, flush=True)
            speller.session.wait_for(lambda: end, timeout=60)


def host(program="metad"):
    classes = metad.with_relay(json.loads(Path(__file__).with_name("classes.json").read_text()))
    with metad.start_front(program, classes=classes, monitor=True) as front, front.monitor() as seen, front.connect() as server:
        window, ear = (server.session("host").create(it) for it in ("Host", "PlugIn"))
        window.word.publish("word"), window.closing.publish("closing")
        with Popen([sys.executable, __file__, front.path, window.session.known_as], stdout=PIPE, text=True) as process:
            ear.says.join(process.stdout.readline().strip(), "says")
            with metad.SignalSpy(ear.says) as said:
                window.word("teh")
                print("the plug-in says", *window.session.wait_for(lambda: said)[0])
            window.closing()
        front.close()
        print(*(f"{it['session']} {it['call']} {it['args']}" for it in seen if "call" in it), sep="\n")


if __name__ == "__main__":
    try:
        (host if len(sys.argv) < 3 else plug_in)(*sys.argv[1:])
    except (OSError, metad.MetadError, KeyboardInterrupt) as error:
        sys.exit(f"host: {error}")
