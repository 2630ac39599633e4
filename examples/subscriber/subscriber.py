"""A client subscribes to what another one publishes, and prints it as it comes: python3 subscriber.py [PROGRAM]"""

import sys
from itertools import islice
from subprocess import PIPE, Popen

import metad


def subscribe(path, publisher):
    with metad.connect(path, live=True) as server:
        session = server.session("subscriber")
        calls = session.calls(timeout=60)
        session.create("Cell").seen.join(publisher, "level")
        print("it listens", flush=True)
        for call in islice(calls, 3):  # waits for each, and asks for nothing
            print(f"x is {call.args[0]}", flush=True)


def publish(program="metad"):
    with metad.start_front(program) as front, front.connect() as server:
        cell = server.session("publisher").create("Cell")
        cell.xChanged.publish("level")
        words = [sys.executable, __file__, front.path, cell.session.known_as]
        with Popen(words, stdout=PIPE, text=True) as process:
            print("the subscriber says:", process.stdout.readline().strip())
            for x in (1, 2, 3):
                cell.x = x
                print("the subscriber says:", process.stdout.readline().strip())


if __name__ == "__main__":
    try:
        (publish if len(sys.argv) < 3 else subscribe)(*sys.argv[1:])
    except (OSError, metad.MetadError, KeyboardInterrupt) as error:
        sys.exit(f"subscriber: {error}")
