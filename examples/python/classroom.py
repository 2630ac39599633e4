"""A teacher asks, and each pupil answers from a session of its own behind one front: python3 classroom.py [PROGRAM]"""

import sys

import metad

CLASSES = {
    "classes": [
        {"name": "Teacher", "super": "QObject", "signals": ["asks(int,int)"], "slots": [{"sig": "hear(QString,int)", "body": []}]},
        {"name": "Pupil", "super": "QObject", "signals": ["answers(QString,int)"], "slots": [{"sig": "hear(int,int)", "body": []}]},
    ]
}
PUPILS = {"ann": lambda one, other: one * other, "bob": lambda one, other: one + other, "eve": lambda one, other: other * one}


class Pupil:
    """A pupil, who hears what is asked, and answers."""

    def __init__(self, front, name, think, teacher):
        self.server = front.connect()
        self.session = self.server.session(name)
        self.object = self.session.create("Pupil")
        self.object.answers.publish("answers")
        self.object.hear.join(teacher, "question")
        self.session.on(self.object.number, "hear(int,int)", lambda call: self.object.answers(name, think(*call.args)))

    def answer(self):
        """Waits until a question has come, and is answered."""
        next(self.session.calls(timeout=60))


def run(program="metad"):
    with metad.start_front(program, classes=CLASSES) as front, front.connect() as server:
        session = server.session("teacher")
        teacher = session.create("Teacher")
        teacher.asks.publish("question")
        pupils = [Pupil(front, name, think, session.known_as) for name, think in PUPILS.items()]
        for it in pupils:
            teacher.hear.join(it.session.known_as, "answers")
        heard = []
        session.on(teacher.number, "hear(QString,int)", lambda call: heard.append("{} says {}".format(*call.args)))
        for one, other in ((6, 7), (2, 2)):
            print(f"how much is {one} times {other}?")
            heard.clear()
            teacher.asks(one, other)
            for it in pupils:
                it.answer()
            session.wait_for(lambda: len(heard) == len(pupils), timeout=60)
            print(*sorted(heard), sep="\n")
            pupils.pop().server.close()  # one goes home, and the others notice nothing
        for it in pupils:
            it.server.close()


if __name__ == "__main__":
    try:
        run(*sys.argv[1:])
    except (OSError, metad.MetadError, KeyboardInterrupt) as error:
        sys.exit(f"classroom: {error}")
