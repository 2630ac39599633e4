/// A teacher and two pupils share one session, each by a connection of its own: classroom SOCKET
/// The front has to be started with `--share classroom`.
#include "example.h"

#include <metad/remoteobject.h>
#include <metad/session.h>

#include <QCoreApplication>
#include <QTextStream>

#include <memory>

using namespace Metad;

/// Somebody in the classroom.
class Person : public QObject {
    Q_OBJECT

public:
    Person(const QString &name, const QString &socket) : m_name(name)
    {
        FrontOptions options;
        options.share = "classroom";
        m_session = Connection::toFront(socket, options, this)->session();
    }

    Session *session() { return m_session; }

    /// Comes into the room, and hears of questions from then on.
    void enter(quint32 number)
    {
        m_room = wait(m_session->object(number));
        connect(m_room, SIGNAL(questionChanged(QString)), this, SLOT(think(QString)));
        wait(m_session->give().status()); // all that was sent is done
    }

public slots:
    void think(const QString &question)
    {
        QMetaObject::invokeMethod(m_room, "raise");
        QMetaObject::invokeMethod(m_room, "answer", Q_ARG(QString, m_name), Q_ARG(QString, QString::number(question.size())));
    }

    void hear(const QString &pupil, const QString &answer)
    {
        m_heard << pupil + " says " + answer;
        if (m_heard.size() == 2)
            emit heardAll(m_heard);
    }

signals:
    void heardAll(QStringList answers);

private:
    const QString m_name;
    Session *m_session;
    RemoteObject *m_room = nullptr;
    QStringList m_heard;
};

int run(const QStringList &words)
{
    const QString &socket = words[0];
    Person teacher("teacher", socket), ann("ann", socket), bob("bob", socket);
    RemoteObject *room = wait(teacher.session()->create("Classroom"));
    QObject::connect(room, SIGNAL(answered(QString,QString)), &teacher, SLOT(hear(QString,QString)));
    ann.enter(room->number());
    bob.enter(room->number());
    QObject::connect(&teacher, &Person::heardAll, room, [room](QStringList answers) {
        answers.sort();
        QTextStream(stdout) << answers.join('\n') << "\nhands: " << room->property("hands").toInt() << '\n';
        QCoreApplication::quit();
    });
    room->setProperty("question", "How many letters has this?");
    return QCoreApplication::exec();
}

int main(int count, char **words) { return runExample<QCoreApplication>(count, words, "classroom SOCKET", 1, run); }

#include "classroom.moc"
