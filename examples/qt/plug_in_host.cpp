/// A host, and a plug-in in a second process: plug_in_host SOCKET
/// Each has a session of its own. They hear what the other one publishes, and can do nothing else to it.
#include "example.h"

#include <metad/remoteobject.h>
#include <metad/session.h>

#include <QCoreApplication>
#include <QProcess>
#include <QTextStream>

using namespace Metad;

/// The plug-in: it checks the words of a host, until that closes.
int plugIn(Session *session, const QString &host)
{
    RemoteObject *speller = wait(session->create("Speller"));
    wait(session->give().publish(speller, "says(QString)", "says"));
    wait(session->give().join(host, "word", {"QString"}, speller, "check(QString)"));
    wait(session->give().join(host, "closing", {}, speller, "deleteLater()"));
    QObject::connect(speller, &RemoteObject::gone, qApp, &QCoreApplication::quit);
    QTextStream(stdout) << session->name() << Qt::endl;
    return QCoreApplication::exec();
}

/// The host: it says a word, prints what the plug-in says of it, and closes.
class Host : public QObject {
    Q_OBJECT

public:
    Host(Session *session, const QString &socket) : m_session(session)
    {
        m_window = wait(session->create("Host"));
        m_ear = wait(session->create("PlugIn"));
        wait(session->give().publish(m_window, "word(QString)", "word"));
        wait(session->give().publish(m_window, "closing()", "closing"));
        connect(m_ear, SIGNAL(says(QString)), this, SLOT(hear(QString)));
        connect(&m_process, &QProcess::readyReadStandardOutput, this, &Host::welcome);
        connect(&m_process, &QProcess::finished, this, [this](int status) {
            print(QString("the plug-in has ended with status %1").arg(status));
            QCoreApplication::exit(status);
        });
        m_process.start(QCoreApplication::applicationFilePath(), {socket, session->name()});
    }

private slots:
    void welcome()
    {
        const QString plugIn = QString::fromUtf8(m_process.readLine()).trimmed();
        m_session->give().join(plugIn, "says", {"QString"}, m_ear, "says(QString)");
        QMetaObject::invokeMethod(m_window, "word", Q_ARG(QString, "teh"));
    }

    void hear(const QString &text)
    {
        print("the plug-in says " + text);
        QMetaObject::invokeMethod(m_window, "closing");
    }

private:
    static void print(const QString &text) { QTextStream(stdout) << text << Qt::endl; }

    Session *m_session;
    RemoteObject *m_window, *m_ear;
    QProcess m_process;
};

int run(const QStringList &words)
{
    Session *session = Connection::toFront(words[0], {}, qApp)->session();
    if (words.size() > 1)
        return plugIn(session, words[1]);
    const Host host(session, words[0]);
    return QCoreApplication::exec();
}

int main(int count, char **words) { return runExample<QCoreApplication>(count, words, "plug_in_host SOCKET", 2, run); }

#include "plug_in_host.moc"
