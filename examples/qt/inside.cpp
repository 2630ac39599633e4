/// A form whose button is enabled by a binding, in a server inside this program: inside CLASSES
/// Its objects are objects of Qt, and there is no process and no socket.
#include <metad/inside.h>
#include <metad/remoteobject.h>
#include <metad/session.h>

#include <QCoreApplication>
#include <QFile>
#include <QTextStream>

using namespace Metad;

/// What the user sees of the form.
class Screen : public QObject {
    Q_OBJECT

public slots:
    void enable(bool isEnabled) { QTextStream(stdout) << "enabled: " << (isEnabled ? "yes" : "no") << Qt::endl; }
};

/// A binding that is true while the text of an object is not empty.
QVariantMap whileNamed(RemoteObject *name)
{
    const QVariantMap isEmpty{{"=", QVariantList{QVariantMap{{"prop", "text"}, {"of", name->number()}}, QVariantMap{{"const", ""}}}}};
    return {{"if", QVariantList{isEmpty, QVariantMap{{"const", false}}, QVariantMap{{"const", true}}}}};
}

/// Prints whether the button is enabled, as a name is typed and then deleted.
void run(const QByteArray &classes)
{
    const std::unique_ptr<Connection> server(Inside::connection(classes));
    Session *session = server->session("form");
    RemoteObject *name = wait(session->create("Text")), *button = wait(session->create("Button"));
    Screen screen;
    QObject::connect(button, SIGNAL(enabledChanged(bool)), &screen, SLOT(enable(bool)));
    wait(session->give().bind(button, "enabled", whileNamed(name)));
    for (const char *text : {"ann", ""}) {
        QTextStream(stdout) << "name: '" << text << "'" << Qt::endl;
        wait(name->set("text", text));
        wait(session->give().status()); // by then the signals have come
    }
}

int main(int count, char **words)
{
    QCoreApplication app(count, words);
    QFile file(app.arguments().value(1));
    if (count != 2) {
        qCritical("usage: inside CLASSES");
        return 2;
    }
    try {
        if (!file.open(QIODevice::ReadOnly))
            throw Error(QStringLiteral("CannotRead"), file.errorString());
        run(file.readAll());
        return 0;
    } catch (const Error &error) {
        qCritical("inside: %s", error.what());
        return 1;
    }
}

#include "inside.moc"
