/// What the tests of the Qt client share: fronts, stand-in servers, and ways to wait that have a limit.
#pragma once

#include <metad/remoteobject.h>
#include <metad/session.h>

#include <QLocalServer>
#include <QLocalSocket>
#include <QProcess>
#include <QTemporaryDir>
#include <QtTest>

#include <memory>

constexpr int patience = 60'000; // milliseconds in which anything has to happen

/// A program that the variable of the environment names; the tests cannot run without it.
QString programNamed(const char *variable);

/// A front with a server, which end with this object.
class Front {
public:
    explicit Front(const QString &classes = QStringLiteral(CLASSES_OF_TESTS));
    ~Front();

    QString path() const { return m_room.filePath(QStringLiteral("socket")); }

    /// A client of the front. The session `team` is shared.
    std::unique_ptr<Metad::Connection> client(const QString &share = {}) const;

    /// Ends the front at once.
    void kill();

private:
    QTemporaryDir m_room;
    QProcess m_process;
};

/// A server that a test writes: it says each of these lines when a line has come, and keeps what it was given.
class StandIn : public QObject {
    Q_OBJECT

public:
    explicit StandIn(const QList<QByteArray> &says);

    QString path() const { return m_server.fullServerName(); }
    QList<QByteArray> given() const { return m_given; }
    void say(const QByteArray &text);
    void close();

private:
    void hear();

    QTemporaryDir m_room;
    QLocalServer m_server;
    QLocalSocket *m_link = nullptr;
    QList<QByteArray> m_says;
    QList<QByteArray> m_given;
};

/// The code that a future fails with; empty where it succeeds.
template<typename Result>
QString codeOf(const QFuture<Result> &future)
{
    try {
        Metad::wait(future, std::chrono::milliseconds(patience));
    } catch (const Metad::Error &error) {
        return error.code();
    }
    return {};
}

/// A text of JSON as a value.
QVariant json(const char *text);
