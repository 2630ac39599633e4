/// A connection with a front or a server, over which lines are written and read without ever blocking the event loop.
#pragma once

#include "error.h"

#include <QByteArray>
#include <QDeadlineTimer>
#include <QHash>
#include <QIODevice>
#include <QObject>
#include <QPointer>
#include <QQueue>
#include <QTimer>
#include <QVariant>

#include <chrono>
#include <functional>
#include <optional>

namespace Metad {

class Session;

/// What the client asks a front for in its first line.
struct FrontOptions {
    /// The shared session to speak for; empty for a session of its own.
    QString share;
    /// The group that the session is of, where the front has workers.
    QString group;
    /// Whether events come as they happen, without `spin`.
    bool live = true;
    /// How long an answer of the front may take, see `Connection::setTimeout`.
    std::chrono::milliseconds timeout{30'000};
};

/// A connection with a front, or with a server of its own.
///
/// It belongs to the thread that made it, and needs an event loop there. All sessions are its children.
class Connection : public QObject {
    Q_OBJECT

public:
    /// Takes the value of a reply, or an error. Exactly one of them is given.
    using Answered = std::function<void(const QVariant *value, const Error *error)>;

    /// Connects with a front at a Unix-domain socket. Commands may be given at once; they are written when it is connected.
    static Connection *toFront(const QString &path, const FrontOptions &options = {}, QObject *parent = nullptr);

    /// Speaks with a front over any device, such as a `QTcpSocket`. The connection takes the device as its child.
    static Connection *overFront(QIODevice *device, const FrontOptions &options = {}, QObject *parent = nullptr);

    /// Starts a server of its own, which ends with the connection.
    static Connection *start(const QString &program, const QStringList &words = {}, QObject *parent = nullptr);

    /// Speaks with a server over any device. The connection takes the device as its child.
    static Connection *overServer(QIODevice *device, QObject *parent = nullptr);

    ~Connection() override;

    /// Whether the front has answered, or the server is running, and the connection was not closed since.
    bool isOpen() const { return m_isOpen; }

    /// Whether events come as they happen.
    bool isLive() const { return m_isLive; }

    /// How long an answer may take, 30 seconds at first; zero for as long as it likes. It is for commands that are given later.
    void setTimeout(std::chrono::milliseconds timeout) { m_timeout = timeout; }

    /// A session by its name. A front gives each client one session, and names it: there the name is of no importance.
    Session *session(const QString &name = QStringLiteral("main"));

    /// Ends the connection: commands without an answer fail by `ServerGone`.
    void close();

    /// Writes a line for a session, and takes its answer: the way in which sessions give commands.
    void give(const QString &session, QVariantMap keys, const Answered &answered);

signals:
    /// The front has answered, or the server is running.
    void opened();

    /// The connection has ended, for this reason. It is emitted once, after all commands under way have failed.
    void closed(const Metad::Error &error);

private:
    struct Pending {
        Answered answered; // empty where it took too long
        QDeadlineTimer deadline;
    };

    explicit Connection(QIODevice *device, bool isFront, QObject *parent);
    void watch();
    void hello(const FrontOptions &options);
    void begin();
    void ended();
    void write(const QByteArray &line, const Answered &answered);
    void flush();
    void arrived();
    void takeLines();
    std::optional<QByteArray> takeLine();
    void take(const QVariantMap &line);
    void answer(const QVariantMap &line);
    void refuse(const Answered &answered, const Error &error);
    void leave();
    void fail(const Error &error);
    void late();
    void arm();
    Session *sessionOf(const QVariantMap &line) const;
    Error gone() const;

    QPointer<QIODevice> m_device;
    const bool m_isFront;
    bool m_isReady = false;
    bool m_isOpen = false;
    bool m_isLive = false;
    bool m_hasEnded = false;
    bool m_isTaking = false;
    std::chrono::milliseconds m_timeout{30'000};
    QByteArray m_input;
    qsizetype m_seen = 0; // how much of the input holds no end of a line
    QByteArray m_output;
    QQueue<Pending> m_pending;
    QHash<QString, Session *> m_sessions;
    QTimer m_timer;
    Error m_fault; // what the front said before it closed the connection
};

} // namespace Metad
