#include "connection.h"

#include "json.h"
#include "session.h"

#include <QAbstractSocket>
#include <QLocalSocket>
#include <QProcess>

namespace Metad {

namespace {

constexpr qsizetype commandMost = 65'536; // bytes of a line that the server reads, without its end
constexpr qsizetype nameMost = 64;
constexpr qsizetype lineMost = 64 * 1024 * 1024; // bytes of a line that the client reads

} // namespace

Connection::Connection(QIODevice *device, bool isFront, QObject *parent)
    : QObject(parent), m_device(device), m_isFront(isFront)
{
    device->setParent(this);
    m_timer.setSingleShot(true);
    connect(&m_timer, &QTimer::timeout, this, &Connection::late);
}

Connection::~Connection()
{
    fail({QStringLiteral("ServerGone"), tr("the connection was destroyed")});
}

Connection *Connection::toFront(const QString &path, const FrontOptions &options, QObject *parent)
{
    auto *socket = new QLocalSocket;
    Connection *made = overFront(socket, options, parent);
    QMetaObject::invokeMethod(socket, [socket, path] { socket->connectToServer(path); }, Qt::QueuedConnection);
    return made;
}

Connection *Connection::overFront(QIODevice *device, const FrontOptions &options, QObject *parent)
{
    auto *made = new Connection(device, true, parent);
    made->m_timeout = options.timeout;
    made->hello(options);
    made->watch();
    return made;
}

Connection *Connection::start(const QString &program, const QStringList &words, QObject *parent)
{
    auto *process = new QProcess;
    Connection *made = overServer(process, parent);
    QMetaObject::invokeMethod(process, [process, program, words] { process->start(program, words); }, Qt::QueuedConnection);
    return made;
}

Connection *Connection::overServer(QIODevice *device, QObject *parent)
{
    auto *made = new Connection(device, false, parent);
    made->watch();
    return made;
}

/// Follows the device from connecting to its end. What each kind of device says of that differs.
void Connection::watch()
{
    connect(m_device, &QIODevice::readyRead, this, &Connection::arrived);
    bool isThere = m_device->isOpen();
    if (auto *local = qobject_cast<QLocalSocket *>(m_device)) {
        isThere = local->state() == QLocalSocket::ConnectedState;
        connect(local, &QLocalSocket::connected, this, &Connection::begin);
        connect(local, &QLocalSocket::errorOccurred, this, &Connection::ended);
        connect(local, &QLocalSocket::disconnected, this, &Connection::ended);
    } else if (auto *socket = qobject_cast<QAbstractSocket *>(m_device)) {
        isThere = socket->state() == QAbstractSocket::ConnectedState;
        connect(socket, &QAbstractSocket::connected, this, &Connection::begin);
        connect(socket, &QAbstractSocket::errorOccurred, this, &Connection::ended);
        connect(socket, &QAbstractSocket::disconnected, this, &Connection::ended);
    } else if (auto *process = qobject_cast<QProcess *>(m_device)) {
        isThere = process->state() == QProcess::Running;
        connect(process, &QProcess::started, this, &Connection::begin);
        connect(process, &QProcess::finished, this, &Connection::ended);
        connect(process, &QProcess::errorOccurred, this, [this](QProcess::ProcessError error) {
            if (error == QProcess::FailedToStart)
                ended();
        });
    } else {
        connect(m_device, &QIODevice::readChannelFinished, this, &Connection::ended);
        connect(m_device, &QIODevice::aboutToClose, this, &Connection::ended);
    }
    if (isThere)
        QMetaObject::invokeMethod(this, &Connection::begin, Qt::QueuedConnection);
}

/// The device has ended, or could not be reached. What has arrived until then is taken first.
void Connection::ended()
{
    const QPointer<Connection> self(this);
    arrived();
    takeLines();
    if (self)
        fail(m_isReady ? gone() : Error(QStringLiteral("CannotConnect"), m_device ? m_device->errorString() : QString()));
}

/// Asks the front for a session, before anything else is written.
void Connection::hello(const FrontOptions &options)
{
    QVariantMap asked{{QStringLiteral("front"), options.share.isEmpty() ? QStringLiteral("hello") : QStringLiteral("share")}};
    if (!options.share.isEmpty())
        asked.insert(QStringLiteral("session"), options.share);
    if (!options.group.isEmpty())
        asked.insert(QStringLiteral("group"), options.group);
    if (options.live)
        asked.insert(QStringLiteral("live"), true);
    write(*Json::write(asked), [this, isLiveWanted = options.live](const QVariant *, const Error *error) {
        if (error) {
            fail(*error);
        } else if (isLiveWanted && !m_isLive) {
            fail({QStringLiteral("NotLive"), tr("the front has no live sessions")});
        } else {
            m_isOpen = true;
            emit opened();
        }
    });
}

void Connection::begin()
{
    if (m_isReady || m_hasEnded)
        return;
    m_isReady = true;
    flush();
    if (!m_isFront) {
        m_isOpen = true;
        emit opened();
    }
}

Session *Connection::session(const QString &name)
{
    const QString known = m_isFront ? QString() : name;
    Session *&found = m_sessions[known];
    if (!found)
        found = new Session(this, name);
    return found;
}

void Connection::close()
{
    fail({QStringLiteral("ServerGone"), tr("the connection was closed")});
}

void Connection::give(const QString &session, QVariantMap keys, const Answered &answered)
{
    const QString asked = keys.value(QStringLiteral("do")).toString();
    if (!m_isFront)
        keys.insert(QStringLiteral("session"), session);
    const std::optional<QByteArray> line = Json::write(keys);
    if (!line) {
        refuse(answered, {QStringLiteral("NoValue"), asked + tr(": a value is not a truth, a whole number, a text, null, a list or a map of these")});
        return;
    }
    const qsizetype added = m_isFront ? nameMost + qsizetype(sizeof(",\"session\":\"\"")) : 0;
    if (line->size() + added > commandMost) {
        refuse(answered, {QStringLiteral("LineTooLong"), asked + tr(": the line has more than %1 bytes").arg(commandMost)});
        return;
    }
    write(*line, [asked, answered](const QVariant *value, const Error *error) {
        const Error told = error ? Error(error->code(), asked + QStringLiteral(": ") + error->text()) : Error();
        answered(value, error ? &told : nullptr);
    });
}

void Connection::write(const QByteArray &line, const Answered &answered)
{
    if (m_hasEnded) {
        refuse(answered, m_fault);
        return;
    }
    const auto never = QDeadlineTimer(QDeadlineTimer::Forever);
    m_pending.enqueue({answered, m_timeout.count() ? QDeadlineTimer(m_timeout) : never});
    m_output += line + '\n';
    flush();
    if (!m_timer.isActive())
        arm();
}

/// Reports a refusal in the same way as answers: after the caller has returned.
void Connection::refuse(const Answered &answered, const Error &error)
{
    QMetaObject::invokeMethod(this, [answered, error] { answered(nullptr, &error); }, Qt::QueuedConnection);
}

void Connection::flush()
{
    if (!m_isReady || m_output.isEmpty() || !m_device)
        return;
    m_device->write(m_output);
    m_output.clear();
}

void Connection::arrived()
{
    if (!m_device || !m_device->isOpen() || m_hasEnded)
        return;
    m_input += m_device->readAll();
    if (!m_isTaking) {
        m_isTaking = true;
        QMetaObject::invokeMethod(this, &Connection::takeLines, Qt::QueuedConnection);
    }
}

/// Takes all whole lines that have arrived. It is not called by `readyRead`, so that a callback may wait for further lines.
void Connection::takeLines()
{
    m_isTaking = false;
    const QPointer<Connection> self(this);
    while (self && !m_hasEnded) {
        const std::optional<QByteArray> line = takeLine();
        if (!line)
            break;
        const std::optional<QVariant> read = Json::read(*line);
        if (read && read->metaType().id() == QMetaType::QVariantMap)
            take(read->toMap());
        else
            fail({QStringLiteral("StrangeLine"), tr("the server wrote a line that this client cannot read: ") + QString::fromUtf8(line->left(80))});
    }
}

std::optional<QByteArray> Connection::takeLine()
{
    const qsizetype end = m_input.indexOf('\n', m_seen);
    if (end >= 0) {
        const QByteArray line = m_input.left(end);
        m_input.remove(0, end + 1);
        m_seen = 0;
        return line;
    }
    m_seen = m_input.size();
    if (m_seen > lineMost)
        fail({QStringLiteral("LineTooLong"), tr("the server wrote a line of more than %1 bytes").arg(lineMost)});
    return std::nullopt;
}

void Connection::take(const QVariantMap &line)
{
    Session *session = sessionOf(line);
    if (m_isFront && session && line.value(QStringLiteral("session")) != QStringLiteral("-"))
        session->setName(line.value(QStringLiteral("session")).toString());
    if (line.contains(QStringLiteral("live")))
        m_isLive = line.value(QStringLiteral("live")).toBool();
    if (line.contains(QStringLiteral("front"))) {
        m_isLive = m_isLive && !line.contains(QStringLiteral("error"));
        if (session)
            session->hearSpin(line);
    } else if (line.contains(QStringLiteral("reply")) || line.contains(QStringLiteral("error"))) {
        answer(line);
    } else if (session) {
        session->hear(line);
    }
}

void Connection::answer(const QVariantMap &line)
{
    const QString code = line.value(QStringLiteral("error")).toString();
    const bool isOfFront = code.startsWith(QLatin1Char('F'));
    if (isOfFront)
        m_fault = {code, tr("the front has ended the session")};
    if (m_pending.isEmpty() || (isOfFront && m_isOpen))
        return;
    const Pending pending = m_pending.dequeue();
    arm();
    if (!pending.answered)
        return;
    if (code.isEmpty()) {
        const QVariant value = line.value(QStringLiteral("reply"));
        pending.answered(&value, nullptr);
    } else {
        const Error error(code, isOfFront ? tr("the front refuses the first line") : meaningOf(code));
        pending.answered(nullptr, &error);
    }
}

Session *Connection::sessionOf(const QVariantMap &line) const
{
    return m_sessions.value(m_isFront ? QString() : line.value(QStringLiteral("session")).toString());
}

/// The error that reports the end of a connection: the front's own error, or how the server ended.
Error Connection::gone() const
{
    if (!m_fault.code().isEmpty())
        return m_fault;
    QString text = tr("the connection has ended");
    if (const auto *process = qobject_cast<QProcess *>(m_device)) {
        const bool isCrash = process->exitStatus() == QProcess::CrashExit;
        text = isCrash ? tr("the server was ended by a signal") : tr("the server has ended with status %1").arg(process->exitCode());
        const QByteArray said = const_cast<QProcess *>(process)->readAllStandardError().trimmed();
        text += said.isEmpty() ? QString() : QStringLiteral(": ") + QString::fromUtf8(said);
    }
    return {QStringLiteral("ServerGone"), text};
}

/// Drops the device. A server ends at the end of its input, so there is no need to wait for it.
void Connection::leave()
{
    if (!m_device)
        return;
    disconnect(m_device, nullptr, this, nullptr);
    auto *process = qobject_cast<QProcess *>(m_device);
    if (process && process->state() != QProcess::NotRunning) {
        process->setParent(nullptr);
        connect(process, &QProcess::finished, process, &QObject::deleteLater);
        process->closeWriteChannel();
    } else {
        m_device->close();
    }
}

void Connection::fail(const Error &error)
{
    if (m_hasEnded)
        return;
    m_hasEnded = true;
    m_isOpen = false;
    m_fault = error;
    m_timer.stop();
    leave();
    const QPointer<Connection> self(this);
    const QQueue<Pending> pending = std::exchange(m_pending, {});
    for (const Pending &it : pending) {
        if (it.answered)
            it.answered(nullptr, &error);
    }
    if (self)
        emit closed(error);
}

/// Has commands fail whose answers take too long. Their places are kept, since answers come in the order of the commands.
void Connection::late()
{
    const QPointer<Connection> self(this);
    for (qsizetype it = 0; self && it < m_pending.size() && m_pending[it].deadline.hasExpired(); ++it) {
        if (const Answered answered = std::exchange(m_pending[it].answered, nullptr)) {
            const Error error(QStringLiteral("TimedOut"), tr("there was no answer in time"));
            answered(nullptr, &error);
        }
    }
    if (self && !m_hasEnded)
        arm();
}

void Connection::arm()
{
    for (const Pending &it : std::as_const(m_pending)) {
        if (it.answered && !it.deadline.isForever()) {
            m_timer.start(std::chrono::milliseconds(it.deadline.remainingTime()));
            return;
        }
    }
    m_timer.stop();
}

} // namespace Metad
