#include "support.h"

#include <metad/json.h>

QString programNamed(const char *variable)
{
    const QString found = qEnvironmentVariable(variable);
    if (found.isEmpty())
        qFatal("%s has to name a program", variable);
    return found;
}

Front::Front(const QString &classes)
{
    m_process.setProcessChannelMode(QProcess::MergedChannels);
    m_process.start(programNamed("METAD_FRONT"), {QStringLiteral("--share"), QStringLiteral("team"), path(), programNamed("METAD"), classes});
    QByteArray said;
    while (!said.contains("listening") && m_process.waitForReadyRead(patience))
        said += m_process.readAll();
    if (!said.contains("listening"))
        qFatal("the front does not listen: %s", said.constData());
}

Front::~Front()
{
    m_process.terminate();
    if (!m_process.waitForFinished(patience))
        m_process.kill();
}

void Front::kill()
{
    m_process.kill();
    m_process.waitForFinished(patience);
}

std::unique_ptr<Metad::Connection> Front::client(const QString &share) const
{
    Metad::FrontOptions options;
    options.share = share;
    return std::unique_ptr<Metad::Connection>(Metad::Connection::toFront(path(), options));
}

StandIn::StandIn(const QList<QByteArray> &says) : m_says(says)
{
    m_server.listen(m_room.filePath(QStringLiteral("socket")));
    connect(&m_server, &QLocalServer::newConnection, this, [this] {
        m_link = m_server.nextPendingConnection();
        connect(m_link, &QLocalSocket::readyRead, this, &StandIn::hear);
    });
}

void StandIn::hear()
{
    while (m_link->canReadLine()) {
        m_given.append(m_link->readLine().trimmed());
        if (!m_says.isEmpty())
            say(m_says.takeFirst());
    }
}

void StandIn::say(const QByteArray &text)
{
    m_link->write(text);
    m_link->flush();
}

void StandIn::close()
{
    m_link->disconnectFromServer();
}

QVariant json(const char *text)
{
    const auto read = Metad::Json::read(text);
    if (!read)
        qFatal("not JSON: %s", text);
    return *read;
}
