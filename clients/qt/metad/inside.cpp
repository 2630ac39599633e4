#include "inside.h"

#include <metad.h>

namespace Metad {

void Inside::Closing::operator()(metad *server) const
{
    metad_close(&server);
}

Inside::Inside(const QByteArray &classes, quint32 turns, QObject *parent) : QIODevice(parent)
{
    metad *server = nullptr;
    metad_fault fault{0, 0};
    const metad_status status = metad_open(&server, classes.constData(), std::size_t(classes.size()), turns, nullptr, &fault);
    m_server.reset(server);
    if (status == METAD_DONE)
        open(ReadWrite);
    else if (status == METAD_BAD_CLASSES)
        endLater(tr("class file refused: C0%1 in class %2").arg(fault.kind).arg(fault.class_number));
    else
        endLater(status == METAD_NO_RANDOM ? tr("the system gave no random bytes") : tr("out of memory"));
}

Inside::~Inside()
{
    close();
}

Connection *Inside::connection(const QByteArray &classes, quint32 turns, QObject *parent)
{
    return Connection::overServer(new Inside(classes, turns), parent);
}

qint64 Inside::bytesAvailable() const
{
    return QIODevice::bytesAvailable() + qint64(metad_output_len(m_server.get()));
}

void Inside::close()
{
    if (isOpen())
        QIODevice::close();
    m_server.reset();
}

qint64 Inside::readData(char *data, qint64 most)
{
    std::size_t length = 0;
    metad_output(m_server.get(), data, std::size_t(most), &length);
    return qint64(length);
}

/// Gives the lines that are whole, and keeps the rest until its end is written. Answers can be read when the caller has returned.
qint64 Inside::writeData(const char *data, qint64 length)
{
    m_begun.append(data, length);
    const qsizetype whole = m_begun.lastIndexOf('\n') + 1;
    if (metad_lines(m_server.get(), m_begun.constData(), std::size_t(whole), nullptr) != METAD_DONE)
        endLater(tr("out of memory"));
    m_begun.remove(0, whole);
    if (metad_output_len(m_server.get()))
        QMetaObject::invokeMethod(this, &QIODevice::readyRead, Qt::QueuedConnection);
    return length;
}

/// Ends the device when the caller has returned.
void Inside::endLater(const QString &reason)
{
    setErrorString(reason);
    QMetaObject::invokeMethod(this, &QIODevice::readChannelFinished, Qt::QueuedConnection);
}

} // namespace Metad
