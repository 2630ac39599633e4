/// A server inside this program, by the library libmetad: no process, no socket, no thread.
#pragma once

#include "connection.h"

#include <QIODevice>

#include <memory>

struct metad;

namespace Metad {

/// A server of the library, as a device: what is written are lines of commands, and what is read are the lines of answers.
///
/// It opens with this object and ends with it. If it cannot be opened, `isOpen` is false and `errorString` says why. Each
/// server is used by the thread of its object alone; objects in different threads are independent.
class Inside : public QIODevice {
    Q_OBJECT

public:
    /// The turns of each command, as the program has them without `--turns`.
    static constexpr quint32 usualTurns = 10'000;

    /// Opens a server with the classes of a class file, or with the demonstration classes if it is empty.
    explicit Inside(const QByteArray &classes = {}, quint32 turns = usualTurns, QObject *parent = nullptr);
    ~Inside() override;

    /// A connection with a new server inside this program, for the same sessions and objects as over a socket. If the server
    /// cannot be opened, the connection is closed by `CannotConnect`. Events wait for `spin`.
    static Connection *connection(const QByteArray &classes = {}, quint32 turns = usualTurns, QObject *parent = nullptr);

    bool isSequential() const override { return true; }
    qint64 bytesAvailable() const override;
    void close() override;

protected:
    qint64 readData(char *data, qint64 most) override;
    qint64 writeData(const char *data, qint64 length) override;

private:
    struct Closing {
        void operator()(metad *server) const;
    };

    void endLater(const QString &reason);

    std::unique_ptr<metad, Closing> m_server;
    QByteArray m_begun; // a line whose end is not written yet
};

} // namespace Metad
