/// The objects of the server by whose slots the client hears signals. Not part of the public interface.
///
/// A server reports calls of slots, but no signals. So each signal that is to be heard is connected to a slot `hear` that does
/// nothing, of an object of the class `Relay`, as the Python client does it. A call has the sender's number; the relay that is
/// called tells signals of one sender with the same types apart.
#pragma once

#include "error.h"

#include <QHash>
#include <QList>

#include <functional>

namespace Metad {

class Session;

/// The relays of a session.
class Relays {
public:
    using Ready = std::function<void(const Error *error)>;

    explicit Relays(Session *session) : m_session(session) { }

    /// Makes relays until there are so many. Where the server has no class `Relay`, none is made, which is no error.
    void ensure(int count, const Ready &ready);

    /// The number of a relay; 0 where the server has none that takes these types.
    quint32 numberOf(int relay, const QByteArray &types) const;

    /// Which relay an object is; -1 where it is not a relay.
    int relayOf(quint32 number) const { return int(m_numbers.indexOf(number)); }

    /// No object of the session is there any more.
    void forget();

private:
    struct Waiting {
        int count;
        Ready ready;
    };

    void make();
    void tell(const Error *error);

    Session *m_session;
    QList<quint32> m_numbers;
    QList<QByteArray> m_slots;
    QList<Waiting> m_waiting;
    int m_asked = 0;
};

} // namespace Metad
