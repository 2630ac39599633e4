/// An object of a server as a `QObject` with the signals, slots and properties of its class.
#pragma once

#include "commands.h"
#include "error.h"

#include <QObject>
#include <QPointer>

namespace Metad {

class Session;

/// Stands for an object of a server. It is made by `Session::create` and `Session::object`, as a child of the session.
///
/// `metaObject()` has the members of the object's class, so `QObject::connect`, `QSignalSpy`, `QMetaObject::invokeMethod`,
/// `property` and `setProperty` work with it. Calling a slot and setting a property send a command and return at once;
/// `refused` reports what is refused. A value is known here as the server has last told it.
///
/// `objectName` is that of the server, both ways. Deleting this object leaves the one of the server: `remove` deletes that.
class RemoteObject : public QObject {
    Q_OBJECT

public:
    ~RemoteObject() override;

    /// The session that the object is of; null when that is gone.
    Session *session() const;

    /// The object's number in its session.
    quint32 number() const { return m_number; }

    /// Whether the object is known to be deleted in the server.
    bool isGone() const { return m_isGone; }

    /// Sets a property, like `setProperty`, and tells what came of it. The value is not converted before.
    Reply set(const QString &property, const QVariant &value);

    /// Reads all properties from the server again, for those without a signal for their changes.
    virtual Reply refresh() = 0;

    /// Deletes the object in the server, and all below it.
    Reply remove();

signals:
    /// The object was deleted in the server.
    void gone();

    /// What was sent for this object and is waited for by nobody was refused.
    void refused(const Metad::Error &error);

protected:
    RemoteObject(Session *session, quint32 number);

    QPointer<Session> m_session;
    const quint32 m_number;
    bool m_isGone = false;
};

} // namespace Metad
