#include "remoteobject.h"

#include "session.h"

namespace Metad {

RemoteObject::RemoteObject(Session *session, quint32 number) : QObject(session), m_session(session), m_number(number) { }

RemoteObject::~RemoteObject() = default;

Session *RemoteObject::session() const
{
    return m_session;
}

Reply RemoteObject::set(const QString &property, const QVariant &value)
{
    return m_session->give().set(this, property, value);
}

Reply RemoteObject::remove()
{
    return m_session->give().delete_(this);
}

Number::Number(const RemoteObject *object)
    : m_value(object ? QVariant(object->number()) : QVariant::fromValue(nullptr))
{
}

} // namespace Metad
