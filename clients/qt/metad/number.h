/// The number of an object or a connection, as commands take it.
#pragma once

#include <QVariant>

#include <type_traits>

namespace Metad {

class RemoteObject;

/// The number of an object or a connection: a whole number, a `RemoteObject`, or null for no object.
class Number {
public:
    template<typename Whole, typename = std::enable_if_t<std::is_integral_v<Whole>>>
    Number(Whole number) : m_value(QVariant::fromValue(std::is_signed_v<Whole> ? QVariant(qlonglong(number)) : QVariant(qulonglong(number))))
    {
    }
    Number(std::nullptr_t) : m_value(QVariant::fromValue(nullptr)) { }
    Number(const RemoteObject *object);
    Number(const QVariant &reply) : m_value(reply) { }

    operator QVariant() const { return m_value; }

private:
    QVariant m_value;
};

} // namespace Metad
