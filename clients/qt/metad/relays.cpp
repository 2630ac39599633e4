#include "relays.h"

#include "classes.h"
#include "session.h"

namespace Metad {

void Relays::ensure(int count, const Ready &ready)
{
    m_session->m_classes->find(QStringLiteral("Relay"), [this, count, ready](const std::shared_ptr<const ClassInfo> &info, const Error *error) {
        if (error) {
            ready(error->code() == QLatin1String("E03") ? nullptr : error);
            return;
        }
        m_slots.clear();
        for (const MethodInfo &it : info->methods())
            m_slots.append(it.signature);
        m_waiting.append({count, ready});
        for (; m_asked < count; ++m_asked)
            make();
        tell(nullptr);
    });
}

void Relays::make()
{
    m_session->ask(QStringLiteral("new"), {{QStringLiteral("class"), QStringLiteral("Relay")}}, [this](const QVariant *value, const Error *error) {
        if (error)
            --m_asked;
        else
            m_numbers.append(value->toUInt());
        tell(error);
    });
}

/// Tells those that wait for so many relays as there are, or all of them of an error.
void Relays::tell(const Error *error)
{
    const QList<Waiting> waiting = std::exchange(m_waiting, {});
    for (const Waiting &it : waiting) {
        if (!error && it.count > m_numbers.size())
            m_waiting.append(it);
    }
    for (const Waiting &it : waiting) {
        if (error || it.count <= m_numbers.size())
            it.ready(error);
    }
}

quint32 Relays::numberOf(int relay, const QByteArray &types) const
{
    return m_slots.contains("hear(" + types + ')') ? m_numbers.value(relay, 0) : 0;
}

void Relays::forget()
{
    m_numbers.clear();
    m_asked = 0;
}

} // namespace Metad
