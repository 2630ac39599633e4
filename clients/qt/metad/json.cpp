#include "json.h"

#include <QStringList>

#include <limits>

namespace Metad::Json {

namespace {

class Reader {
public:
    explicit Reader(const QByteArray &text) : m_at(text.constData()), m_end(m_at + text.size()) { }

    std::optional<QVariant> document()
    {
        const std::optional<QVariant> found = value(levelsMost);
        skipSpace();
        return m_at == m_end ? found : std::nullopt;
    }

private:
    const char *m_at;
    const char *m_end;

    void skipSpace()
    {
        while (m_at != m_end && (*m_at == ' ' || *m_at == '\t' || *m_at == '\n' || *m_at == '\r'))
            ++m_at;
    }

    bool takes(char one)
    {
        skipSpace();
        if (m_at == m_end || *m_at != one)
            return false;
        ++m_at;
        return true;
    }

    std::optional<QVariant> word(const char *text, const QVariant &meaning)
    {
        for (const char *it = text; *it; ++it, ++m_at) {
            if (m_at == m_end || *m_at != *it)
                return std::nullopt;
        }
        return meaning;
    }

    std::optional<QVariant> value(int levels)
    {
        skipSpace();
        if (m_at == m_end || levels == 0)
            return std::nullopt;
        switch (*m_at) {
        case '{': return object(levels - 1);
        case '[': return array(levels - 1);
        case '"': return text();
        case 't': return word("true", true);
        case 'f': return word("false", false);
        case 'n': return word("null", QVariant::fromValue(nullptr));
        default: return number();
        }
    }

    std::optional<QVariant> object(int levels)
    {
        ++m_at;
        QVariantMap found;
        if (takes('}'))
            return found;
        do {
            skipSpace();
            if (m_at == m_end || *m_at != '"')
                return std::nullopt;
            const std::optional<QVariant> key = text();
            if (!key || !takes(':'))
                return std::nullopt;
            const std::optional<QVariant> member = value(levels);
            if (!member)
                return std::nullopt;
            found.insert(key->toString(), *member);
        } while (takes(','));
        return takes('}') ? std::optional<QVariant>(found) : std::nullopt;
    }

    std::optional<QVariant> array(int levels)
    {
        ++m_at;
        QVariantList found;
        if (takes(']'))
            return found;
        do {
            const std::optional<QVariant> item = value(levels);
            if (!item)
                return std::nullopt;
            found.append(*item);
        } while (takes(','));
        return takes(']') ? std::optional<QVariant>(found) : std::nullopt;
    }

    std::optional<QVariant> number()
    {
        const bool isNegative = *m_at == '-';
        if (isNegative)
            ++m_at;
        const char *first = m_at;
        quint64 size = 0;
        while (m_at != m_end && *m_at >= '0' && *m_at <= '9') {
            const quint64 digit = quint64(*m_at++ - '0');
            if (size > (std::numeric_limits<quint64>::max() - digit) / 10)
                return std::nullopt;
            size = size * 10 + digit;
        }
        const bool isWhole = m_at != first && (*first != '0' || m_at == first + 1)
            && (m_at == m_end || (*m_at != '.' && *m_at != 'e' && *m_at != 'E'));
        constexpr quint64 half = quint64(1) << 63;
        if (!isWhole || (isNegative && size > half))
            return std::nullopt;
        if (!isNegative && size >= half)
            return QVariant(qulonglong(size));
        return QVariant(qlonglong(isNegative ? ~size + 1 : size));
    }

    std::optional<QVariant> text()
    {
        ++m_at;
        QString found;
        const char *from = m_at;
        for (; m_at != m_end && *m_at != '"'; from = m_at) {
            while (m_at != m_end && *m_at != '"' && *m_at != '\\') {
                if (uchar(*m_at) < 0x20)
                    return std::nullopt;
                ++m_at;
            }
            found += QString::fromUtf8(from, m_at - from);
            if (m_at != m_end && *m_at == '\\' && !escape(found))
                return std::nullopt;
        }
        if (m_at == m_end)
            return std::nullopt;
        ++m_at;
        return found;
    }

    bool escape(QString &found)
    {
        if (m_end - m_at < 2)
            return false;
        const char kind = m_at[1];
        m_at += 2;
        if (kind == 'u')
            return unit(found);
        static const char kinds[] = "\"\\/bfnrt", meant[] = "\"\\/\b\f\n\r\t";
        for (int it = 0; kinds[it]; ++it) {
            if (kinds[it] == kind) {
                found += QLatin1Char(meant[it]);
                return true;
            }
        }
        return false;
    }

    bool unit(QString &found)
    {
        if (m_end - m_at < 4)
            return false;
        bool isHexadecimal = false;
        const ushort read = QByteArray(m_at, 4).toUShort(&isHexadecimal, 16);
        m_at += 4;
        found += QChar(read);
        return isHexadecimal;
    }
};

bool append(QByteArray &to, const QVariant &value, int levels);

bool appendText(QByteArray &to, const QString &text)
{
    if (!text.isValidUtf16())
        return false;
    to += '"';
    for (const char one : text.toUtf8()) {
        if (one == '"' || one == '\\')
            to += '\\';
        if (uchar(one) < 0x20)
            to += "\\u" + QByteArray::number(uchar(one), 16).rightJustified(4, '0');
        else
            to += one;
    }
    to += '"';
    return true;
}

bool appendList(QByteArray &to, const QVariantList &list, int levels)
{
    to += '[';
    for (qsizetype it = 0; it < list.size(); ++it) {
        if (it)
            to += ',';
        if (!append(to, list[it], levels))
            return false;
    }
    to += ']';
    return true;
}

bool appendMap(QByteArray &to, const QVariantMap &map, int levels)
{
    to += '{';
    for (auto it = map.begin(); it != map.end(); ++it) {
        if (it != map.begin())
            to += ',';
        if (!appendText(to, it.key()))
            return false;
        to += ':';
        if (!append(to, it.value(), levels))
            return false;
    }
    to += '}';
    return true;
}

bool append(QByteArray &to, const QVariant &value, int levels)
{
    if (isNull(value)) {
        to += "null";
        return true;
    }
    if (levels == 0)
        return false;
    switch (value.metaType().id()) {
    case QMetaType::Bool: to += value.toBool() ? "true" : "false"; return true;
    case QMetaType::Short:
    case QMetaType::Int:
    case QMetaType::Long:
    case QMetaType::LongLong: to += QByteArray::number(value.toLongLong()); return true;
    case QMetaType::UShort:
    case QMetaType::UInt:
    case QMetaType::ULong:
    case QMetaType::ULongLong: to += QByteArray::number(value.toULongLong()); return true;
    case QMetaType::QString: return appendText(to, value.toString());
    case QMetaType::QStringList:
    case QMetaType::QVariantList: return appendList(to, value.toList(), levels - 1);
    case QMetaType::QVariantMap: return appendMap(to, value.toMap(), levels - 1);
    default: return false;
    }
}

} // namespace

std::optional<QVariant> read(const QByteArray &text)
{
    return Reader(text).document();
}

std::optional<QByteArray> write(const QVariant &value)
{
    QByteArray written;
    return append(written, value, levelsMost) ? std::optional<QByteArray>(written) : std::nullopt;
}

bool isNull(const QVariant &value)
{
    return !value.isValid() || value.metaType().id() == QMetaType::Nullptr;
}

} // namespace Metad::Json
