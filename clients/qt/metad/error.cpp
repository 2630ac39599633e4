#include "error.h"

#include "commands.h"

namespace Metad {

Error::Error(const QString &code, const QString &text)
    : m_code(code), m_text(text), m_what((code + QStringLiteral(": ") + text).toUtf8())
{
}

QString meaningOf(const QString &code)
{
    for (const CodeRow &row : codeRows) {
        if (code == QLatin1String(row.code))
            return QString::fromUtf8(row.meaning);
    }
    return {};
}

} // namespace Metad
