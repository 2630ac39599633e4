#include "expressions.h"

#include "remoteobject.h"

namespace Metad {

Expression prop(const QString &name)
{
    return {QLatin1String("prop"), name};
}

Expression prop(const QString &name, const RemoteObject *of)
{
    Expression read = prop(name);
    read.m_json.insert(QStringLiteral("of"), of->number());
    return read;
}

} // namespace Metad
