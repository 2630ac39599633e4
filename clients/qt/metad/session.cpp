#include "session.h"

#include "classes.h"
#include "dynamicobject.h"
#include "emissions.h"
#include "json.h"
#include "relays.h"

#include <QPromise>

namespace Metad {

Session::Session(Connection *connection, const QString &name)
    : QObject(connection),
      m_connection(connection),
      m_name(name),
      m_classes(std::make_unique<Classes>(this)),
      m_relays(std::make_unique<Relays>(this)),
      m_emissions(std::make_unique<Emissions>())
{
}

Session::~Session() = default;

Reply Commands::give(const char *word, QVariantMap keys, const QVariantMap &more) const
{
    keys.insert(more);
    return m_session->command(QString::fromLatin1(word), keys);
}

Reply Session::command(const QString &word, const QVariantMap &keys)
{
    const auto promise = std::make_shared<QPromise<QVariant>>();
    promise->start();
    ask(word, keys, [promise](const QVariant *value, const Error *error) {
        if (error)
            promise->setException(*error);
        else
            promise->addResult(*value);
        promise->finish();
    });
    return promise->future();
}

/// Gives a command. The caller receives its answer unless the session is destroyed before.
void Session::ask(const QString &word, const QVariantMap &keys, const Answered &answered)
{
    QVariantMap line = keys;
    line.insert(QStringLiteral("do"), word);
    const QPointer<Session> self(this);
    const bool isReset = word == QLatin1String("reset");
    m_connection->give(m_name, line, [self, isReset, answered](const QVariant *value, const Error *error) {
        if (self && isReset && value)
            self->forgetAll();
        if (self)
            answered(value, error);
    });
}

/// Asks for a class, and makes the relays by which its signals are heard.
void Session::prepare(const QString &className, const std::function<void(const std::shared_ptr<const ClassInfo> &, const Error *)> &ready)
{
    m_classes->find(className, [this, ready](const std::shared_ptr<const ClassInfo> &info, const Error *error) {
        if (error) {
            ready(nullptr, error);
            return;
        }
        m_relays->ensure(info->relaysNeeded(), [info, ready](const Error *refused) { ready(info, refused); });
    });
}

void Session::make(quint32 number, const std::shared_ptr<const ClassInfo> &info, const Made &made)
{
    DynamicObject *known = m_objects.value(number);
    DynamicObject *object = known ? known : new DynamicObject(this, number, info);
    m_objects.insert(number, object);
    object->begin([object, isNew = !known, made](const Error *error) {
        made(error ? nullptr : object, error);
        if (error && isNew)
            object->deleteLater();
    });
}

QFuture<RemoteObject *> Session::create(const QString &className, Number parent)
{
    QVariantMap keys{{QStringLiteral("class"), className}};
    if (!Json::isNull(parent))
        keys.insert(QStringLiteral("parent"), parent);
    return making([this, className, keys](const Made &made) {
        prepare(className, [this, keys, made](const std::shared_ptr<const ClassInfo> &info, const Error *error) {
            if (error) {
                made(nullptr, error);
                return;
            }
            ask(QStringLiteral("new"), keys, [this, info, made](const QVariant *value, const Error *refused) {
                if (refused)
                    made(nullptr, refused);
                else
                    make(value->toUInt(), info, made);
            });
        });
    });
}

QFuture<RemoteObject *> Session::object(quint32 number)
{
    return making([this, number](const Made &made) {
        ask(QStringLiteral("object"), {{QStringLiteral("object"), number}}, [this, number, made](const QVariant *value, const Error *error) {
            if (error) {
                made(nullptr, error);
                return;
            }
            const QString className = value->toMap().value(QStringLiteral("class")).toString();
            prepare(className, [this, number, made](const std::shared_ptr<const ClassInfo> &info, const Error *refused) {
                if (refused)
                    made(nullptr, refused);
                else
                    make(number, info, made);
            });
        });
    });
}

/// The future of an object that is being made, which succeeds or fails when `made` is called.
QFuture<RemoteObject *> Session::making(const std::function<void(const Made &)> &begin)
{
    const auto promise = std::make_shared<QPromise<RemoteObject *>>();
    promise->start();
    begin([promise](RemoteObject *object, const Error *error) {
        if (error)
            promise->setException(*error);
        else
            promise->addResult(object);
        promise->finish();
    });
    return promise->future();
}

/// Takes a call or a warning.
void Session::hear(const QVariantMap &line)
{
    const quint32 object = line.value(QStringLiteral("object")).toUInt();
    if (line.contains(QStringLiteral("warning"))) {
        emit warned({line.value(QStringLiteral("warning")).toString(), object, line.value(QStringLiteral("property")).toString()});
        return;
    }
    if (!line.contains(QStringLiteral("call")))
        return;
    const Call call{object, line.value(QStringLiteral("call")).toString(), line.value(QStringLiteral("args")).toList(),
        line.value(QStringLiteral("sender")).toUInt()};
    const int relay = m_relays->relayOf(object);
    if (relay < 0)
        emit called(call);
    else if (DynamicObject *sender = m_objects.value(call.sender))
        sender->hear(typesIn(call.method.toUtf8()), relay, call.args);
}

void Session::hearSpin(const QVariantMap &line)
{
    const QString code = line.value(QStringLiteral("error")).toString();
    if (code.isEmpty())
        emit spun(line.value(QStringLiteral("reply")).toMap());
    else
        emit failed({code, QStringLiteral("spin: ") + meaningOf(code)});
}

void Session::forget(quint32 number)
{
    m_objects.remove(number);
}

/// All objects are gone, since the session was reset.
void Session::forgetAll()
{
    m_relays->forget();
    const QHash<quint32, QPointer<DynamicObject>> objects = std::exchange(m_objects, {});
    for (const QPointer<DynamicObject> &it : objects) {
        if (it)
            it->end();
    }
}

} // namespace Metad
