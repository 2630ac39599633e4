/// A session of a server: its commands, what it hears, and its objects.
#pragma once

#include "commands.h"
#include "connection.h"
#include "error.h"

#include <QFuture>
#include <QHash>
#include <QObject>
#include <QPointer>
#include <QVariant>

#include <memory>

namespace Metad {

class ClassInfo;
class Classes;
class DynamicObject;
class Emissions;
class Relays;
class RemoteObject;

/// A call of a slot or of a functor.
struct Call {
    quint32 object = 0;
    QString method;
    QVariantList args;
    quint32 sender = 0; // 0 where a command or another session called it
};

/// A refusal of something that a slot did, or a property that is in error.
struct Warning {
    QString code;
    quint32 object = 0;
    QString property; // empty where the warning is not of a property
};

/// A session of a server. It is made by `Connection::session`.
class Session : public QObject {
    Q_OBJECT

public:
    ~Session() override;

    /// The connection that it is of.
    Connection *connection() const { return m_connection; }

    /// The name that its lines have, and by which other sessions join it. Behind a front it is known once the front has answered.
    QString name() const { return m_name; }

    /// The commands of the session, each as a method.
    Commands give() { return Commands(this); }

    /// Gives any command by its word and its keys.
    Reply command(const QString &word, const QVariantMap &keys = {});

    /// Makes an object of a class. The future succeeds when the values of its properties are there.
    QFuture<RemoteObject *> create(const QString &className, Number parent = nullptr);

    /// An object that is there already, by its number. It is the same `RemoteObject` however often it is asked for.
    QFuture<RemoteObject *> object(quint32 number);

signals:
    /// A slot or a functor was called.
    void called(const Metad::Call &call);

    /// Something that a slot did was refused, or a property is in error.
    void warned(const Metad::Warning &warning);

    /// The front has given `spin` for this session, with this reply.
    void spun(const QVariantMap &reply);

    /// Something failed that no caller waits for, such as the writing of a property, or the front's own `spin`.
    void failed(const Metad::Error &error);

private:
    friend class Connection;
    friend class DynamicObject;
    friend class Relays;
    friend class Classes;
    using Answered = Connection::Answered;
    using Made = std::function<void(RemoteObject *object, const Error *error)>;

    Session(Connection *connection, const QString &name);
    void setName(const QString &name) { m_name = name; }
    void ask(const QString &word, const QVariantMap &keys, const Answered &answered);
    void prepare(const QString &className, const std::function<void(const std::shared_ptr<const ClassInfo> &, const Error *)> &ready);
    static QFuture<RemoteObject *> making(const std::function<void(const Made &)> &begin);
    void make(quint32 number, const std::shared_ptr<const ClassInfo> &info, const Made &made);
    void hear(const QVariantMap &line);
    void hearSpin(const QVariantMap &line);
    void forget(quint32 number);
    void forgetAll();

    Connection *m_connection;
    QString m_name;
    std::unique_ptr<Classes> m_classes;
    std::unique_ptr<Relays> m_relays;
    std::unique_ptr<Emissions> m_emissions;
    QHash<quint32, QPointer<DynamicObject>> m_objects;
};

/// Waits for a future in a local event loop, and returns its result; throws the `Error` that it fails with, or `TimedOut`.
/// It is for tests and for programs without a user interface.
template<typename Result>
Result wait(const QFuture<Result> &future, std::chrono::milliseconds timeout = std::chrono::seconds(30));

} // namespace Metad

Q_DECLARE_METATYPE(Metad::Call)
Q_DECLARE_METATYPE(Metad::Warning)

#include "waiting.h"
