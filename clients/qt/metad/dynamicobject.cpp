#include "dynamicobject.h"

#include "relays.h"
#include "session.h"

#include <QCoreApplication>
#include <QDynamicPropertyChangeEvent>
#include <QMetaMethod>
#include <QScopedValueRollback>
#include <QSet>

namespace Metad {

namespace {

constexpr int ofQObjectMethods = 3; // destroyed(), objectNameChanged(QString) and deleteLater(), which QObject has here too
constexpr int ofQObjectProperties = 1; // objectName

const auto disconnected = QEvent::Type(QEvent::registerEventType()); // something no longer hears a signal

int firstMethod()
{
    return RemoteObject::staticMetaObject.methodCount();
}

QString text(const char *word)
{
    return QString::fromLatin1(word);
}

} // namespace

DynamicObject::DynamicObject(Session *session, quint32 number, std::shared_ptr<const ClassInfo> info)
    : RemoteObject(session, number), m_info(std::move(info))
{
    for (const PropertyInfo &it : m_info->properties())
        m_values.append(QVariant(it.type));
    connect(this, &QObject::objectNameChanged, this, [this](const QString &name) {
        if (!m_isApplying)
            write(0, QStringLiteral("objectName"), name);
    });
}

DynamicObject::~DynamicObject()
{
    if (!m_session)
        return;
    const QList<int> heard = m_heard.keys();
    for (const int method : heard)
        stop(method);
    if (!m_isGone)
        m_session->forget(m_number);
}

const QMetaObject *DynamicObject::metaObject() const
{
    return m_info->metaObject();
}

/// `inherits` asks this for the name of a class.
void *DynamicObject::qt_metacast(const char *className)
{
    for (const QMetaObject *it = metaObject(); it != &RemoteObject::staticMetaObject; it = it->superClass()) {
        if (qstrcmp(it->className(), className) == 0)
            return this;
    }
    return RemoteObject::qt_metacast(className);
}

int DynamicObject::qt_metacall(QMetaObject::Call call, int id, void **argv)
{
    id = RemoteObject::qt_metacall(call, id, argv);
    if (id < 0)
        return id;
    const int methods = int(m_info->methods().size()) - ofQObjectMethods;
    const int properties = int(m_info->properties().size()) - ofQObjectProperties;
    const int property = id + ofQObjectProperties;
    switch (call) {
    case QMetaObject::InvokeMetaMethod:
        if (id < methods)
            invoke(id + ofQObjectMethods, argv);
        return id - methods;
    case QMetaObject::RegisterMethodArgumentMetaType:
        if (id < methods)
            *reinterpret_cast<QMetaType *>(argv[0]) = QMetaType();
        return id - methods;
    case QMetaObject::ReadProperty:
        if (id < properties)
            readInto(property, argv);
        return id - properties;
    case QMetaObject::WriteProperty:
        if (id < properties)
            write(property, m_info->properties()[property].name, QVariant(m_info->properties()[property].type, argv[0]));
        return id - properties;
    case QMetaObject::ResetProperty:
    case QMetaObject::RegisterPropertyMetaType:
    case QMetaObject::BindableProperty:
        return id - properties;
    default:
        return id;
    }
}

void DynamicObject::readInto(int property, void **argv) const
{
    const QMetaType type = m_info->properties()[property].type;
    type.destruct(argv[0]);
    type.construct(argv[0], m_values[property].constData());
}

/// Sends a call of a slot, or a signal that is to be sent.
void DynamicObject::invoke(int method, void **argv)
{
    const MethodInfo &called = m_info->methods()[method];
    QVariantList args;
    for (int it = 0; it < called.types.size(); ++it)
        args.append(QVariant(typeNamed(called.types[it]), argv[it + 1]));
    ask(text("invoke"), {{text("method"), QString::fromUtf8(called.signature)}, {text("args"), args}}, [this](const QVariant *, const Error *error) {
        if (error)
            tell(*error);
    });
}

/// Sends a value of a property. Where no signal will report the change it is read back; a property of -1 is dynamic.
void DynamicObject::write(int property, const QString &name, const QVariant &value)
{
    ask(text("set"), {{text("property"), name}, {text("value"), value}}, [this, property](const QVariant *, const Error *error) {
        if (!error)
            return;
        if (property >= 0)
            readBack(property);
        tell(*error);
    });
    if (property >= 0 && !m_heard.contains(m_info->properties()[property].notify))
        readBack(property);
}

/// Reads a property after it was written. Where that has changed it and the server's signal is not heard, it is emitted here.
void DynamicObject::readBack(int property)
{
    const PropertyInfo &info = m_info->properties()[property];
    ask(text("get"), {{text("property"), info.name}}, [this, property](const QVariant *value, const Error *) {
        if (!value)
            return;
        const QVariant before = m_values[property];
        apply(property, *value);
        const int notify = m_info->properties()[property].notify;
        if (notify >= 0 && before != m_values[property])
            emitSignal(notify, {m_values[property]});
    });
}

void DynamicObject::begin(const Ready &ready)
{
    for (int it = 0; it < m_info->methods().size(); ++it) {
        if (m_info->methods()[it].isSignal && m_info->methods()[it].sentAs == it && (it < ofQObjectMethods || isNotify(it)))
            listen(it);
    }
    load(ready);
}

void DynamicObject::load(const Ready &ready)
{
    ask(text("properties"), {}, [this, ready](const QVariant *value, const Error *error) {
        if (value)
            fill(value->toList());
        ready(error);
    });
}

void DynamicObject::fill(const QVariantList &values)
{
    for (const QVariant &one : values) {
        const QVariantMap map = one.toMap();
        const QString name = map.value(text("name")).toString();
        const int property = m_info->propertyOf(name);
        if (property >= 0) {
            apply(property, map.value(text("value")));
        } else {
            const QScopedValueRollback<bool> applying(m_isApplying, true);
            setProperty(name.toUtf8().constData(), map.value(text("value")));
        }
    }
}

Reply DynamicObject::refresh()
{
    const auto promise = std::make_shared<QPromise<QVariant>>();
    promise->start();
    load([promise](const Error *error) {
        if (error)
            promise->setException(*error);
        else
            promise->addResult(QVariant(true));
        promise->finish();
    });
    return promise->future();
}

/// Takes a value that the server has told.
void DynamicObject::apply(int property, const QVariant &value)
{
    QVariant converted = value;
    if (!converted.convert(m_info->properties()[property].type))
        return;
    m_values[property] = converted;
    if (property < ofQObjectProperties) {
        const QScopedValueRollback<bool> applying(m_isApplying, true);
        setObjectName(converted.toString());
    }
}

bool DynamicObject::isNotify(int method) const
{
    for (const PropertyInfo &it : m_info->properties()) {
        if (it.notify == method)
            return true;
    }
    return false;
}

int DynamicObject::methodOf(const QMetaMethod &method) const
{
    const int found = method.methodIndex() - firstMethod() + ofQObjectMethods;
    return found >= ofQObjectMethods && found < m_info->methods().size() ? m_info->methods()[found].sentAs : -1;
}

void DynamicObject::connectNotify(const QMetaMethod &signal)
{
    const int method = methodOf(signal);
    if (method >= 0 && !listen(method))
        tell({text("NoRelay"), QString::fromUtf8(signal.methodSignature())
                + tr(" cannot be heard: the server has no class Relay with a slot for its types")});
}

/// Qt may call this with a lock held that its own functions take, as `isSignalConnected` does. So an event does the rest.
void DynamicObject::disconnectNotify(const QMetaMethod &)
{
    QCoreApplication::postEvent(this, new QEvent(disconnected));
}

/// Stops listening to the signals of the class that nobody hears any more.
void DynamicObject::stopUnheard()
{
    QSet<int> heard;
    for (int at = ofQObjectMethods; at < m_info->methods().size(); ++at) {
        if (m_info->methods()[at].isSignal && isSignalConnected(metaObject()->method(at - ofQObjectMethods + firstMethod())))
            heard.insert(m_info->methods()[at].sentAs);
    }
    for (int at = ofQObjectMethods; at < m_info->methods().size(); ++at) {
        const int method = m_info->methods()[at].sentAs;
        if (method >= 0 && m_heard.value(method) && !isNotify(method) && !heard.contains(method))
            stop(method);
    }
}

/// Connects a signal to a relay, where that is not done already; false where no relay takes its types.
bool DynamicObject::listen(int method)
{
    if (m_heard.contains(method) || !m_session)
        return true;
    const MethodInfo &signal = m_info->methods()[method];
    const QByteArray types = typesIn(signal.signature);
    const quint32 relay = m_session->m_relays->numberOf(signal.relay, types);
    if (!relay)
        return false;
    m_heard.insert(method, 0);
    const QVariantMap keys{{text("sender"), m_number}, {text("signal"), QString::fromUtf8(signal.signature)},
        {text("receiver"), relay}, {text("method"), QString::fromUtf8("hear(" + types + ')')}};
    const QPointer<DynamicObject> self(this);
    m_session->ask(text("connect"), keys, [self, session = m_session, method](const QVariant *value, const Error *error) {
        if (self && error) {
            self->m_heard.remove(method);
            self->tell(*error);
        } else if (self && self->m_heard.contains(method)) {
            self->m_heard[method] = value->toUInt();
            self->stopUnheard(); // whoever wanted to hear it may have gone meanwhile
        } else if (session && value) {
            session->ask(text("disconnect"), {{text("connection"), *value}}, [](const QVariant *, const Error *) {});
        }
    });
    return true;
}

void DynamicObject::stop(int method)
{
    const quint32 connection = m_heard.take(method);
    if (connection && m_session && !m_isGone)
        m_session->ask(text("disconnect"), {{text("connection"), connection}}, [](const QVariant *, const Error *) {});
}

bool DynamicObject::event(QEvent *event)
{
    if (event->type() == QEvent::DynamicPropertyChange && !m_isApplying) {
        const QByteArray name = static_cast<QDynamicPropertyChangeEvent *>(event)->propertyName();
        if (!name.startsWith("_q_"))
            write(-1, QString::fromUtf8(name), property(name.constData()));
    } else if (event->type() == disconnected) {
        stopUnheard();
    }
    return RemoteObject::event(event);
}

void DynamicObject::hear(const QByteArray &types, int relay, const QVariantList &args)
{
    const int method = m_info->signalOf(types, relay);
    if (method < 0 || !m_session)
        return;
    QList<int> changed;
    for (int it = 0; it < m_info->properties().size(); ++it) {
        if (m_info->properties()[it].notify == method)
            changed.append(it);
    }
    const QPointer<DynamicObject> self(this);
    const auto emission = m_session->m_emissions->add([self, method, args] {
        if (self)
            self->emitSignal(method, args);
    }, int(changed.size()));
    for (const int property : std::as_const(changed))
        read(property, emission);
}

/// Reads a property for an emission. A reading that is under way already tells the value of now: lines come in order.
void DynamicObject::read(int property, const std::shared_ptr<Emission> &emission)
{
    if (const auto reading = m_reading.value(property)) {
        reading->append(emission);
        return;
    }
    const auto waiting = std::make_shared<Waiting>(Waiting{emission});
    m_reading.insert(property, waiting);
    const QPointer<DynamicObject> self(this);
    const QVariantMap keys{{text("object"), m_number}, {text("property"), m_info->properties()[property].name}};
    // signals of other objects wait too, so all goes on when this object is destroyed
    m_session->ask(text("get"), keys, [self, session = m_session, property, waiting](const QVariant *value, const Error *) {
        if (self)
            self->m_reading.remove(property);
        if (self && value)
            self->apply(property, *value);
        for (const auto &it : std::as_const(*waiting)) {
            if (session)
                session->m_emissions->release(it);
        }
    });
}

/// Emits a signal, and those of subclasses that declare it again.
void DynamicObject::emitSignal(int method, const QVariantList &args)
{
    const MethodInfo &sent = m_info->methods()[method];
    QVariantList converted = args;
    QList<void *> argv{nullptr};
    for (int it = 0; it < sent.types.size(); ++it) {
        if (it >= converted.size() || !converted[it].convert(typeNamed(sent.types[it])))
            return;
        argv.append(converted[it].data());
    }
    const QPointer<DynamicObject> self(this);
    const auto info = m_info;
    for (const MethodInfo &it : info->methods()) {
        if (self && it.isSignal && it.sentAs == method && it.owner)
            QMetaObject::activate(this, it.owner, it.local, argv.data());
    }
    if (self && !sent.owner && sent.signature == "destroyed()")
        end();
}

void DynamicObject::end()
{
    if (m_isGone)
        return;
    m_isGone = true;
    m_heard.clear();
    if (m_session)
        m_session->forget(m_number);
    emit gone();
}

void DynamicObject::tell(const Error &error)
{
    const QPointer<DynamicObject> self(this);
    const QPointer<Session> session = m_session;
    emit refused(error);
    if (session)
        emit session->failed(error);
}

void DynamicObject::ask(const QString &word, QVariantMap keys, const std::function<void(const QVariant *, const Error *)> &answered)
{
    if (!m_session)
        return;
    keys.insert(text("object"), m_number);
    const QPointer<DynamicObject> self(this);
    m_session->ask(word, keys, [self, answered](const QVariant *value, const Error *error) {
        if (self)
            answered(value, error);
    });
}

} // namespace Metad
