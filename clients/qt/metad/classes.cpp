#include "classes.h"

#include "remoteobject.h"
#include "session.h"

#include <algorithm>
#include <cstring>

namespace Metad {

namespace {

// Numbers of the tables that moc writes.
constexpr uint revision = 10;
constexpr uint headerSize = 14;
constexpr uint methodSize = 6;
constexpr uint propertiesAt = 7; // where the header says where the properties begin
constexpr uint emptyText = 1;    // its number among the texts
constexpr uint isPublicSignal = 0x06;
constexpr uint isPublicSlot = 0x0a;
constexpr uint isReadableAndWritable = 0x00015003;

QByteArray nameIn(const QByteArray &signature)
{
    return signature.left(signature.indexOf('('));
}

} // namespace

/// The texts of a meta-object: for each its offset and its length, and then their bytes.
class Texts {
public:
    uint add(const QByteArray &text)
    {
        const qsizetype found = m_texts.indexOf(text);
        if (found >= 0)
            return uint(found);
        m_texts.append(text);
        return uint(m_texts.size() - 1);
    }

    std::vector<uint> table() const
    {
        const size_t head = size_t(m_texts.size()) * 2;
        QByteArray bytes;
        std::vector<uint> made;
        for (const QByteArray &text : m_texts) {
            made.push_back(uint(head * sizeof(uint)) + uint(bytes.size()));
            made.push_back(uint(text.size()));
            bytes += text + '\0';
        }
        made.resize(head + (size_t(bytes.size()) + sizeof(uint) - 1) / sizeof(uint));
        std::memcpy(made.data() + head, bytes.constData(), size_t(bytes.size()));
        return made;
    }

private:
    QList<QByteArray> m_texts;
};

QByteArray typesIn(const QByteArray &signature)
{
    const qsizetype from = signature.indexOf('(') + 1;
    return signature.mid(from, signature.size() - from - 1);
}

QMetaType typeNamed(const QByteArray &name)
{
    return QMetaType::fromName(name);
}

ClassInfo::ClassInfo(const QVariantMap &described, std::shared_ptr<const ClassInfo> super)
    : m_name(described.value(QStringLiteral("class")).toByteArray()), m_super(std::move(super)), m_own(&RemoteObject::staticMetaObject)
{
    if (m_super) {
        m_methods = m_super->m_methods;
        m_properties = m_super->m_properties;
        m_signals = m_super->m_signals;
        m_counts = m_super->m_counts;
        m_relaysNeeded = m_super->m_relaysNeeded;
    }
    if (m_name != "QObject")
        m_own = &m_built;
    addMethods(described.value(QStringLiteral("signals")).toList(), true);
    addNotifySignals(described.value(QStringLiteral("properties")).toList());
    addMethods(described.value(QStringLiteral("slots")).toList(), false);
    addProperties(described.value(QStringLiteral("properties")).toList());
    if (m_own == &m_built)
        build();
}

/// Adds the signals or the slots that the class itself declares.
void ClassInfo::addMethods(const QVariantList &described, bool areSignals)
{
    int local = areSignals ? 0 : int(m_methods.size()) - (m_super ? int(m_super->m_methods.size()) : 0);
    for (const QVariant &one : described) {
        const QVariantMap map = one.toMap();
        if (map.value(QStringLiteral("class")).toByteArray() != m_name)
            continue;
        MethodInfo method;
        method.signature = map.value(QStringLiteral("signature")).toByteArray();
        for (const QVariant &type : map.value(QStringLiteral("types")).toList())
            method.types.append(type.toByteArray());
        method.isSignal = areSignals;
        method.owner = m_own == &m_built ? m_own : nullptr;
        method.local = local++;
        method.sentAs = int(m_methods.size());
        if (areSignals) {
            const QByteArray types = typesIn(method.signature);
            method.relay = m_counts[types]++;
            m_relaysNeeded = qMax(m_relaysNeeded, method.relay + 1);
            m_signals.insert({types, method.relay}, int(m_methods.size()));
        }
        m_methods.append(method);
    }
}

/// Declares inherited signals again that report changes of the class's own properties: Qt 6.4 finds the NOTIFY signal of a
/// property in the same class only, where that signal has a parameter.
void ClassInfo::addNotifySignals(const QVariantList &described)
{
    const qsizetype inherited = m_super ? m_super->m_methods.size() : 0;
    for (const QVariant &one : described) {
        const QVariantMap map = one.toMap();
        const int notify = methodOf(map.value(QStringLiteral("notify")).toByteArray());
        if (map.value(QStringLiteral("class")).toByteArray() != m_name || notify < 0 || notify >= inherited)
            continue;
        MethodInfo again = m_methods[notify];
        again.owner = m_own;
        again.local = int(m_methods.size() - inherited);
        const auto isSame = [&again](const MethodInfo &it) { return it.signature == again.signature; };
        if (std::none_of(m_methods.begin() + inherited, m_methods.end(), isSame))
            m_methods.append(again);
    }
}

/// The number of a property's NOTIFY signal among the methods that its class declares; -1 where it has none.
int ClassInfo::notifyOf(const PropertyInfo &property) const
{
    for (const MethodInfo &it : m_methods) {
        if (it.owner == m_own && it.isSignal && it.sentAs == property.notify)
            return it.local;
    }
    return -1;
}

void ClassInfo::addProperties(const QVariantList &described)
{
    for (const QVariant &one : described) {
        const QVariantMap map = one.toMap();
        if (map.value(QStringLiteral("class")).toByteArray() != m_name)
            continue;
        const QVariant notify = map.value(QStringLiteral("notify"));
        const QMetaType type = typeNamed(map.value(QStringLiteral("type")).toByteArray());
        m_properties.append({map.value(QStringLiteral("name")).toString(), type, methodOf(notify.toByteArray())});
    }
}

int ClassInfo::methodOf(const QByteArray &signature) const
{
    for (int it = 0; it < m_methods.size(); ++it) {
        if (m_methods[it].signature == signature)
            return it;
    }
    return -1;
}

int ClassInfo::propertyOf(const QString &name) const
{
    for (int it = 0; it < m_properties.size(); ++it) {
        if (m_properties[it].name == name)
            return it;
    }
    return -1;
}

/// Writes the tables of the meta-object, of what the class itself declares.
void ClassInfo::build()
{
    const QList<MethodInfo> methods = m_methods.mid(m_super->m_methods.size());
    const QList<PropertyInfo> properties = m_properties.mid(m_super->m_properties.size());
    Texts texts;
    texts.add(m_name);
    texts.add(""); // the names of parameters, and tags
    for (const PropertyInfo &it : properties)
        m_types.push_back(it.type.iface());
    m_types.push_back(nullptr); // the class itself has no type
    const uint methodCount = uint(methods.size()), propertyCount = uint(properties.size());
    const uint signalCount = uint(std::count_if(methods.begin(), methods.end(), [](const MethodInfo &it) { return it.isSignal; }));
    m_data = {revision, 0, 0, 0, methodCount, headerSize, propertyCount, 0, 0, 0, 0, 0, 0, signalCount};
    buildMethods(methods, texts);
    m_data[propertiesAt] = uint(m_data.size());
    for (const PropertyInfo &it : properties)
        m_data.insert(m_data.end(), {texts.add(it.name.toUtf8()), uint(it.type.id()), isReadableAndWritable, uint(notifyOf(it)), 0});
    m_data.push_back(0);
    m_texts = texts.table();
    m_built.d.superdata = m_super->m_own;
    m_built.d.stringdata = m_texts.data();
    m_built.d.data = m_data.data();
    m_built.d.static_metacall = nullptr;
    m_built.d.relatedMetaObjects = nullptr;
    m_built.d.metaTypes = m_types.data();
    m_built.d.extradata = nullptr;
}

/// Writes the rows of the methods, and after these the types and the names of their parameters.
void ClassInfo::buildMethods(const QList<MethodInfo> &methods, Texts &texts)
{
    uint parameters = headerSize + uint(methods.size()) * methodSize;
    std::vector<uint> types;
    for (const MethodInfo &it : methods) {
        const uint count = uint(it.types.size());
        m_data.insert(m_data.end(), {texts.add(nameIn(it.signature)), count, parameters, emptyText,
                                        it.isSignal ? isPublicSignal : isPublicSlot, uint(m_types.size())});
        types.push_back(QMetaType::Void);
        m_types.push_back(QMetaType(QMetaType::Void).iface());
        for (const QByteArray &type : it.types) {
            types.push_back(uint(typeNamed(type).id()));
            m_types.push_back(typeNamed(type).iface());
        }
        types.insert(types.end(), count, emptyText);
        parameters += 1 + 2 * count;
    }
    m_data.insert(m_data.end(), types.begin(), types.end());
}

void Classes::find(const QString &name, const Ready &ready)
{
    if (const auto known = m_known.value(name)) {
        ready(known, nullptr);
        return;
    }
    m_session->ask(QStringLiteral("describe"), {{QStringLiteral("class"), name}}, [this, ready](const QVariant *value, const Error *error) {
        if (error)
            ready(nullptr, error);
        else
            described(value->toMap(), ready);
    });
}

/// Builds a class once its superclass is there.
void Classes::described(const QVariantMap &reply, const Ready &ready)
{
    const auto add = [this, reply, ready](const std::shared_ptr<const ClassInfo> &super, const Error *error) {
        if (error) {
            ready(nullptr, error);
            return;
        }
        auto &known = m_known[reply.value(QStringLiteral("class")).toString()];
        if (!known)
            known = std::make_shared<const ClassInfo>(reply, super);
        const auto found = known;
        ready(found, nullptr);
    };
    const QVariant super = reply.value(QStringLiteral("super"));
    if (super.metaType().id() == QMetaType::QString)
        find(super.toString(), add);
    else
        add(nullptr, nullptr);
}

} // namespace Metad
