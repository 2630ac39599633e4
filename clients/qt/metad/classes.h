/// What there is in a class of the server, as a meta-object that is built at run time. Not part of the public interface.
#pragma once

#include "error.h"

#include <QHash>
#include <QList>
#include <QMetaObject>
#include <QVariant>

#include <functional>
#include <memory>
#include <vector>

namespace Metad {

class Session;
class Texts;

/// A signal or a slot.
struct MethodInfo {
    QByteArray signature;
    QList<QByteArray> types;
    bool isSignal = false;
    const QMetaObject *owner = nullptr; // the class that declares it; none for the methods of QObject
    int local = 0;                      // its number among the methods of that class
    int relay = 0;                      // how many earlier signals have the same types
    int sentAs = 0;                     // the number of the server's signal, which differs for one that is declared again
};

/// A property.
struct PropertyInfo {
    QString name;
    QMetaType type;
    int notify = -1; // the number of the signal that tells of changes, among all methods
};

/// A class: its members, inherited ones first, and a meta-object for it.
///
/// The tables of the meta-object are those that moc of Qt 6.4 writes (revision 10). Later versions of Qt 6 read them too, since
/// programs that were compiled with 6.4 keep running. `QMetaObjectBuilder` is private, and its binary interface changes.
class ClassInfo {
public:
    /// Builds a class from the reply to `describe`, and its superclass, which is null for a direct subclass of QObject.
    ClassInfo(const QVariantMap &described, std::shared_ptr<const ClassInfo> super);

    QByteArray name() const { return m_name; }
    const QMetaObject *metaObject() const { return m_own; }

    /// All signals and slots, those of QObject first.
    const QList<MethodInfo> &methods() const { return m_methods; }

    /// All properties, `objectName` first.
    const QList<PropertyInfo> &properties() const { return m_properties; }

    /// How many signals of one list of types there are at most: so many relays tell them apart.
    int relaysNeeded() const { return m_relaysNeeded; }

    /// The number of a signal by its types and by how many earlier ones have these types; -1 where no signal fits.
    int signalOf(const QByteArray &types, int relay) const { return m_signals.value({types, relay}, -1); }

    int methodOf(const QByteArray &signature) const;
    int propertyOf(const QString &name) const;

private:
    void addMethods(const QVariantList &described, bool areSignals);
    void addNotifySignals(const QVariantList &described);
    int notifyOf(const PropertyInfo &property) const;
    void addProperties(const QVariantList &described);
    void build();
    void buildMethods(const QList<MethodInfo> &methods, Texts &texts);

    QByteArray m_name;
    std::shared_ptr<const ClassInfo> m_super;
    QList<MethodInfo> m_methods;
    QList<PropertyInfo> m_properties;
    QHash<QPair<QByteArray, int>, int> m_signals;
    QHash<QByteArray, int> m_counts;
    int m_relaysNeeded = 0;
    const QMetaObject *m_own;
    QMetaObject m_built;
    std::vector<uint> m_texts;
    std::vector<uint> m_data;
    std::vector<const QtPrivate::QMetaTypeInterface *> m_types;
};

/// The classes of a server. Each is asked for once.
class Classes {
public:
    using Ready = std::function<void(const std::shared_ptr<const ClassInfo> &info, const Error *error)>;

    explicit Classes(Session *session) : m_session(session) { }

    /// Gives a class, at once where it is known.
    void find(const QString &name, const Ready &ready);

private:
    void described(const QVariantMap &reply, const Ready &ready);

    Session *m_session;
    QHash<QString, std::shared_ptr<const ClassInfo>> m_known;
};

/// The types in a signature, separated by commas.
QByteArray typesIn(const QByteArray &signature);

/// The type of Qt with one of the six names of types that the server has.
QMetaType typeNamed(const QByteArray &name);

} // namespace Metad
