/// The implementation of remote objects. Not part of the public interface.
#pragma once

#include "classes.h"
#include "emissions.h"
#include "remoteobject.h"

#include <QHash>

namespace Metad {

/// A remote object whose meta-object is built at run time.
///
/// It has no `Q_OBJECT`: the three functions that moc would write are here, and use the tables of its class.
class DynamicObject final : public RemoteObject {
public:
    using Ready = std::function<void(const Error *error)>;

    DynamicObject(Session *session, quint32 number, std::shared_ptr<const ClassInfo> info);
    ~DynamicObject() override;

    const QMetaObject *metaObject() const override;
    void *qt_metacast(const char *className) override;
    int qt_metacall(QMetaObject::Call call, int id, void **argv) override;
    Reply refresh() override;

    /// Listens to the signals that report changes and the end, and reads all values.
    void begin(const Ready &ready);

    /// A signal of these types has called a relay.
    void hear(const QByteArray &types, int relay, const QVariantList &args);

    /// The object is not in the server any more.
    void end();

protected:
    void connectNotify(const QMetaMethod &signal) override;
    void disconnectNotify(const QMetaMethod &signal) override;
    bool event(QEvent *event) override;

private:
    using Waiting = QList<std::shared_ptr<Emission>>;

    int methodOf(const QMetaMethod &method) const;
    bool isNotify(int method) const;
    bool listen(int method);
    void stop(int method);
    void stopUnheard();
    void load(const Ready &ready);
    void fill(const QVariantList &values);
    void apply(int property, const QVariant &value);
    void emitSignal(int method, const QVariantList &args);
    void invoke(int method, void **argv);
    void readInto(int property, void **argv) const;
    void write(int property, const QString &name, const QVariant &value);
    void read(int property, const std::shared_ptr<Emission> &emission);
    void readBack(int property);
    void tell(const Error &error);
    void ask(const QString &word, QVariantMap keys, const std::function<void(const QVariant *, const Error *)> &answered);

    const std::shared_ptr<const ClassInfo> m_info;
    QList<QVariant> m_values;                                       // of the declared properties
    QHash<int, quint32> m_heard;                                    // signals that are heard, with the numbers of the connections
    QHash<int, std::shared_ptr<Waiting>> m_reading;                 // what waits for properties that are being read
    bool m_isApplying = false;                                      // whether a change here comes from the server
};

} // namespace Metad
