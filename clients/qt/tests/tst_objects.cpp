#include "suites.h"
#include "support.h"

#include <QMetaMethod>
#include <QMetaProperty>

using namespace Metad;

/// A local object that is connected with remote ones.
class Order : public QObject {
    Q_OBJECT

public:
    QStringList heard;

public slots:
    void changed(int level) { heard << QString("changed %1").arg(level); }
    void opened(int way) { heard << QString("opened %1").arg(way); }

signals:
    void said(int level);
};

/// Objects of a server as objects of Qt.
class ObjectTests : public QObject {
    Q_OBJECT

private slots:
    void initTestCase() { m_front = std::make_unique<Front>(); }
    void init();
    void cleanup();
    void hasTheMembersOfItsClass();
    void inheritsFromItsSuperclasses();
    void emitsSignals();
    void tellsSignalsOfTheSameTypesApart();
    void callsSlots();
    void sendsSignals();
    void writesProperties();
    void readsBackWithoutNotify();
    void readsTheValueOfNow();
    void keepsTheOrderOfSignals();
    void tellsOfBindings();
    void keepsNumbersExact();
    void tellsWhatIsRefused();
    void hasOneName();
    void hasDynamicProperties();
    void tellsOfItsEnd();
    void listenersMayGo();
    void leavesNoConnections();
    void mayBeDestroyedWhileSignalsWait();
    void connectsWithLocalObjects();

private:
    RemoteObject *create(const char *className) { return wait(m_session->create(className)); }
    int connections() { return wait(m_session->give().status()).toMap().value("connections").toInt(); }

    std::unique_ptr<Front> m_front;
    std::unique_ptr<Connection> m_client;
    Session *m_session = nullptr;
};

void ObjectTests::init()
{
    m_client = m_front->client();
    m_session = m_client->session();
}

void ObjectTests::cleanup()
{
    m_client.reset();
}

void ObjectTests::hasTheMembersOfItsClass()
{
    const QMetaObject *lamp = create("Lamp")->metaObject();
    QCOMPARE(lamp->className(), "Lamp");
    QStringList methods, properties;
    for (int it = lamp->methodOffset(); it < lamp->methodCount(); ++it)
        methods << QString::fromLatin1(lamp->method(it).methodSignature()) + (lamp->method(it).methodType() == QMetaMethod::Signal ? " signal" : " slot");
    QCOMPARE(methods, (QStringList{"levelChanged(int) signal", "opened(int) signal", "closed(int) signal", "bigChanged() signal",
                          "numbers(qlonglong,qulonglong) signal", "all(bool,uint,QString) signal", "setLevel(int) slot", "open(int) slot",
                          "close(int) slot", "bounce(int) slot", "note(int) slot", "tell(qlonglong,qulonglong) slot"}));
    for (int it = lamp->propertyOffset(); it < lamp->propertyCount(); ++it) {
        const QMetaProperty property = lamp->property(it);
        QVERIFY(property.isReadable() && property.isWritable());
        properties << QString("%1 %2 %3").arg(property.typeName(), property.name(), QString::fromLatin1(property.notifySignal().methodSignature()));
    }
    QCOMPARE(properties, (QStringList{"int level levelChanged(int)", "qulonglong big bigChanged()", "qlonglong low ", "uint count ",
                             "QString title ", "bool lit "}));
    const QMetaMethod all = lamp->method(lamp->indexOfSignal("all(bool,uint,QString)"));
    QCOMPARE(all.parameterMetaType(2), QMetaType::fromType<QString>());
    QCOMPARE(all.parameterType(1), int(QMetaType::UInt));
}

void ObjectTests::inheritsFromItsSuperclasses()
{
    RemoteObject *ceiling = create("Ceiling");
    QVERIFY(ceiling->inherits("Ceiling") && ceiling->inherits("Lamp") && ceiling->inherits("QObject"));
    QVERIFY(!create("Lamp")->inherits("Ceiling"));
    const QMetaObject *meta = ceiling->metaObject();
    QCOMPARE(meta->property(meta->indexOfProperty("height")).notifySignal().methodSignature(), "levelChanged(int)");
    QSignalSpy rooms(ceiling, SIGNAL(roomChanged(QString))), levels(ceiling, SIGNAL(levelChanged(int)));
    const QMetaObject *lamp = meta->superClass();
    QSignalSpy sameLevels(ceiling, lamp->method(lamp->indexOfSignal("levelChanged(int)")));
    ceiling->setProperty("room", "hall");
    ceiling->setProperty("level", 4);
    QVERIFY(QMetaObject::invokeMethod(ceiling, "off"));
    QTRY_COMPARE_WITH_TIMEOUT(levels.size(), 2, patience);
    QCOMPARE(levels, (QList<QVariantList>{{4}, {0}}));
    QCOMPARE(sameLevels, (QList<QVariantList>{{4}, {0}}));
    QCOMPARE(rooms, (QList<QVariantList>{{"hall"}}));
    QCOMPARE(ceiling->property("room").toString(), "hall");
}

void ObjectTests::emitsSignals()
{
    RemoteObject *lamp = create("Lamp");
    QSignalSpy all(lamp, SIGNAL(all(bool,uint,QString)));
    QVERIFY(all.isValid());
    wait(m_session->give().invoke(lamp, "all(bool,uint,QString)", {true, 4294967295u, "é"}));
    QTRY_COMPARE_WITH_TIMEOUT(all.size(), 1, patience);
    QCOMPARE(all[0], (QVariantList{true, 4294967295u, "é"}));
    QCOMPARE(all[0][1].metaType(), QMetaType::fromType<uint>());
}

void ObjectTests::tellsSignalsOfTheSameTypesApart()
{
    RemoteObject *one = create("Lamp"), *other = create("Lamp");
    QSignalSpy opened(one, SIGNAL(opened(int))), closed(one, SIGNAL(closed(int))), others(other, SIGNAL(opened(int)));
    QMetaObject::invokeMethod(one, "close", Q_ARG(int, 1));
    QMetaObject::invokeMethod(other, "open", Q_ARG(int, 2));
    QMetaObject::invokeMethod(one, "open", Q_ARG(int, 3));
    QTRY_COMPARE_WITH_TIMEOUT(opened.size(), 1, patience);
    QCOMPARE(opened, (QList<QVariantList>{{3}}));
    QCOMPARE(closed, (QList<QVariantList>{{1}}));
    QCOMPARE(others, (QList<QVariantList>{{2}}));
}

void ObjectTests::callsSlots()
{
    RemoteObject *lamp = create("Lamp");
    QSignalSpy calls(m_session, &Session::called);
    QVERIFY(QMetaObject::invokeMethod(lamp, "note", Q_ARG(int, -3)));
    QTRY_COMPARE_WITH_TIMEOUT(calls.size(), 1, patience);
    const auto call = calls[0][0].value<Call>();
    QCOMPARE(call.method, "note(int)");
    QCOMPARE(call.object, lamp->number());
    QCOMPARE(call.sender, 0u);
    QCOMPARE(call.args, QVariantList{-3});
}

void ObjectTests::sendsSignals()
{
    RemoteObject *lamp = create("Lamp"), *other = create("Lamp");
    wait(m_session->give().connect(lamp, "opened(int)", other, "setLevel(int)"));
    QVERIFY(QMetaObject::invokeMethod(lamp, "opened", Q_ARG(int, 6)));
    QTRY_COMPARE_WITH_TIMEOUT(other->property("level").toInt(), 6, patience);
}

void ObjectTests::writesProperties()
{
    RemoteObject *lamp = create("Lamp");
    QCOMPARE(lamp->property("level"), QVariant(0));
    QSignalSpy changed(lamp, SIGNAL(levelChanged(int)));
    QVERIFY(lamp->setProperty("level", 5));
    QTRY_COMPARE_WITH_TIMEOUT(lamp->property("level"), QVariant(5), patience);
    QCOMPARE(wait(m_session->give().get(lamp, "level")).toInt(), 5);
    QCOMPARE(changed, (QList<QVariantList>{{5}}));
    wait(m_session->give().set(lamp, "level", 6));
    QTRY_COMPARE_WITH_TIMEOUT(lamp->property("level"), QVariant(6), patience);
    wait(m_session->give().set(lamp, "big", 7));
    QTRY_COMPARE_WITH_TIMEOUT(lamp->property("big"), QVariant(7ULL), patience);
}

void ObjectTests::readsBackWithoutNotify()
{
    RemoteObject *lamp = create("Lamp");
    lamp->setProperty("title", "Aria");
    lamp->setProperty("lit", true);
    QTRY_COMPARE_WITH_TIMEOUT(lamp->property("lit"), QVariant(true), patience);
    QCOMPARE(lamp->property("title"), QVariant("Aria"));
    wait(m_session->give().set(lamp, "title", "Fugue"));
    QCOMPARE(lamp->property("title"), QVariant("Aria"));
    wait(lamp->refresh());
    QCOMPARE(lamp->property("title"), QVariant("Fugue"));
}

/// A slot that hears the change to 7 writes 8, so the outer signal with 7 arrives after that with 8, as in Qt.
void ObjectTests::readsTheValueOfNow()
{
    RemoteObject *lamp = create("Lamp");
    wait(m_session->give().disconnectSender(lamp, {{"signal", "levelChanged(int)"}}));
    wait(m_session->give().connect(lamp, "levelChanged(int)", lamp, "bounce(int)"));
    RemoteObject *second = nullptr;
    const quint32 number = lamp->number();
    delete lamp;
    second = wait(m_session->object(number));
    QSignalSpy changed(second, SIGNAL(levelChanged(int)));
    second->setProperty("level", 7);
    QTRY_COMPARE_WITH_TIMEOUT(changed.size(), 2, patience);
    QCOMPARE(changed, (QList<QVariantList>{{8}, {7}}));
    QCOMPARE(second->property("level"), QVariant(8));
}

void ObjectTests::keepsTheOrderOfSignals()
{
    RemoteObject *lamp = create("Lamp");
    Order order;
    QVERIFY(connect(lamp, SIGNAL(levelChanged(int)), &order, SLOT(changed(int))));
    QVERIFY(connect(lamp, SIGNAL(opened(int)), &order, SLOT(opened(int))));
    QStringList wanted;
    for (int it = 1; it <= 20; ++it) {
        QMetaObject::invokeMethod(lamp, "setLevel", Q_ARG(int, it));
        QMetaObject::invokeMethod(lamp, "open", Q_ARG(int, it));
        wanted << QString("changed %1").arg(it) << QString("opened %1").arg(it);
    }
    QTRY_COMPARE_WITH_TIMEOUT(order.heard.size(), wanted.size(), patience);
    QCOMPARE(order.heard, wanted);
}

void ObjectTests::tellsOfBindings()
{
    RemoteObject *one = create("Lamp"), *other = create("Lamp");
    QSignalSpy changed(one, SIGNAL(levelChanged(int)));
    wait(m_session->give().bind(one, "level", QVariantMap{{"+", QVariantList{QVariantMap{{"prop", "level"}, {"of", other->number()}},
        QVariantMap{{"const", 1}}}}}));
    other->setProperty("level", 41);
    QTRY_COMPARE_WITH_TIMEOUT(changed.size(), 2, patience);
    QCOMPARE(changed, (QList<QVariantList>{{1}, {42}}));
    QCOMPARE(one->property("level"), QVariant(42));
}

void ObjectTests::keepsNumbersExact()
{
    RemoteObject *lamp = create("Lamp");
    constexpr qulonglong most = 18446744073709551615ULL;
    constexpr qlonglong least = std::numeric_limits<qlonglong>::min();
    lamp->setProperty("big", most);
    lamp->setProperty("low", 9007199254740993LL);
    QTRY_COMPARE_WITH_TIMEOUT(lamp->property("low"), QVariant(9007199254740993LL), patience);
    QTRY_COMPARE_WITH_TIMEOUT(lamp->property("big"), QVariant(most), patience);
    QSignalSpy numbers(lamp, SIGNAL(numbers(qlonglong,qulonglong)));
    QMetaObject::invokeMethod(lamp, "tell", Q_ARG(qlonglong, least), Q_ARG(qulonglong, most - 1));
    QTRY_COMPARE_WITH_TIMEOUT(numbers.size(), 1, patience);
    QCOMPARE(numbers[0], (QVariantList{least, most - 1}));
    QCOMPARE(codeOf(lamp->set("low", most)), "E22");
    QCOMPARE(codeOf(lamp->set("level", 2147483648LL)), "E22");
    QCOMPARE(codeOf(lamp->set("low", 1.5)), "NoValue");
}

void ObjectTests::tellsWhatIsRefused()
{
    RemoteObject *lamp = create("Lamp");
    QSignalSpy refused(lamp, &RemoteObject::refused), failed(m_session, &Session::failed);
    lamp->setProperty("title", QString(5000, 'x'));
    QTRY_COMPARE_WITH_TIMEOUT(refused.size(), 1, patience);
    QCOMPARE(refused[0][0].value<Error>().code(), "E14");
    QCOMPARE(failed.size(), 1);
    wait(m_session->give().get(lamp, "title"));
    QCOMPARE(lamp->property("title"), QVariant(""));
    QCOMPARE(codeOf(m_session->create("Nope")), "E03");
    QCOMPARE(codeOf(m_session->object(4000)), "E04");
    QCOMPARE(codeOf(m_session->create("Lamp", 4000)), "E04");
}

void ObjectTests::hasOneName()
{
    RemoteObject *lamp = create("Lamp");
    QSignalSpy named(lamp, &QObject::objectNameChanged);
    lamp->setObjectName("near");
    QTRY_COMPARE_WITH_TIMEOUT(wait(m_session->give().get(lamp, "objectName")).toString(), "near", patience);
    wait(m_session->give().set(lamp, "objectName", "far"));
    QTRY_COMPARE_WITH_TIMEOUT(lamp->objectName(), "far", patience);
    QCOMPARE(named, (QList<QVariantList>{{"near"}, {"far"}}));
    QCOMPARE(lamp->property("objectName"), QVariant("far"));
}

void ObjectTests::hasDynamicProperties()
{
    RemoteObject *lamp = create("Lamp");
    QVERIFY(!lamp->setProperty("tag", 5));
    QTRY_COMPARE_WITH_TIMEOUT(wait(m_session->give().get(lamp, "tag")), QVariant(5LL), patience);
    wait(m_session->give().set(lamp, "note", "n"));
    wait(lamp->refresh());
    QCOMPARE(lamp->dynamicPropertyNames(), (QList<QByteArray>{"tag", "note"}));
    lamp->setProperty("tag", QVariant());
    QTRY_COMPARE_WITH_TIMEOUT(wait(m_session->give().dynamicNames(lamp)), QVariant(QVariantList{"note"}), patience);
}

void ObjectTests::tellsOfItsEnd()
{
    RemoteObject *lamp = create("Lamp"), *child = wait(m_session->create("Lamp", lamp));
    QSignalSpy gone(lamp, &RemoteObject::gone), childGone(child, &RemoteObject::gone);
    wait(m_session->give().deleteLater(lamp));
    QTRY_COMPARE_WITH_TIMEOUT(gone.size(), 1, patience);
    QTRY_COMPARE_WITH_TIMEOUT(childGone.size(), 1, patience);
    QVERIFY(lamp->isGone() && child->isGone());
    QCOMPARE(codeOf(lamp->set("level", 1)), "E04");
    RemoteObject *other = create("Lamp");
    QCOMPARE(codeOf(other->remove()), "");
    QTRY_VERIFY_WITH_TIMEOUT(other->isGone(), patience);
    RemoteObject *third = create("Lamp");
    wait(m_session->give().reset());
    QVERIFY(third->isGone());
    QSignalSpy changed(create("Lamp"), SIGNAL(levelChanged(int)));
    wait(m_session->give().set(m_session->findChildren<RemoteObject *>().last(), "level", 2));
    QTRY_COMPARE_WITH_TIMEOUT(changed.size(), 1, patience);
}

/// Whoever hears a signal may be destroyed. Qt holds a lock of each meanwhile, one of 131, so some share that of the lamp.
void ObjectTests::listenersMayGo()
{
    RemoteObject *lamp = create("Lamp");
    const int first = connections();
    std::vector<std::unique_ptr<QSignalSpy>> spies;
    for (int it = 0; it < 300; ++it)
        spies.push_back(std::make_unique<QSignalSpy>(lamp, SIGNAL(closed(int))));
    spies.clear();
    QTRY_COMPARE_WITH_TIMEOUT(connections(), first, patience);
}

void ObjectTests::leavesNoConnections()
{
    RemoteObject *lamp = create("Lamp");
    const quint32 number = lamp->number();
    const int first = connections();
    Order order;
    connect(lamp, SIGNAL(opened(int)), &order, SLOT(opened(int)));
    QSignalSpy closed(lamp, SIGNAL(closed(int)));
    QCOMPARE(connections(), first + 2);
    disconnect(lamp, SIGNAL(opened(int)), &order, nullptr);
    QTRY_COMPARE_WITH_TIMEOUT(connections(), first + 1, patience);
    delete lamp;
    QCOMPARE(connections(), 0);
    RemoteObject *again = wait(m_session->object(number));
    QCOMPARE(connections(), first);
    QCOMPARE(wait(m_session->object(number)), again);
}

/// Signals of other objects go on where one is destroyed whose value they have waited for.
void ObjectTests::mayBeDestroyedWhileSignalsWait()
{
    RemoteObject *lamp = create("Lamp"), *other = create("Lamp");
    QSignalSpy opened(other, SIGNAL(opened(int)));
    QSignalSpy heard(m_session, &Session::called);
    for (int it = 1; it <= 3; ++it)
        m_session->give().set(lamp, "level", it);
    m_session->give().invoke(lamp, "note(int)", {1});
    m_session->give().invoke(other, "open(int)", {5});
    connect(m_session, &Session::called, lamp, [&lamp] { delete std::exchange(lamp, nullptr); });
    QTRY_COMPARE_WITH_TIMEOUT(opened.size(), 1, patience);
    QCOMPARE(heard.size(), 2);
    QVERIFY(!lamp);
}

void ObjectTests::connectsWithLocalObjects()
{
    RemoteObject *lamp = create("Lamp"), *mirror = create("Lamp");
    Order local;
    QVERIFY(connect(&local, SIGNAL(said(int)), lamp, SLOT(setLevel(int))));
    QVERIFY(connect(lamp, SIGNAL(levelChanged(int)), mirror, SLOT(setLevel(int))));
    emit local.said(9);
    QTRY_COMPARE_WITH_TIMEOUT(mirror->property("level"), QVariant(9), patience);
}

QObject *objectTests()
{
    return new ObjectTests;
}

#include "tst_objects.moc"
