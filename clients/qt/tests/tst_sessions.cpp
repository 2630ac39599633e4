#include "suites.h"
#include "support.h"

using namespace Metad;

/// Several clients of one front: their events come without being asked for.
class SessionTests : public QObject {
    Q_OBJECT

private slots:
    void initTestCase() { m_front = std::make_unique<Front>(); }
    void hasANameOfItsOwn();
    void hearsWhatOthersPublish();
    void tellsOfSpins();
    void sharesObjects();
    void tellsOfWarnings();
    void postsEvents();
    void worksWithoutRelays();
    void callsBackInOrder();

private:
    std::unique_ptr<Front> m_front;
};

void SessionTests::hasANameOfItsOwn()
{
    const auto one = m_front->client(), other = m_front->client();
    QSignalSpy opened(one.get(), &Connection::opened);
    QCOMPARE(wait(one->session()->give().new_("Lamp")).toInt(), 1);
    QCOMPARE(wait(other->session()->give().new_("Lamp")).toInt(), 1);
    QCOMPARE(opened.size(), 1);
    QVERIFY(one->isOpen() && one->isLive());
    QVERIFY(one->session()->name().startsWith('c') && one->session()->name() != other->session()->name());
    QCOMPARE(one->session("a"), one->session("b"));
}

void SessionTests::hearsWhatOthersPublish()
{
    const auto one = m_front->client(), other = m_front->client();
    RemoteObject *lamp = wait(one->session()->create("Lamp")), *mirror = wait(other->session()->create("Lamp"));
    wait(one->session()->give().publish(lamp, "levelChanged(int)", "level"));
    wait(other->session()->give().join(one->session()->name(), "level", {"int"}, mirror, "setLevel(int)"));
    QSignalSpy changed(mirror, SIGNAL(levelChanged(int)));
    lamp->setProperty("level", 12);
    QTRY_COMPARE_WITH_TIMEOUT(changed.size(), 1, patience);
    QCOMPARE(mirror->property("level"), QVariant(12));
}

void SessionTests::tellsOfSpins()
{
    const auto client = m_front->client();
    RemoteObject *lamp = wait(client->session()->create("Lamp"));
    QSignalSpy spun(client->session(), &Session::spun), called(client->session(), &Session::called);
    wait(client->session()->give().invoke(lamp, "note(int)", {5}, {{"type", "queued"}}));
    QTRY_COMPARE_WITH_TIMEOUT(spun.size(), 1, patience);
    QCOMPARE(called.size(), 1);
    QCOMPARE(spun[0][0].toMap().value("events").toInt(), 1);
}

void SessionTests::sharesObjects()
{
    const auto one = m_front->client("team"), other = m_front->client("team");
    RemoteObject *lamp = wait(one->session()->create("Ceiling"));
    lamp->setProperty("room", "hall");
    wait(one->session()->give().status());
    RemoteObject *same = wait(other->session()->object(lamp->number()));
    QVERIFY(same->inherits("Lamp"));
    QCOMPARE(same->property("room"), QVariant("hall"));
    QSignalSpy here(lamp, SIGNAL(opened(int))), there(same, SIGNAL(opened(int)));
    wait(other->session()->give().status());
    wait(one->session()->give().invoke(lamp, "open(int)", {3}));
    QTRY_COMPARE_WITH_TIMEOUT(there.size(), 1, patience);
    same->setProperty("level", 8);
    QTRY_COMPARE_WITH_TIMEOUT(lamp->property("level"), QVariant(8), patience);
    QCOMPARE(here, (QList<QVariantList>{{3}}));
    QCOMPARE(one->session()->name(), "team");
}

void SessionTests::tellsOfWarnings()
{
    const auto client = m_front->client();
    RemoteObject *lamp = wait(client->session()->create("Lamp"));
    QSignalSpy warned(client->session(), &Session::warned);
    wait(client->session()->give().bind(lamp, "level", QVariantMap{{"prop", "level"}}));
    QTRY_COMPARE_WITH_TIMEOUT(warned.size(), 1, patience);
    const auto warning = warned[0][0].value<Warning>();
    QCOMPARE(warning.code, "BindingLoop");
    QCOMPARE(warning.property, "level");
    QCOMPARE(warning.object, lamp->number());
}

void SessionTests::postsEvents()
{
    const auto client = m_front->client();
    RemoteObject *one = wait(client->session()->create("Lamp")), *other = wait(client->session()->create("Lamp"));
    wait(client->session()->give().connect(one, "opened(int)", other, "setLevel(int)", {{"type", "queued"}}));
    QMetaObject::invokeMethod(one, "open", Q_ARG(int, 77));
    QTRY_COMPARE_WITH_TIMEOUT(other->property("level"), QVariant(77), patience);
}

/// `Cell` is one of the server's demonstration classes, which have no relay.
void SessionTests::worksWithoutRelays()
{
    QTemporaryDir room;
    QFile file(room.filePath("classes.json"));
    QVERIFY(file.open(QIODevice::WriteOnly));
    file.write(R"-({"classes":[{"name":"Dial","super":"QObject","signals":["xChanged(int)"],)-"
               R"-("properties":[{"name":"x","type":"int","notify":"xChanged(int)"}]}]})-");
    file.close();
    const Front front(file.fileName());
    const auto client = front.client();
    RemoteObject *dial = wait(client->session()->create("Dial"));
    QSignalSpy refused(dial, &RemoteObject::refused), changed(dial, SIGNAL(xChanged(int)));
    QCOMPARE(refused.size(), 1);
    QCOMPARE(refused[0][0].value<Error>().code(), "NoRelay");
    dial->setProperty("x", 3);
    QTRY_COMPARE_WITH_TIMEOUT(changed.size(), 1, patience);
    QCOMPARE(dial->property("x"), QVariant(3));
}

void SessionTests::callsBackInOrder()
{
    const auto client = m_front->client();
    Session *session = client->session();
    QList<int> came;
    for (int it = 0; it < 500; ++it)
        session->give().new_("QObject").then([&came](const QVariant &value) { came.append(value.toInt()); });
    QString refused;
    session->give().delete_(9999).then([](const QVariant &) {}).onFailed([&refused](const Error &error) { refused = error.code() + ' ' + error.text(); });
    QTRY_VERIFY_WITH_TIMEOUT(!refused.isEmpty(), patience);
    QCOMPARE(refused, "E04 delete: no such object");
    QCOMPARE(came.size(), 500);
    for (int it = 0; it < 500; ++it)
        QCOMPARE(came[it], it + 1);
}

QObject *sessionTests()
{
    return new SessionTests;
}

#include "tst_sessions.moc"
