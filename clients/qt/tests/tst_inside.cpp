#include <metad/inside.h>

#include "support.h"

#include <QFile>
#include <QThread>

using namespace Metad;

/// A server inside this program, and objects of it.
class InsideTests : public QObject {
    Q_OBJECT

private slots:
    void init();
    void cleanup() { m_server.reset(); }
    void hasObjects();
    void hearsSignals();
    void keepsSessionsApart();
    void answersInOrder();
    void tellsWhatIsRefused();
    void givesEventsBySpin();
    void refusesBadClasses();
    void endsWithItsConnection();
    void isADevice();
    void hasServersInThreads();

private:
    std::unique_ptr<Connection> m_server;
    Session *m_session = nullptr;
};

QByteArray classesOfTests()
{
    QFile file(QStringLiteral(CLASSES_OF_TESTS));
    if (!file.open(QIODevice::ReadOnly))
        qFatal("there is no %s", CLASSES_OF_TESTS);
    return file.readAll();
}

void InsideTests::init()
{
    m_server.reset(Inside::connection(classesOfTests()));
    m_session = m_server->session(QStringLiteral("a"));
}

void InsideTests::hasObjects()
{
    QSignalSpy opened(m_server.get(), &Connection::opened);
    RemoteObject *lamp = wait(m_session->create("Lamp"));
    QCOMPARE(opened.size(), 1);
    lamp->setProperty("level", 3);
    QTRY_COMPARE_WITH_TIMEOUT(lamp->property("level").toInt(), 3, patience);
    QCOMPARE(wait(m_session->give().get(lamp, "level")).toInt(), 3);
    lamp->setObjectName("lamp");
    QCOMPARE(wait(m_session->give().get(lamp, "objectName")).toString(), QString("lamp"));
    QVERIFY(!m_server->isLive());
}

void InsideTests::hearsSignals()
{
    RemoteObject *lamp = wait(m_session->create("Lamp"));
    QSignalSpy changed(lamp, SIGNAL(levelChanged(int))), opened(lamp, SIGNAL(opened(int)));
    QVERIFY(QMetaObject::invokeMethod(lamp, "setLevel", Q_ARG(int, 5)));
    QVERIFY(QMetaObject::invokeMethod(lamp, "open", Q_ARG(int, 2)));
    QTRY_COMPARE_WITH_TIMEOUT(opened.size(), 1, patience);
    QCOMPARE(changed.size(), 1);
    QCOMPARE(changed[0], QVariantList{5});
    QCOMPARE(lamp->property("level").toInt(), 5);
}

void InsideTests::keepsSessionsApart()
{
    Session *other = m_server->session(QStringLiteral("b"));
    QCOMPARE(wait(m_session->give().new_("Lamp")).toInt(), 1);
    QCOMPARE(wait(m_session->give().new_("Lamp")).toInt(), 2);
    QCOMPARE(wait(other->give().new_("Lamp")).toInt(), 1);
    const std::unique_ptr<Connection> second(Inside::connection());
    QCOMPARE(wait(second->session("a")->give().new_("Probe")).toInt(), 1);
}

void InsideTests::answersInOrder()
{
    QList<Reply> replies;
    for (int at = 0; at < 3'000; ++at)
        replies.append(m_session->give().new_("QObject"));
    for (int at = 0; at < replies.size(); ++at)
        QCOMPARE(wait(replies[at]).toInt(), at + 1);
}

void InsideTests::tellsWhatIsRefused()
{
    QCOMPARE(codeOf(m_session->give().new_("Nobody")), QString("E03"));
    QCOMPARE(codeOf(m_session->command("new", {{"class", 1.5}})), QString("NoValue"));
    QCOMPARE(codeOf(m_session->give().set(1, "level", QString(70'000, 'x'))), QString("LineTooLong"));
}

void InsideTests::givesEventsBySpin()
{
    Session *other = m_server->session(QStringLiteral("b"));
    wait(m_session->give().new_("Lamp"));
    wait(other->give().new_("Lamp"));
    wait(m_session->give().publish(1, "levelChanged(int)", "level"));
    wait(other->give().join("a", "level", {"int"}, 1, "note(int)"));
    QSignalSpy called(other, &Session::called);
    wait(m_session->give().set(1, "level", 4));
    QCOMPARE(called.size(), 0);
    wait(other->give().spin());
    QCOMPARE(called.size(), 1);
    QCOMPARE(called[0][0].value<Call>().args, QVariantList{4});
}

void InsideTests::refusesBadClasses()
{
    const std::unique_ptr<Connection> none(Inside::connection(R"({"classes":[{"name":"A","super":"Nobody"}]})"));
    QSignalSpy closed(none.get(), &Connection::closed);
    const Reply reply = none->session()->give().new_("A");
    QTRY_COMPARE_WITH_TIMEOUT(closed.size(), 1, patience);
    const Error error = closed[0][0].value<Error>();
    QCOMPARE(error.code(), QString("CannotConnect"));
    QCOMPARE(error.text(), QString("class file refused: C04 in class 1"));
    QCOMPARE(codeOf(reply), QString("CannotConnect"));
}

void InsideTests::endsWithItsConnection()
{
    wait(m_session->give().new_("Lamp"));
    const Reply late = m_session->give().new_("Lamp");
    m_server->close();
    QCOMPARE(codeOf(late), QString("ServerGone"));
    QCOMPARE(codeOf(m_session->give().new_("Lamp")), QString("ServerGone"));
}

/// Lines may come in pieces, and answers be read in pieces.
void InsideTests::isADevice()
{
    Inside device;
    QVERIFY(device.isOpen() && device.isSequential());
    QSignalSpy ready(&device, &QIODevice::readyRead);
    device.write("{\"session\":\"a\",\"do\":\"ne");
    QCOMPARE(device.bytesAvailable(), 0);
    device.write("w\",\"class\":\"Probe\"}\n{");
    QVERIFY(ready.wait(patience));
    QCOMPARE(device.read(8), QByteArray("{\"reply\""));
    QCOMPARE(device.readAll(), QByteArray(":1,\"session\":\"a\"}\n"));
    device.close();
    QVERIFY(!device.isOpen());
}

void InsideTests::hasServersInThreads()
{
    QList<int> made(4, 0);
    QList<QThread *> threads;
    for (int &it : made) {
        threads.append(QThread::create([&it] {
            const std::unique_ptr<Connection> server(Inside::connection());
            for (int at = 0; at < 100; ++at)
                it = wait(server->session("a")->give().new_("Probe")).toInt();
        }));
        threads.last()->start();
    }
    for (QThread *thread : threads) {
        QVERIFY(thread->wait(patience));
        delete thread;
    }
    QCOMPARE(made, QList<int>(4, 100));
}

int main(int count, char **words)
{
    QCoreApplication app(count, words);
    InsideTests tests;
    return QTest::qExec(&tests, count, words);
}

#include "tst_inside.moc"
