#include "suites.h"
#include "support.h"

#include <QTcpServer>
#include <QTcpSocket>

using namespace Metad;

/// Ways to reach a server, and all of its commands.
class ConnectionTests : public QObject {
    Q_OBJECT

private slots:
    void initTestCase() { m_all.reset(Connection::start(programNamed("METAD"), {CLASSES_OF_TESTS})); }
    void cleanupTestCase() { m_all.reset(); }
    void startsAServer();
    void keepsSessionsApart();
    void givesEveryCommand_data();
    void givesEveryCommand();
    void speaksOverTcp();
    void takesLinesInPieces();
    void asksTheFront();
    void letsCallbacksWait();

private:
    std::unique_ptr<Connection> m_all;
};

void ConnectionTests::startsAServer()
{
    std::unique_ptr<Connection> server(Connection::start(programNamed("METAD"), {CLASSES_OF_TESTS}));
    QSignalSpy opened(server.get(), &Connection::opened);
    RemoteObject *lamp = wait(server->session("a")->create("Lamp"));
    QCOMPARE(opened.size(), 1);
    QSignalSpy changed(lamp, SIGNAL(levelChanged(int)));
    lamp->setProperty("level", 3);
    QTRY_COMPARE_WITH_TIMEOUT(changed.size(), 1, patience);
    QVERIFY(!server->isLive());
}

void ConnectionTests::keepsSessionsApart()
{
    std::unique_ptr<Connection> server(Connection::start(programNamed("METAD"), {CLASSES_OF_TESTS}));
    Session *a = server->session("a"), *b = server->session("b");
    QVERIFY(a != b && a == server->session("a"));
    QSignalSpy heardByA(a, &Session::called), heardByB(b, &Session::called);
    wait(a->give().new_("Lamp"));
    wait(b->give().new_("Lamp"));
    wait(b->give().invoke(1, "note(int)", {1}));
    QCOMPARE(heardByA.size(), 0);
    QCOMPARE(heardByB.size(), 1);
}

void ConnectionTests::givesEveryCommand_data()
{
    QTest::addColumn<QString>("word");
    QTest::addColumn<bool>("needsKeys");
    for (const CommandRow &row : commandRows)
        QTest::addRow("%s %s", row.word, row.required) << QString::fromLatin1(row.word) << bool(*row.required);
}

/// A command that lacks its keys is refused; one that needs no keys is done.
void ConnectionTests::givesEveryCommand()
{
    QFETCH(QString, word);
    QFETCH(bool, needsKeys);
    const QString code = codeOf(m_all->session("all")->command(word));
    QCOMPARE(code, needsKeys ? "E02" : word == "end" ? "E17" : "");
    wait(m_all->session("all")->give().reset());
}

void ConnectionTests::speaksOverTcp()
{
    QTcpServer listening;
    QVERIFY(listening.listen(QHostAddress::LocalHost));
    QByteArray given;
    connect(&listening, &QTcpServer::newConnection, this, [&] {
        QTcpSocket *link = listening.nextPendingConnection();
        connect(link, &QTcpSocket::readyRead, this, [&given, link] {
            given += link->readAll();
            if (given.count('\n') == 2)
                link->write("{\"live\":true,\"reply\":true,\"session\":\"c1\"}\n{\"reply\":7,\"session\":\"c1\"}\n");
        });
    });
    auto *socket = new QTcpSocket;
    socket->connectToHost(QHostAddress::LocalHost, listening.serverPort());
    std::unique_ptr<Connection> client(Connection::overFront(socket));
    QCOMPARE(wait(client->session()->give().new_("Lamp")).toInt(), 7);
    QCOMPARE(given, QByteArray("{\"front\":\"hello\",\"live\":true}\n{\"class\":\"Lamp\",\"do\":\"new\"}\n"));
    QCOMPARE(client->session()->name(), "c1");
}

void ConnectionTests::takesLinesInPieces()
{
    StandIn server({"{\"live\":true,\"reply\":true,\"session\":\"c1\"}\n", "{\"args\":[18446744073709551615],\"call\":\"note(int)\","});
    std::unique_ptr<Connection> client(Connection::toFront(server.path()));
    QSignalSpy called(client->session(), &Session::called);
    const Reply reply = client->session()->give().status();
    QTRY_COMPARE_WITH_TIMEOUT(server.given().size(), 2, patience);
    for (const char one : QByteArray("\"object\":1,\"sender\":2,\"session\":\"c1\"}\n{\"reply\":{},\"session\":\"c1\"}\n")) {
        server.say(QByteArray(1, one));
        QCoreApplication::processEvents();
    }
    wait(reply);
    QCOMPARE(called.size(), 1);
    QCOMPARE(called[0][0].value<Call>().args, QVariantList{18446744073709551615ULL});
}

void ConnectionTests::asksTheFront()
{
    StandIn server({"{\"reply\":true,\"session\":\"desk__c1\"}\n"});
    FrontOptions options;
    options.group = "desk";
    options.live = false;
    std::unique_ptr<Connection> client(Connection::toFront(server.path(), options));
    QSignalSpy opened(client.get(), &Connection::opened);
    QTRY_COMPARE_WITH_TIMEOUT(opened.size(), 1, patience);
    QCOMPARE(server.given(), QList<QByteArray>{"{\"front\":\"hello\",\"group\":\"desk\"}"});
    QVERIFY(!client->isLive());
}

void ConnectionTests::letsCallbacksWait()
{
    std::unique_ptr<Connection> server(Connection::start(programNamed("METAD"), {CLASSES_OF_TESTS}));
    Session *session = server->session("a");
    wait(session->give().new_("Lamp"));
    QVariant level;
    connect(session, &Session::called, this, [&] { level = wait(session->give().get(1, "level")); });
    wait(session->give().invoke(1, "setLevel(int)", {6}));
    QTRY_COMPARE_WITH_TIMEOUT(level, QVariant(6LL), patience);
}

QObject *connectionTests()
{
    return new ConnectionTests;
}

#include "tst_connections.moc"
