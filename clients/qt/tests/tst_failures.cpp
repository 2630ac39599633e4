#include "suites.h"
#include "support.h"

using namespace Metad;

/// How a connection fails.
class FailureTests : public QObject {
    Q_OBJECT

private slots:
    void tellsThatNobodyListens();
    void tellsThatTheFrontRefuses();
    void tellsThatTheFrontIsNotLive();
    void tellsThatTheServerIsGone();
    void tellsHowTheServerEnded();
    void tellsThatTheServerCannotStart();
    void tellsThatTheSessionIsLost();
    void tellsThatTheServerIsSlow();
    void tellsThatAFrontNeverAnswers();
    void refusesLongLines();
    void refusesStrangeLines();
    void refusesStrangeValues();
    void refusesAfterTheEnd();
    void mayBeDestroyedAtAnyTime();
};

const QByteArray helloed("{\"live\":true,\"reply\":true,\"session\":\"c1\"}\n");

/// The reason with which a connection closes.
QString endOf(Connection *connection)
{
    QSignalSpy closed(connection, &Connection::closed);
    if (!closed.wait(patience))
        return QStringLiteral("it has not closed");
    return closed[0][0].value<Error>().code();
}

void FailureTests::tellsThatNobodyListens()
{
    QTemporaryDir room;
    std::unique_ptr<Connection> client(Connection::toFront(room.filePath("nobody")));
    const Reply reply = client->session()->give().status();
    QCOMPARE(endOf(client.get()), "CannotConnect");
    QCOMPARE(codeOf(reply), "CannotConnect");
    QVERIFY(!client->isOpen());
}

void FailureTests::tellsThatTheFrontRefuses()
{
    const Front front;
    const auto client = front.client("nobody_shares_this");
    const Reply reply = client->session()->give().status();
    QCOMPARE(endOf(client.get()), "F02");
    QCOMPARE(codeOf(reply), "F02");
}

void FailureTests::tellsThatTheFrontIsNotLive()
{
    StandIn server({"{\"reply\":true,\"session\":\"c1\"}\n"});
    std::unique_ptr<Connection> client(Connection::toFront(server.path()));
    QCOMPARE(endOf(client.get()), "NotLive");
}

void FailureTests::tellsThatTheServerIsGone()
{
    Front front;
    const auto client = front.client();
    RemoteObject *lamp = wait(client->session()->create("Lamp"));
    QSignalSpy refused(lamp, &RemoteObject::refused);
    front.kill();
    const Reply reply = client->session()->give().status();
    QCOMPARE(codeOf(reply), "ServerGone");
    lamp->setProperty("level", 2);
    QTRY_COMPARE_WITH_TIMEOUT(refused.size(), 1, patience);
    QCOMPARE(refused[0][0].value<Error>().code(), "ServerGone");
}

void FailureTests::tellsHowTheServerEnded()
{
    std::unique_ptr<Connection> server(Connection::start("/bin/sh", {"-c", "echo the reason >&2; exit 3"}));
    const Reply reply = server->session("a")->give().status();
    QSignalSpy closed(server.get(), &Connection::closed);
    QVERIFY(closed.wait(patience));
    const auto error = closed[0][0].value<Error>();
    QCOMPARE(error.code(), "ServerGone");
    QCOMPARE(error.text(), "the server has ended with status 3: the reason");
    QCOMPARE(codeOf(reply), "ServerGone");
}

void FailureTests::tellsThatTheServerCannotStart()
{
    std::unique_ptr<Connection> server(Connection::start("/nowhere/metad"));
    QCOMPARE(endOf(server.get()), "CannotConnect");
}

void FailureTests::tellsThatTheSessionIsLost()
{
    StandIn server({helloed, "{\"error\":\"F04\",\"session\":\"c1\"}\n"});
    std::unique_ptr<Connection> client(Connection::toFront(server.path()));
    const Reply reply = client->session()->give().status();
    QTRY_COMPARE_WITH_TIMEOUT(server.given().size(), 2, patience);
    server.close();
    QCOMPARE(endOf(client.get()), "F04");
    QCOMPARE(codeOf(reply), "F04");
}

/// An answer that comes too late is not taken for that of the next command.
void FailureTests::tellsThatTheServerIsSlow()
{
    StandIn server({helloed});
    std::unique_ptr<Connection> client(Connection::toFront(server.path()));
    QVERIFY(QSignalSpy(client.get(), &Connection::opened).wait(patience));
    client->setTimeout(std::chrono::milliseconds(50));
    QCOMPARE(codeOf(client->session()->give().status()), "TimedOut");
    client->setTimeout(std::chrono::milliseconds(patience));
    const Reply reply = client->session()->give().children();
    server.say("{\"reply\":\"late\",\"session\":\"c1\"}\n{\"reply\":[],\"session\":\"c1\"}\n");
    QCOMPARE(wait(reply), QVariant(QVariantList{}));
}

void FailureTests::tellsThatAFrontNeverAnswers()
{
    StandIn server({});
    FrontOptions options;
    options.timeout = std::chrono::milliseconds(50);
    std::unique_ptr<Connection> client(Connection::toFront(server.path(), options));
    QCOMPARE(endOf(client.get()), "TimedOut");
}

void FailureTests::refusesLongLines()
{
    std::unique_ptr<Connection> server(Connection::start(programNamed("METAD"), {CLASSES_OF_TESTS}));
    Session *session = server->session("a");
    const QString line = QStringLiteral("{\"class\":\"\",\"do\":\"new\",\"session\":\"a\"}");
    const QString fitting(65'536 - line.size(), 'x');
    QCOMPARE(codeOf(session->give().new_(fitting)), "E02");
    QCOMPARE(codeOf(session->give().new_(fitting + 'x')), "LineTooLong");
    QCOMPARE(codeOf(session->give().new_("Lamp")), "");
}

void FailureTests::refusesStrangeLines()
{
    for (const char *strange : {"nonsense\n", "[]\n", "{\"reply\":18446744073709551616,\"session\":\"c1\"}\n"}) {
        StandIn server({helloed, strange});
        std::unique_ptr<Connection> client(Connection::toFront(server.path()));
        QCOMPARE(codeOf(client->session()->give().status()), "StrangeLine");
    }
}

void FailureTests::refusesStrangeValues()
{
    const Front front;
    const auto client = front.client();
    QCOMPARE(codeOf(client->session()->give().set(1, "x", 1.5)), "NoValue");
    QCOMPARE(codeOf(client->session()->give().new_("Lamp")), "");
}

void FailureTests::refusesAfterTheEnd()
{
    const Front front;
    const auto client = front.client();
    wait(client->session()->give().status());
    QSignalSpy closed(client.get(), &Connection::closed);
    const Reply reply = client->session()->give().status();
    client->close();
    client->close();
    QCOMPARE(closed.size(), 1);
    QCOMPARE(codeOf(reply), "ServerGone");
    QCOMPARE(codeOf(client->session()->give().status()), "ServerGone");
}

void FailureTests::mayBeDestroyedAtAnyTime()
{
    const Front front;
    for (int turns = 0; turns < 12; ++turns) {
        auto client = front.client();
        const QFuture<RemoteObject *> made = client->session()->create("Lamp");
        for (int it = 0; it < turns; ++it)
            QTest::qWait(1);
        client.reset();
        QVERIFY(made.isFinished());
    }
    auto client = front.client();
    RemoteObject *lamp = wait(client->session()->create("Lamp"));
    connect(client->session(), &Session::called, this, [&client] { client.reset(); });
    QMetaObject::invokeMethod(lamp, "note", Q_ARG(int, 1));
    QTRY_VERIFY_WITH_TIMEOUT(!client, patience);
}

QObject *failureTests()
{
    return new FailureTests;
}

#include "tst_failures.moc"
