#include "suites.h"
#include "support.h"

#include <metad/expressions.h>
#include <metad/json.h>

using namespace Metad;

/// Expressions are written as the protocol has them, and the server evaluates them as C++ would.
class ExpressionTests : public QObject {
    Q_OBJECT

private slots:
    void initTestCase() { m_front = std::make_unique<Front>(); }
    void writesTheForms_data();
    void writesTheForms();
    void readsAnotherObject();
    void meansWhatTheOperatorsSay_data();
    void meansWhatTheOperatorsSay();
    void joinsTexts();

private:
    std::unique_ptr<Front> m_front;
};

void ExpressionTests::writesTheForms_data()
{
    QTest::addColumn<QVariant>("expression");
    QTest::addColumn<QVariant>("written");
    const auto add = [](const char *written, const Expression &expression) { QTest::newRow(written) << QVariant(expression) << json(written); };
    const Expression level = prop("level");
    add(R"({"const":true})", true);
    add(R"({"const":-5})", -5);
    add(R"({"const":18446744073709551615})", 18446744073709551615ULL);
    add(R"({"const":"é"})", "é");
    add(R"({"const":""})", QString());
    add(R"({"prop":"level"})", level);
    add(R"({"+":[{"prop":"level"},{"const":1}]})", level + 1);
    add(R"({"-":[{"const":1},{"prop":"level"}]})", 1 - level);
    add(R"({"<":[{"prop":"level"},{"const":1}]})", level < 1);
    add(R"({"<":[{"const":1},{"prop":"level"}]})", level > 1);
    add(R"({"=":[{"prop":"title"},{"const":"a"}]})", prop("title") == "a");
    add(R"({"if":[{"prop":"lit"},{"const":1},{"const":2}]})", choose(prop("lit"), 1, 2));
    add(R"({"if":[{"prop":"lit"},{"const":false},{"const":true}]})", !prop("lit"));
    add(R"({"if":[{"prop":"lit"},{"prop":"big"},{"const":false}]})", prop("lit") && prop("big"));
    add(R"({"if":[{"prop":"lit"},{"const":true},{"prop":"big"}]})", prop("lit") || prop("big"));
    add(R"({"cat":[{"cat":[{"const":"a"},{"const":"b"}]},{"prop":"title"}]})", concat("a", "b", prop("title")));
}

void ExpressionTests::writesTheForms()
{
    QFETCH(QVariant, expression);
    QFETCH(QVariant, written);
    QCOMPARE(*Json::write(expression), *Json::write(written));
}

void ExpressionTests::readsAnotherObject()
{
    const auto client = m_front->client();
    RemoteObject *lamp = wait(client->session()->create("Lamp"));
    QCOMPARE(*Json::write(QVariant(prop("level", lamp))), QStringLiteral(R"({"of":%1,"prop":"level"})").arg(lamp->number()).toUtf8());
}

void ExpressionTests::meansWhatTheOperatorsSay_data()
{
    QTest::addColumn<int>("level");
    for (int level : {-1, 3, 4, 5, 6})
        QTest::newRow(qPrintable(QString::number(level))) << level;
}

/// Each comparison of the first lamp's level that holds is one bit of the level of the second lamp or of the third.
void ExpressionTests::meansWhatTheOperatorsSay()
{
    QFETCH(int, level);
    const auto client = m_front->client();
    const auto lampOf = [&](const Expression &bits) {
        RemoteObject *lamp = wait(client->session()->create("Lamp"));
        wait(client->session()->give().bind(lamp, "level", bits));
        return wait(client->session()->give().get(lamp, "level")).toInt();
    };
    RemoteObject *lamp = wait(client->session()->create("Lamp"));
    wait(lamp->set("level", level));
    const Expression it = prop("level", lamp);
    const auto bit = [](const Expression &holds, int value) { return choose(holds, value, 0); };
    QCOMPARE(lampOf(bit(it < 4, 1) + bit(it > 4, 2) + bit(it <= 4, 4) + bit(it >= 4, 8) + bit(it == 4, 16) + bit(it != 4, 32)),
        (level < 4) * 1 + (level > 4) * 2 + (level <= 4) * 4 + (level >= 4) * 8 + (level == 4) * 16 + (level != 4) * 32);
    QCOMPARE(lampOf(bit(it > 3 && it < 6, 1) + bit(it < 3 || it > 5, 2) + bit(!(it - 1 == 3), 4)),
        (level > 3 && level < 6) * 1 + (level < 3 || level > 5) * 2 + !(level - 1 == 3) * 4);
}

void ExpressionTests::joinsTexts()
{
    const auto client = m_front->client();
    RemoteObject *lamp = wait(client->session()->create("Lamp")), *other = wait(client->session()->create("Lamp"));
    wait(lamp->set("title", "desk"));
    wait(client->session()->give().bind(other, "title", choose(prop("title", lamp) == "", "no name", concat("the ", prop("title", lamp), " lamp"))));
    QCOMPARE(wait(client->session()->give().get(other, "title")).toString(), QStringLiteral("the desk lamp"));
    wait(lamp->set("title", ""));
    QCOMPARE(wait(client->session()->give().get(other, "title")).toString(), QStringLiteral("no name"));
}

QObject *expressionTests()
{
    return new ExpressionTests;
}

#include "tst_expressions.moc"
