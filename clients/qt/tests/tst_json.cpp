#include "suites.h"
#include "support.h"

#include <metad/json.h>

using namespace Metad;

class JsonTests : public QObject {
    Q_OBJECT

private slots:
    void readsNumbersExactly_data();
    void readsNumbersExactly();
    void refusesWhatItCannotHold_data();
    void refusesWhatItCannotHold();
    void readsTexts();
    void readsWhatItWrites();
    void writesNoOtherValues();
};

void JsonTests::readsNumbersExactly_data()
{
    QTest::addColumn<QByteArray>("text");
    QTest::addColumn<QVariant>("value");
    QTest::newRow("zero") << QByteArray("0") << QVariant(0LL);
    QTest::newRow("above 2^53") << QByteArray("9007199254740993") << QVariant(9007199254740993LL);
    QTest::newRow("2^63 - 1") << QByteArray("9223372036854775807") << QVariant(9223372036854775807LL);
    QTest::newRow("2^63") << QByteArray("9223372036854775808") << QVariant(9223372036854775808ULL);
    QTest::newRow("2^64 - 1") << QByteArray(" 18446744073709551615 ") << QVariant(18446744073709551615ULL);
    QTest::newRow("-2^63") << QByteArray("-9223372036854775808") << QVariant(std::numeric_limits<qlonglong>::min());
}

void JsonTests::readsNumbersExactly()
{
    QFETCH(QByteArray, text);
    QFETCH(QVariant, value);
    const auto read = Json::read(text);
    QVERIFY(read);
    QCOMPARE(read->metaType(), value.metaType());
    QCOMPARE(*read, value);
    QCOMPARE(*Json::write(*read), text.trimmed());
}

void JsonTests::refusesWhatItCannotHold_data()
{
    QTest::addColumn<QByteArray>("text");
    for (const char *text : {"18446744073709551616", "-9223372036854775809", "1.0", "1e3", "01", "-", "", "tru", "nul", "[1,]", "[1", "{\"a\"}", "{\"a\":}",
             "{a:1}", "\"a", "\"\\x\"", "\"\\u12g4\"", "1 2", "\"a\nb\""})
        QTest::newRow(text) << QByteArray(text);
    QTest::newRow("too deep") << QByteArray(200, '[') + QByteArray(200, ']');
}

void JsonTests::refusesWhatItCannotHold()
{
    QFETCH(QByteArray, text);
    QVERIFY(!Json::read(text));
}

void JsonTests::readsTexts()
{
    QCOMPARE(json("\"a\\n\\u00e9\\\\\\\"\\/\"").toString(), QStringLiteral("a\né\\\"/"));
    QCOMPARE(json("\"\\ud83d\\ude00\"").toString(), QString::fromUtf8("\xf0\x9f\x98\x80"));
    QCOMPARE(json("\"\xf0\x9f\x98\x80\"").toString(), QString::fromUtf8("\xf0\x9f\x98\x80"));
}

void JsonTests::readsWhatItWrites()
{
    const QVariantMap value{{"null", QVariant::fromValue(nullptr)}, {"text", QStringLiteral("\"\\\n\t\x01é")},
        {"list", QVariantList{true, -5LL, QVariantMap{}, QVariantList{}}}};
    QCOMPARE(Json::read(*Json::write(value))->toMap(), value);
    QCOMPARE(*Json::write(QVariantMap{{"b", 1}, {"a", QStringList{"x"}}}), QByteArray("{\"a\":[\"x\"],\"b\":1}"));
}

void JsonTests::writesNoOtherValues()
{
    QVERIFY(!Json::write(1.5));
    QVERIFY(!Json::write(QVariantList{QByteArray("bytes")}));
    QVERIFY(!Json::write(QString(QChar(0xd800))));
}

QObject *jsonTests()
{
    return new JsonTests;
}

#include "tst_json.moc"
