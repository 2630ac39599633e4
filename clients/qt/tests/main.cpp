/// Runs one suite of tests, which the first word names.
#include "suites.h"

#include <QCoreApplication>
#include <QtTest>

#include <memory>

int main(int count, char **words)
{
    QCoreApplication app(count, words);
    const QMap<QString, QObject *(*)()> suites{{QStringLiteral("connections"), connectionTests}, {QStringLiteral("expressions"), expressionTests},
        {QStringLiteral("failures"), failureTests}, {QStringLiteral("json"), jsonTests}, {QStringLiteral("objects"), objectTests}, {QStringLiteral("sessions"), sessionTests}};
    QStringList given = app.arguments();
    const auto suite = suites.value(given.value(1));
    if (!suite) {
        qWarning("usage: metad-qt-tests %s [words for QtTest]", qPrintable(suites.keys().join(QLatin1Char('|'))));
        return 2;
    }
    given.removeAt(1);
    const std::unique_ptr<QObject> tests(suite());
    return QTest::qExec(tests.get(), given);
}
