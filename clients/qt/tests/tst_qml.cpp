/// Objects of a server in QML: bindings to their properties, handlers of their signals, and calls of their slots.
#include "support.h"

#include <QGuiApplication>
#include <QQmlComponent>
#include <QQmlContext>
#include <QQmlEngine>
#include <QSignalSpy>

using namespace Metad;

constexpr char shownLamp[] = R"(
import QtQuick

Text {
    property int half: lamp.level / 2
    property int heard: 0
    text: "level " + lamp.level
    function dim() { lamp.setLevel(3) }
    function brighten() { lamp.level = 9 }
    Connections {
        target: lamp
        function onOpened(way) { heard = way }
    }
})";

class QmlTests : public QObject {
    Q_OBJECT

private slots:
    void init();
    void cleanup();
    void bindsToAProperty();
    void hearsASignal();
    void callsAndWrites();

private:
    QVariant shown(const char *property) const { return m_text->property(property); }

    Front m_front;
    std::unique_ptr<Connection> m_client;
    Session *m_session = nullptr;
    RemoteObject *m_lamp = nullptr;
    std::unique_ptr<QQmlEngine> m_engine;
    std::unique_ptr<QObject> m_text;
};

void QmlTests::init()
{
    m_client = m_front.client();
    m_session = m_client->session();
    m_lamp = wait(m_session->create("Lamp"));
    m_engine = std::make_unique<QQmlEngine>();
    m_engine->rootContext()->setContextProperty("lamp", m_lamp);
    QQmlComponent component(m_engine.get());
    component.setData(shownLamp, QUrl());
    m_text.reset(component.create());
    QVERIFY2(m_text, qPrintable(component.errorString()));
    QCOMPARE(shown("text").toString(), QString("level 0"));
}

void QmlTests::cleanup()
{
    m_text.reset();
    m_engine.reset();
    m_client.reset();
}

void QmlTests::bindsToAProperty()
{
    // the server writes it, by a command that knows nothing of QML
    wait(m_session->give().set(m_lamp->number(), "level", 7));
    QTRY_COMPARE_WITH_TIMEOUT(shown("text").toString(), QString("level 7"), patience);
    QCOMPARE(shown("half").toInt(), 3);
    // and by a binding of its own
    RemoteObject *other = wait(m_session->create("Lamp"));
    wait(m_session->give().bind(m_lamp->number(), "level", json(qPrintable(QString(R"({"prop":"level","of":%1})").arg(other->number())))));
    wait(m_session->give().set(other->number(), "level", 20));
    QTRY_COMPARE_WITH_TIMEOUT(shown("text").toString(), QString("level 20"), patience);
}

void QmlTests::hearsASignal()
{
    QVERIFY(QMetaObject::invokeMethod(m_lamp, "open", Q_ARG(int, 5)));
    QTRY_COMPARE_WITH_TIMEOUT(shown("heard").toInt(), 5, patience);
}

void QmlTests::callsAndWrites()
{
    QVERIFY(QMetaObject::invokeMethod(m_text.get(), "dim"));
    QTRY_COMPARE_WITH_TIMEOUT(shown("text").toString(), QString("level 3"), patience);
    QCOMPARE(wait(m_session->give().get(m_lamp->number(), "level")).toInt(), 3);
    QVERIFY(QMetaObject::invokeMethod(m_text.get(), "brighten"));
    QTRY_COMPARE_WITH_TIMEOUT(shown("text").toString(), QString("level 9"), patience);
    QCOMPARE(wait(m_session->give().get(m_lamp->number(), "level")).toInt(), 9);
}

int main(int count, char **words)
{
    QGuiApplication app(count, words);
    QmlTests tests;
    return QTest::qExec(&tests, count, words);
}

#include "tst_qml.moc"
