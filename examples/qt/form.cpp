/// A form whose button is enabled by a binding in the server: form SOCKET [PICTURE]
#include "example.h"

#include <metad/expressions.h>
#include <metad/remoteobject.h>
#include <metad/session.h>

#include <QApplication>
#include <QFormLayout>

using namespace Metad;

int run(const QStringList &words)
{
    Session *session = Connection::toFront(words[0], {}, qApp)->session();
    RemoteObject *name = wait(session->create("Text")), *password = wait(session->create("Text"));
    RemoteObject *button = wait(session->create("Button"));
    wait(session->give().bind(button, "enabled", prop("text", name) != "" && prop("text", password) != ""));

    QWidget form;
    auto *nameEdit = new QLineEdit, *passwordEdit = new QLineEdit;
    auto *send = new QPushButton("Send");
    auto *layout = new QFormLayout(&form);
    layout->addRow("Name", nameEdit);
    layout->addRow("Password", passwordEdit);
    layout->addRow(send);
    send->setEnabled(button->property("enabled").toBool());
    QObject::connect(nameEdit, &QLineEdit::textChanged, name, [=](const QString &text) { name->setProperty("text", text); });
    QObject::connect(passwordEdit, &QLineEdit::textChanged, password, [=](const QString &text) { password->setProperty("text", text); });
    QObject::connect(button, SIGNAL(enabledChanged(bool)), send, SLOT(setEnabled(bool)));
    QObject::connect(send, SIGNAL(clicked()), button, SLOT(press()));
    QObject::connect(button, SIGNAL(clicked()), &form, SLOT(close()));
    form.resize(320, 120);
    form.show();
    if (words.size() > 1)
        fillIn(&form, {"ann", "secret"}, words[1]);
    return QApplication::exec();
}

int main(int count, char **words) { return runExample<QApplication>(count, words, "form SOCKET [PICTURE]", 2, run); }
