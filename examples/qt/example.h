/// What the examples share: they read the command line, say what failed, and can fill in a form by themselves.
#pragma once

#include <metad/error.h>

#include <QLineEdit>
#include <QPushButton>
#include <QTimer>

/// Runs an example with the words of the command line. The status is 2 if there are too few or too many, and 1 if it fails.
template<typename Application>
int runExample(int count, char **words, const char *usage, int most, int (*run)(const QStringList &words))
{
    Application app(count, words);
    const QString name = QString::fromUtf8(usage).section(' ', 0, 0);
    if (count < 2 || count > most + 1) {
        qCritical("usage: %s", usage);
        return 2;
    }
    try {
        return run(app.arguments().mid(1));
    } catch (const Metad::Error &error) {
        qCritical("%s: %s", qPrintable(name), error.what());
        return 1;
    }
}

/// Fills in a form: writes the texts, waits until the button is enabled, saves a picture of the form, and presses the button.
inline void fillIn(QWidget *form, const QStringList &texts, const QString &picture)
{
    const auto edits = form->findChildren<QLineEdit *>();
    for (qsizetype at = 0; at < texts.size(); ++at)
        edits[at]->setText(texts[at]);
    auto *button = form->findChild<QPushButton *>();
    auto *timer = new QTimer(form);
    QObject::connect(timer, &QTimer::timeout, form, [=] {
        if (button->isEnabled() && form->grab().save(picture))
            button->click();
    });
    timer->start(50);
}
