/// What went wrong, as a code and a text for people.
#pragma once

#include <QException>
#include <QString>

namespace Metad {

/// A command that was refused, or a connection that cannot be used.
///
/// Codes of the server (`E04`) and of the front (`F02`) are those of their documents. Others are the client's own:
/// `CannotConnect`, `ServerGone`, `TimedOut`, `LineTooLong`, `NoValue`, `StrangeLine`, `NoRelay`, `NotLive` and `OtherSession`.
/// A future that fails holds one: take it by `onFailed([](const Metad::Error &error) { .. })`.
class Error : public QException {
public:
    Error() = default;
    Error(const QString &code, const QString &text);

    QString code() const { return m_code; }
    QString text() const { return m_text; }

    void raise() const override { throw *this; }
    Error *clone() const override { return new Error(*this); }
    const char *what() const noexcept override { return m_what.constData(); }

private:
    QString m_code;
    QString m_text;
    QByteArray m_what;
};

/// What a code of the server means, as PROTOCOL says it; empty for any other code.
QString meaningOf(const QString &code);

} // namespace Metad
