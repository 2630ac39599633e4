/// Expressions for `bind`, written with the operators of C++.
#pragma once

#include <QVariant>

#include <type_traits>

namespace Metad {

class RemoteObject;

/// An expression that the server evaluates, such as `prop("text", name) != "" && prop("number", seat) < 5`.
///
/// Nothing is calculated in this program. A `bool`, a whole number or a text stands for a constant. The server has no
/// `!`, `&&`, `||`, `!=`, `>`, `<=` and `>=`: these become expressions that mean the same.
class Expression {
public:
    template<typename Whole, typename = std::enable_if_t<std::is_integral_v<Whole>>>
    Expression(Whole constant)
        : Expression(QLatin1String("const"), std::is_same_v<Whole, bool> ? QVariant(bool(constant)) : std::is_signed_v<Whole> ? QVariant(qlonglong(constant)) : QVariant(qulonglong(constant)))
    {
    }
    Expression(const QString &constant) : Expression(QLatin1String("const"), constant) { }
    Expression(const char *constant) : Expression(QString::fromUtf8(constant)) { }

    /// The expression as JSON, as `bind` takes it.
    operator QVariant() const { return m_json; }

    friend Expression operator+(const Expression &one, const Expression &other) { return made("+", one, other); }
    friend Expression operator-(const Expression &one, const Expression &other) { return made("-", one, other); }
    friend Expression operator<(const Expression &one, const Expression &other) { return made("<", one, other); }
    friend Expression operator>(const Expression &one, const Expression &other) { return other < one; }
    friend Expression operator<=(const Expression &one, const Expression &other) { return !(other < one); }
    friend Expression operator>=(const Expression &one, const Expression &other) { return !(one < other); }
    friend Expression operator==(const Expression &one, const Expression &other) { return made("=", one, other); }
    friend Expression operator!=(const Expression &one, const Expression &other) { return !(one == other); }
    friend Expression operator!(const Expression &condition) { return choose(condition, false, true); }
    friend Expression operator&&(const Expression &one, const Expression &other) { return choose(one, other, false); }
    friend Expression operator||(const Expression &one, const Expression &other) { return choose(one, true, other); }

    /// The first of two expressions where the condition is true, otherwise the second. The other one is not evaluated.
    friend Expression choose(const Expression &condition, const Expression &first, const Expression &second)
    {
        return {QLatin1String("if"), QVariantList{condition.m_json, first.m_json, second.m_json}};
    }

    /// Two texts, the second after the first.
    friend Expression concat(const Expression &one, const Expression &other) { return made("cat", one, other); }

    /// Three texts or more, in their order.
    template<typename... More>
    friend Expression concat(const Expression &one, const Expression &other, const More &...more)
    {
        return concat(concat(one, other), more...);
    }

    friend Expression prop(const QString &name);
    friend Expression prop(const QString &name, const RemoteObject *of);

private:
    Expression(QLatin1String word, const QVariant &operands) : m_json{{word, operands}} { }
    static Expression made(const char *word, const Expression &one, const Expression &other)
    {
        return {QLatin1String(word), QVariantList{one.m_json, other.m_json}};
    }

    QVariantMap m_json;
};

// declared here so that arguments that are no expressions yet find them
Expression choose(const Expression &condition, const Expression &first, const Expression &second);
Expression concat(const Expression &one, const Expression &other);

/// A property of the object whose property is bound.
Expression prop(const QString &name);

/// A property of an object.
Expression prop(const QString &name, const RemoteObject *of);

} // namespace Metad
