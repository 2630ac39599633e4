/// JSON as the server writes and reads it, in which 64-bit whole numbers are exact.
///
/// `QJsonDocument` turns whole numbers above 2^63 - 1 into floating-point ones, so this client reads and writes for itself.
#pragma once

#include <QByteArray>
#include <QVariant>

#include <optional>

namespace Metad::Json {

/// How many arrays and objects may be within each other.
constexpr int levelsMost = 128;

/// Reads one value. Null is `QVariant::fromValue(nullptr)`, whole numbers are `qlonglong`, or `qulonglong` above 2^63 - 1.
/// Nothing where the text is not JSON, or holds a number that is not a whole one of 64 bits.
std::optional<QVariant> read(const QByteArray &text);

/// Writes a value compactly: truths, whole numbers, texts, null, lists and maps of these. Nothing for any other value.
std::optional<QByteArray> write(const QVariant &value);

/// Whether a value is JSON's null, or none at all.
bool isNull(const QVariant &value);

} // namespace Metad::Json
