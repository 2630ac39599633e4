/// `Metad::wait`, which is included by session.h.
#pragma once

#include <QEventLoop>
#include <QFutureWatcher>
#include <QTimer>

namespace Metad {

template<typename Result>
Result wait(const QFuture<Result> &future, std::chrono::milliseconds timeout)
{
    if (!future.isFinished()) {
        QEventLoop loop;
        QFutureWatcher<Result> watcher;
        QObject::connect(&watcher, &QFutureWatcher<Result>::finished, &loop, &QEventLoop::quit);
        watcher.setFuture(future);
        QTimer::singleShot(timeout, &loop, &QEventLoop::quit);
        loop.exec();
    }
    if (!future.isFinished())
        throw Error(QStringLiteral("TimedOut"), QStringLiteral("there was no result in time"));
    QFuture<Result> finished = future;
    finished.waitForFinished(); // throws what the future fails with
    if constexpr (!std::is_void_v<Result>) {
        if (finished.resultCount() == 0)
            throw Error(QStringLiteral("ServerGone"), QStringLiteral("what would have had the result was destroyed"));
        return finished.result();
    }
}

} // namespace Metad
