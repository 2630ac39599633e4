/// Signals that the server has sent, in its order, until they can be emitted here. Not part of the public interface.
#pragma once

#include <QQueue>

#include <functional>
#include <memory>

namespace Metad {

/// A signal that is to be emitted.
struct Emission {
    std::function<void()> emitNow;
    int waitsFor; // how many values of properties have to be there before
};

/// The signals of a session. One that reports a property's change waits for the property's value, and later ones wait too:
/// so a receiver that reads the property finds the value of now, and signals keep their order.
class Emissions {
public:
    ~Emissions() { *m_alive = false; }

    /// Emits a signal as soon as those before it were emitted, and what it waits for was released.
    std::shared_ptr<Emission> add(const std::function<void()> &emitNow, int waitsFor)
    {
        const auto added = std::make_shared<Emission>(Emission{emitNow, waitsFor});
        m_queue.enqueue(added);
        flush();
        return added;
    }

    /// A value that an emission has waited for is there.
    void release(const std::shared_ptr<Emission> &emission)
    {
        --emission->waitsFor;
        flush();
    }

private:
    /// Emits what waits for nothing. A receiver may cause further emissions, or destroy this object.
    void flush()
    {
        const auto isAlive = m_alive;
        while (*isAlive && !m_queue.isEmpty() && m_queue.head()->waitsFor == 0)
            m_queue.dequeue()->emitNow();
    }

    QQueue<std::shared_ptr<Emission>> m_queue;
    std::shared_ptr<bool> m_alive = std::make_shared<bool>(true);
};

} // namespace Metad
