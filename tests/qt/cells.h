// A class like metad's demonstration class Cell, with Qt's bindable properties.
#pragma once

#include <QtCore/QObject>
#include <QtCore/QProperty>

class Cell : public QObject
{
    Q_OBJECT
    Q_PROPERTY(int x READ x WRITE setX NOTIFY xChanged BINDABLE bindableX)
    Q_PROPERTY(int y READ y WRITE setY BINDABLE bindableY)
    Q_PROPERTY(int z READ z WRITE setZ BINDABLE bindableZ)
    Q_PROPERTY(bool flag MEMBER m_flag)

public:
    using QObject::QObject;

    int x() const { return m_x; }
    void setX(int x) { m_x = x; }
    QBindable<int> bindableX() { return &m_x; }
    int y() const { return m_y; }
    void setY(int y) { m_y = y; }
    QBindable<int> bindableY() { return &m_y; }
    int z() const { return m_z; }
    void setZ(int z) { m_z = z; }
    QBindable<int> bindableZ() { return &m_z; }

signals:
    void xChanged(int x);
    void ping();

private:
    Q_OBJECT_BINDABLE_PROPERTY(Cell, int, m_x, &Cell::xChanged)
    Q_OBJECT_BINDABLE_PROPERTY(Cell, int, m_y)
    Q_OBJECT_BINDABLE_PROPERTY(Cell, int, m_z)
    bool m_flag = false;
};
