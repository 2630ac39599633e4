#!/bin/sh
# Installs what the tests of the Qt client need, where this may be done; else says what to install. Without it these tests are skipped.
# Usage: qt_needs.sh
packages="cmake g++ qt6-base-dev qt6-declarative-dev qml6-module-qtquick qml6-module-qtqml-workerscript"
if command -v cmake > /dev/null 2>&1 && ls /usr/lib/*/cmake/Qt6Qml/Qt6QmlConfig.cmake /usr/lib/*/qt6/qml/QtQuick/qmldir /usr/lib/*/qt6/qml/QtQml/WorkerScript/qmldir > /dev/null 2>&1; then
    exit 0
fi
if [ "$(id -u)" != 0 ] || ! command -v apt-get > /dev/null 2>&1; then
    echo "the tests of the Qt client need cmake and Qt 6: apt-get install $packages"
    exit 0
fi
# a new machine may not have the lists of packages yet
apt-get -o DPkg::Lock::Timeout=300 update -q > /dev/null
apt-get -o DPkg::Lock::Timeout=300 install -y -q --no-install-recommends $packages > /dev/null || echo "Qt cannot be installed, so the tests of its client are skipped"
