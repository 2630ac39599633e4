#!/bin/sh
# Installs what the tests of libmetad need, where this may be done; else says what to install. Without it some of these tests are skipped.
# Usage: library_needs.sh
packages="g++ valgrind"
if command -v c++ > /dev/null 2>&1 && command -v valgrind > /dev/null 2>&1; then
    exit 0
fi
if [ "$(id -u)" != 0 ] || ! command -v apt-get > /dev/null 2>&1; then
    echo "the tests of libmetad need a C++ compiler and valgrind: apt-get install $packages"
    exit 0
fi
# a new machine may not have the lists of packages yet
apt-get update -q > /dev/null
apt-get install -y -q --no-install-recommends $packages > /dev/null || echo "valgrind cannot be installed, so some tests of libmetad are skipped"
