#!/bin/sh
# Installs the programs without which tests are skipped, where this may be done; else says which are missing, and which tests are skipped.
# Usage: test_needs.sh
PATH="$PATH:/usr/local/sbin:/usr/sbin:/sbin"
missing="" packages=""

# Notes a package where none of its programs is on the path. Usage: need PACKAGE TESTS PROGRAM ..
need() {
    package=$1 tests=$2
    shift 2
    for program in "$@"; do
        command -v "$program" > /dev/null 2>&1 && return
    done
    missing="$missing${missing:+, }$1 ($tests)"
    packages="$packages${packages:+ }$package"
}

need mypy "types of the Python client" mypy
need flake8 "make lint" flake8
need haproxy "several machines" haproxy
need prometheus "metrics and alerts" promtool
need graphviz "graphs of the inspector" dot
need strace "system calls" strace
need logrotate "rotated logs" logrotate
need chromium "pages in a browser" chromium chromium-browser google-chrome chrome
need nodejs "the client in JavaScript" node
need node-typescript "types of the client in JavaScript" tsc
need groff "the manual page" man groff
need openssl "TLS" openssl
need socat "recipes" socat
need binutils "packages" objdump
need dpkg-dev "packages for Debian" dpkg-deb

if [ -z "$packages" ]; then
    exit 0
fi
if [ "$(id -u)" != 0 ] || ! command -v apt-get > /dev/null 2>&1; then
    echo "missing, so these tests are skipped: $missing: apt-get install $packages"
    exit 0
fi
# no package may ask a question, and a new machine may not have the lists of packages yet
export DEBIAN_FRONTEND=noninteractive
apt-get -o DPkg::Lock::Timeout=300 update -q > /dev/null
apt-get -o DPkg::Lock::Timeout=300 install -y -q --no-install-recommends $packages > /dev/null || echo "cannot be installed, so these tests are skipped: $missing"
