#!/bin/sh
# Says of each program that is missing, in one sentence, what needs it and where to get it; the status is then 1.
# Usage: needs.sh [rt] [cc] [python3=VERSION] [PROGRAM ..]     CC names the C compiler.
status=0

missing() {
    echo "missing: $1" >&2
    status=1
}

has() {
    command -v "$1" > /dev/null 2>&1
}

need_python() {
    minor=${1#3.}
    if ! has python3; then
        found="there is no python3 on the PATH"
    elif python3 -c "import sys; sys.exit(sys.version_info < (3, $minor))" > /dev/null 2>&1; then
        return
    else
        found="python3 on the PATH is $(python3 --version 2>&1)"
    fi
    missing "Python $1 or later ($found); install it with your system's packages (Debian: apt-get install python3), or from python.org."
}

for program in "$@"; do
    case $program in
    rt)
        has rt || missing "rt, the command of the Rattle toolchain, which proves and builds metad; unpack a Rattle kit and put its folder bin on the PATH."
        ;;
    cc)
        compiler=${CC:-cc}
        has "${compiler%% *}" || missing "$compiler, a C compiler, which builds small libraries for tests and measurements; install one (Debian: apt-get install gcc), or name one with CC=COMPILER."
        ;;
    python3=*) need_python "${program#python3=}" ;;
    objcopy) has objcopy || missing "objcopy, which hides the library's own symbols; install binutils (Debian: apt-get install binutils)." ;;
    objdump) has objdump || missing "objdump, which says what a program needs; install binutils (Debian: apt-get install binutils)." ;;
    flake8) has flake8 || missing "flake8, which reads the sources in Python; install it (Debian: apt-get install flake8)." ;;
    dpkg-deb) has dpkg-deb || missing "dpkg-deb, which makes packages for Debian; install dpkg, or use make dist instead." ;;
    *) has "$program" || missing "$program; install it with your system's packages." ;;
    esac
done
exit $status
