#!/bin/sh
# Makes certificates in a folder: those of an authority and of the edge, where they are not there, and one for each name.
# Usage: certificates.sh FOLDER NAME...
set -eu
umask 077
folder=$1
shift
mkdir -p "$folder"
cd "$folder"

# a key and a certificate of the authority, which is good for what is called so, in one file
signed() {
    openssl req -new -newkey ec -pkeyopt ec_paramgen_curve:prime256v1 -nodes -keyout "$1.key" -subj "$2" -out "$1.csr"
    printf '%s\n' "$3" > "$1.ext"
    openssl x509 -req -in "$1.csr" -CA authority.crt -CAkey authority.key -CAcreateserial -days 365 -extfile "$1.ext" -out "$1.crt"
    cat "$1.crt" "$1.key" > "$1.pem"
    rm "$1.csr" "$1.ext" "$1.crt" "$1.key"
}

if ! test -f authority.crt; then
    openssl req -x509 -newkey ec -pkeyopt ec_paramgen_curve:prime256v1 -nodes -keyout authority.key -subj "/CN=metad clients" \
        -days 3650 -out authority.crt
    signed edge /CN=edge "subjectAltName=DNS:edge
extendedKeyUsage=serverAuth"
fi
for name in "$@"; do
    signed "$name" "/CN=$name" extendedKeyUsage=clientAuth
done
