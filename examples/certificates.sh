#!/bin/sh
# Makes a certificate authority in a folder, and a key and certificate of each identity that is named, as NAME=spiffe://.. or, of a server
# that is known by its name, NAME=HOST.
# usage: examples/certificates.sh FOLDER NAME=IDENTITY ..
set -e
folder=$1
shift
mkdir -p "$folder"
cd "$folder"
new="-newkey ec -pkeyopt ec_paramgen_curve:P-256 -nodes -subj /O=example"
[ -e ca.pem ] || openssl req -x509 $new -days 30 -keyout ca.key -out ca.pem 2> /dev/null
for pair in "$@"; do
    name=${pair%%=*}
    openssl req $new -keyout "$name.key" -out "$name.csr" 2> /dev/null
    case ${pair#*=} in *://*) kind=URI ;; *) kind=DNS ;; esac
    printf 'subjectAltName=critical,%s:%s\n' "$kind" "${pair#*=}" > "$name.ext"
    openssl x509 -req -in "$name.csr" -CA ca.pem -CAkey ca.key -CAcreateserial -days 30 -extfile "$name.ext" \
        -out "$name.pem" 2> /dev/null
    rm "$name.csr" "$name.ext"
    echo "$folder/$name.pem: ${pair#*=}"
done
