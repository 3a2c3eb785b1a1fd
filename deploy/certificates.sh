#!/bin/sh
# deploy/certificates.sh FOLDER HOST NAME..: makes an authority of its own, a certificate for the server HOST, and one for each client NAME (its common
# name). FOLDER gets ca.key, ca.crt, server.pem, and NAME.key and NAME.crt. An authority that is there is used again, so that the same command renews
# the certificates before their year has passed; keep ca.key off the server.
# --revoke FOLDER NAME: has crl.pem, which lists what was revoked, list NAME's certificate too. It ends in ten years.
# --ends FOLDER: prints the end of each certificate there as a sample of a metric, for node_exporter's textfile collector.
set -eu
umask 077

authority() {
    touch index && printf '%s\n' '[ca]' 'default_ca=own' '[own]' 'database=index' 'certificate=ca.crt' 'private_key=ca.key' 'default_md=sha256' >ca.cnf
    openssl ca -config ca.cnf -batch "$@" 2>/dev/null
    rm -f ca.cnf index.attr index.old index.attr.old
}

case $1 in
--revoke)
    cd "$2"
    authority -revoke "$3.crt"
    authority -gencrl -crldays 3650 -out crl.pem
    rm "$3.crt" "$3.key"
    exit
    ;;
--ends)
    cd "$2"
    echo '# TYPE path_server_certificate_end_seconds gauge'
    for file in *.crt *.pem; do
        end=$(openssl x509 -in "$file" -noout -enddate 2>/dev/null) || continue
        echo "path_server_certificate_end_seconds{file=\"$file\"} $(date -d "${end#notAfter=}" +%s)"
    done
    exit
    ;;
esac

folder=$1 host=$2
shift 2
mkdir -p "$folder"
cd "$folder"
[ -f ca.key ] || openssl req -x509 -newkey ec -pkeyopt ec_paramgen_curve:P-256 -nodes -days 3650 -subj "/CN=path_server clients" -keyout ca.key -out ca.crt 2>/dev/null

# sign NAME EXTENSIONS
sign() {
    openssl req -newkey ec -pkeyopt ec_paramgen_curve:P-256 -nodes -subj "/CN=$1" -keyout "$1.key" -out "$1.csr" 2>/dev/null
    printf '%s\n' "basicConstraints=CA:FALSE" "$2" >"$1.ext"
    openssl x509 -req -in "$1.csr" -CA ca.crt -CAkey ca.key -CAcreateserial -days 365 -extfile "$1.ext" -out "$1.crt" 2>/dev/null
    rm "$1.csr" "$1.ext"
}

case $host in
*[!0-9.]*) place=DNS:$host ;;
*) place=IP:$host ;;
esac
sign server "subjectAltName=$place,DNS:localhost"
cat server.crt server.key >server.pem.part
mv server.pem.part server.pem
rm server.crt server.key
for name in "$@"; do
    sign "$name" "extendedKeyUsage=clientAuth"
done
