#!/bin/sh
# Makes the certificates that the tests of wl_x509 read, and writes each as a Rust constant to standard output.
# The keys and so the bytes are new at each run; the tests keep those of one run.
set -e
dir=$(mktemp -d)
trap 'rm -rf "$dir"' EXIT
cd "$dir"
openssl ecparam -name prime256v1 -genkey -noout -out p256.pem
openssl genpkey -algorithm RSA -pkeyopt rsa_keygen_bits:2048 -out rsa.pem 2> keys.log
openssl genpkey -algorithm ED25519 -out ed25519.pem
key=p256.pem md=sha256

# certificate NAME NOT_BEFORE NOT_AFTER EXTENSION-LINE..
certificate() {
    name=$1 before=$2 after=$3
    shift 3
    {
        echo "[req]"
        echo "distinguished_name = dn"
        echo "prompt = no"
        echo "[dn]"
        echo "C = US"
        echo "O = SPIRE"
        echo "[ext]"
        for line in "$@"; do echo "$line"; done
        echo "[ca]"
        echo "default_ca = own"
        echo "[own]"
        echo "database = index"
        echo "rand_serial = yes"
        echo "new_certs_dir = ."
        echo "default_md = $md"
        echo "policy = any"
        echo "unique_subject = no"
        echo "[any]"
        echo "countryName = optional"
        echo "organizationName = optional"
    } > conf
    : > index
    openssl req -new -key "$key" -config conf -out request.pem
    openssl ca -batch -selfsign -notext -config conf -extensions ext -keyfile "$key" -in request.pem \
        -startdate "$before" -enddate "$after" -out cert.pem 2> ca.log || { cat ca.log >&2; exit 1; }
    openssl x509 -in cert.pem -outform DER -out cert.der
    printf '// %s to %s, %s\nconst %s: &[u8] = &[\n' "$before" "$after" "$*" "$name"
    od -An -v -tx1 cert.der | sed 's/ \([0-9a-f][0-9a-f]\)/ 0x\1,/g; s/^ /    /'
    printf '];\n\n'
}

# UTCTime and one URI among several extensions
certificate SEVERAL_EXTENSIONS 20240229120000Z 20491231235959Z \
    "keyUsage = critical,digitalSignature" "extendedKeyUsage = serverAuth,clientAuth" \
    "basicConstraints = critical,CA:FALSE" "subjectKeyIdentifier = hash" \
    "subjectAltName = DNS:a.example,URI:spiffe://example.org/service,IP:10.0.0.1"
# GeneralizedTime, since both years are past 2049
certificate LATE 20500101000000Z 20991231235959Z "subjectAltName = critical,URI:spiffe://example.org/late"
# two URIs, and none
certificate TWO_URIS 20240101000000Z 20250101000000Z "subjectAltName = URI:spiffe://example.org/a,URI:spiffe://example.org/b"
certificate NO_URI 20240101000000Z 20250101000000Z "subjectAltName = DNS:a.example"
certificate NO_NAMES 20240101000000Z 20250101000000Z "basicConstraints = critical,CA:FALSE"
# other keys and signatures
key=rsa.pem
certificate RSA 20240101000000Z 20250101000000Z "subjectAltName = URI:spiffe://example.org/rsa"
key=ed25519.pem md=null
certificate ED25519 20240101000000Z 20250101000000Z "subjectAltName = URI:spiffe://example.org/ed25519"
