#!/usr/bin/env bash
# Encodes messages by the standard compiler (Debian: protobuf-compiler) and prints their bytes in hexadecimal, a line
# each. They were made with libprotoc 3.21.12; the tests of workload_proto and wl_health have them.
set -eu
cd "$(dirname "$(readlink -f "$0")")"
encode() {
  printf '%s ' "$1"
  printf '%s' "$3" | protoc --deterministic_output --encode="$2" messages.proto | xxd -p | tr -d '\n'
  echo
}
encode x509 X509SVIDResponse '
  svids { spiffe_id: "spiffe://a.b/w" x509_svid: "\001\002" x509_svid_key: "\003" bundle: "\004" hint: "internal" }
  svids { spiffe_id: "spiffe://a.b/x" x509_svid: "\005" x509_svid_key: "" bundle: "\006" }
  svids { }
  federated_bundles { key: "spiffe://c.d" value: "\007\010" }
  federated_bundles { key: "spiffe://e.f" value: "" }'
encode bundles X509BundlesResponse '
  bundles { key: "spiffe://a.b" value: "\001" }
  bundles { key: "spiffe://c.d" value: "\002" }'
encode jwt_bundles JWTBundlesResponse '
  bundles { key: "spiffe://a.b" value: "{}" }
  bundles { key: "spiffe://c.d" value: "" }'
encode jwt JWTSVIDResponse '
  svids { spiffe_id: "spiffe://a.b/w" svid: "e30.e30.AA" hint: "internal" }
  svids { spiffe_id: "spiffe://a.b/x" svid: "e30.e30.AQ" }'
encode request JWTSVIDRequest 'audience: "one" audience: "" audience: "zw\303\266lf" spiffe_id: "spiffe://a.b/w"'
encode newer NewerRequest '
  audience: "one" audience: "two" spiffe_id: "spiffe://a.b/w"
  number: 18446744073709551615 eight: 1 four: 2 more: "\377" far: -1'
encode health_request HealthCheckRequest 'service: "SpiffeWorkloadAPI"'
encode serving HealthCheckResponse 'status: SERVING'
encode not_serving HealthCheckResponse 'status: NOT_SERVING'
encode service_unknown HealthCheckResponse 'status: SERVICE_UNKNOWN'
