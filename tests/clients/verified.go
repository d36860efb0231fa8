// Whether what an agent gives out is what it should be, by Go's own crypto: leaf and key of an X.509-SVID, signature and claims of a
// JWT-SVID.
package main

import (
	"crypto/ecdsa"
	"crypto/elliptic"
	"crypto/sha256"
	"crypto/x509"
	"encoding/base64"
	"encoding/binary"
	"encoding/json"
	"fmt"
	"math/big"
	"reflect"
	"strings"
	"time"
)

const domain = "spiffe://example.org"

// The fields of a message that have bytes, by number (the Protocol Buffers wire format).
func fields(message []byte) (map[uint64][][]byte, error) {
	found := map[uint64][][]byte{}
	for len(message) > 0 {
		key, n := binary.Uvarint(message)
		if n <= 0 || key&7 != 2 {
			return nil, fmt.Errorf("a field without bytes")
		}
		size, m := binary.Uvarint(message[n:])
		if m <= 0 || uint64(len(message)-n-m) < size {
			return nil, fmt.Errorf("a message that is cut short")
		}
		begin := n + m
		found[key>>3] = append(found[key>>3], message[begin:begin+int(size)])
		message = message[begin+int(size):]
	}
	return found, nil
}

func one(found map[uint64][][]byte, number uint64) string {
	if len(found[number]) == 0 {
		return ""
	}
	return string(found[number][0])
}

// The messages of field 1 of a response: its SVIDs or tokens, or the items of a map.
func items(response []byte) ([]map[uint64][][]byte, error) {
	outer, err := fields(response)
	if err != nil {
		return nil, err
	}
	var found []map[uint64][][]byte
	for _, it := range outer[1] {
		inner, err := fields(it)
		if err != nil {
			return nil, err
		}
		found = append(found, inner)
	}
	return found, nil
}

// The leaf has a path to the bundle that came with it (RFC 5280), and names the id and the DNS names alone; the key is its key.
func checkX509(svid map[uint64][][]byte, name, hint string, dnsNames []string) error {
	if one(svid, 1) != domain+"/"+name || one(svid, 5) != hint {
		return fmt.Errorf("the id %q with the hint %q", one(svid, 1), one(svid, 5))
	}
	chain, err := x509.ParseCertificates([]byte(one(svid, 2)))
	if err != nil {
		return err
	}
	roots := x509.NewCertPool()
	bundle, err := x509.ParseCertificates([]byte(one(svid, 4)))
	if err != nil {
		return err
	}
	for _, it := range bundle {
		roots.AddCert(it)
	}
	leaf := chain[0]
	if _, err := leaf.Verify(x509.VerifyOptions{Roots: roots}); err != nil {
		return err
	}
	if leaf.IsCA || len(leaf.URIs) != 1 || leaf.URIs[0].String() != domain+"/"+name || !reflect.DeepEqual(leaf.DNSNames, dnsNames) {
		return fmt.Errorf("the leaf names %v and %v", leaf.URIs, leaf.DNSNames)
	}
	key, err := x509.ParsePKCS8PrivateKey([]byte(one(svid, 3)))
	if err != nil {
		return err
	}
	if !key.(*ecdsa.PrivateKey).PublicKey.Equal(leaf.PublicKey) {
		return fmt.Errorf("the key is not the certificate's")
	}
	return nil
}

func part(text string, into interface{}) error {
	data, err := base64.RawURLEncoding.DecodeString(text)
	if err != nil {
		return err
	}
	return json.Unmarshal(data, into)
}

func number(text string) *big.Int {
	data, _ := base64.RawURLEncoding.DecodeString(text)
	return new(big.Int).SetBytes(data)
}

// The key of a JWK set with this name (RFC 7517).
func keyOf(jwks, kid string) (*ecdsa.PublicKey, error) {
	var set struct{ Keys []struct{ Kid, X, Y string } }
	if err := json.Unmarshal([]byte(jwks), &set); err != nil {
		return nil, err
	}
	for _, it := range set.Keys {
		if it.Kid == kid {
			return &ecdsa.PublicKey{Curve: elliptic.P256(), X: number(it.X), Y: number(it.Y)}, nil
		}
	}
	return nil, fmt.Errorf("the bundle has no key %q", kid)
}

// The token is signed by a key of the bundle (RFC 7518, section 3.4), and says who, for whom and until when.
func checkToken(given map[uint64][][]byte, jwks, name, hint string, audience []string) error {
	if one(given, 1) != domain+"/"+name || one(given, 3) != hint {
		return fmt.Errorf("the id %q with the hint %q", one(given, 1), one(given, 3))
	}
	parts := strings.Split(one(given, 2), ".")
	if len(parts) != 3 {
		return fmt.Errorf("a token of %d parts", len(parts))
	}
	var head struct{ Alg, Kid string }
	var claims struct {
		Sub string
		Aud []string
		Exp int64
	}
	for at, into := range []interface{}{&head, &claims} {
		if err := part(parts[at], into); err != nil {
			return err
		}
	}
	key, err := keyOf(jwks, head.Kid)
	if err != nil {
		return err
	}
	signature, err := base64.RawURLEncoding.DecodeString(parts[2])
	digest := sha256.Sum256([]byte(parts[0] + "." + parts[1]))
	if err != nil || head.Alg != "ES256" || len(signature) != 64 ||
		!ecdsa.Verify(key, digest[:], new(big.Int).SetBytes(signature[:32]), new(big.Int).SetBytes(signature[32:])) {
		return fmt.Errorf("the signature")
	}
	left := claims.Exp - time.Now().Unix()
	if claims.Sub != domain+"/"+name || !reflect.DeepEqual(claims.Aud, audience) || left <= 0 || left > 360 {
		return fmt.Errorf("the claims %v", claims)
	}
	return nil
}
