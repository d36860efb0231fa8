// The calls of a client by grpc-go. Usage: client FOLDER [CASE..]; a line for each case.
package main

import (
	"bytes"
	"context"
	"fmt"
	"net"
	"os"
	"sync"
	"time"

	"google.golang.org/grpc"
	"google.golang.org/grpc/codes"
	"google.golang.org/grpc/metadata"
	"google.golang.org/grpc/status"
)

const (
	api    = "/SpiffeWorkloadAPI/"
	health = "/grpc.health.v1.Health/"
)

var folder = os.Args[1]

// The bytes of a message, as they are.
type plain struct{}

func (plain) Marshal(v interface{}) ([]byte, error) { return *v.(*[]byte), nil }
func (plain) Unmarshal(data []byte, v interface{}) error {
	*v.(*[]byte) = append([]byte(nil), data...)
	return nil
}
func (plain) Name() string { return "proto" }

func connect(name string) *grpc.ClientConn {
	dial := func(ctx context.Context, _ string) (net.Conn, error) {
		return new(net.Dialer).DialContext(ctx, "unix", folder+"/"+name+".sock")
	}
	options := grpc.WithDefaultCallOptions(grpc.ForceCodec(plain{}), grpc.MaxCallRecvMsgSize(8000000))
	conn, err := grpc.Dial("passthrough:///localhost", grpc.WithInsecure(), grpc.WithContextDialer(dial), options)
	if err != nil {
		panic(err)
	}
	return conn
}

func secure(ctx context.Context) context.Context {
	return metadata.AppendToOutgoingContext(ctx, "workload.spiffe.io", "true")
}

// Opens a call, and sends its one request.
func open(ctx context.Context, conn *grpc.ClientConn, path string, request []byte) (grpc.ClientStream, error) {
	stream, err := conn.NewStream(ctx, &grpc.StreamDesc{ServerStreams: true}, path)
	if err != nil {
		return nil, err
	}
	if err := stream.SendMsg(&request); err != nil {
		return nil, err
	}
	return stream, stream.CloseSend()
}

func next(stream grpc.ClientStream) ([]byte, error) {
	var message []byte
	return message, stream.RecvMsg(&message)
}

// The first message of a call on a connection of its own.
func first(ctx context.Context, name, path string, request []byte) ([]byte, error) {
	conn := connect(name)
	defer conn.Close()
	ctx, cancel := context.WithTimeout(ctx, 60*time.Second)
	defer cancel()
	stream, err := open(ctx, conn, path, request)
	if err != nil {
		return nil, err
	}
	return next(stream)
}

// The SVIDs, the tokens or the items of the map in the first message of a call.
func parts(name, path string, request []byte) ([]map[uint64][][]byte, error) {
	message, err := first(secure(context.Background()), name, path, request)
	if err != nil {
		return nil, err
	}
	return items(message)
}

// The X.509-SVIDs of a socket are these, and no others.
func given(name string, checks ...func(map[uint64][][]byte) error) error {
	svids, err := parts(name, api+"FetchX509SVID", nil)
	if err != nil {
		return err
	}
	if len(svids) != len(checks) {
		return fmt.Errorf("%d SVIDs", len(svids))
	}
	for at, check := range checks {
		if err := check(svids[at]); err != nil {
			return err
		}
	}
	return nil
}

func svid(name, hint string, dnsNames ...string) func(map[uint64][][]byte) error {
	return func(given map[uint64][][]byte) error { return checkX509(given, name, hint, dnsNames) }
}

func token() error {
	bundles, err := parts("web", api+"FetchJWTBundles", nil)
	if err != nil {
		return err
	}
	tokens, err := parts("web", api+"FetchJWTSVID", []byte("\x0a\x02db\x0a\x05cache"))
	if err != nil {
		return err
	}
	if len(bundles) != 1 || one(bundles[0], 1) != domain || len(tokens) != 1 {
		return fmt.Errorf("%d bundles and %d tokens", len(bundles), len(tokens))
	}
	return checkToken(tokens[0], one(bundles[0], 2), "web", "internal", []string{"db", "cache"})
}

func has(name, path string, request []byte, wanted string) error {
	message, err := first(secure(context.Background()), name, path, request)
	if err == nil && !bytes.Contains(message, []byte(wanted)) {
		err = fmt.Errorf("another answer of %d bytes", len(message))
	}
	return err
}

func longer(name string, bytes int) error {
	message, err := first(secure(context.Background()), name, api+"FetchX509SVID", nil)
	if err == nil && len(message) <= bytes {
		err = fmt.Errorf("only %d bytes", len(message))
	}
	return err
}

func refused(ctx context.Context, name, path string, request []byte, code codes.Code) error {
	_, err := first(ctx, name, path, request)
	if status.Code(err) == code {
		return nil
	}
	return fmt.Errorf("not %v: %v", code, err)
}

func cancelled() error {
	conn := connect("web")
	defer conn.Close()
	for i := 0; i < 50; i++ {
		ctx, cancel := context.WithCancel(secure(context.Background()))
		stream, err := open(ctx, conn, api+"FetchX509SVID", nil)
		if err == nil {
			_, err = next(stream)
		}
		cancel()
		if err != nil {
			return err
		}
	}
	return has("web", api+"FetchX509SVID", nil, "spiffe://example.org/web")
}

func rotation() error {
	conn := connect("rotating")
	defer conn.Close()
	ctx, cancel := context.WithTimeout(secure(context.Background()), 60*time.Second)
	defer cancel()
	stream, err := open(ctx, conn, api+"FetchX509SVID", nil)
	if err != nil {
		return err
	}
	var last []byte
	for i := 0; i < 4; i++ {
		message, err := next(stream)
		if err != nil {
			return err
		}
		if bytes.Equal(message, last) {
			return fmt.Errorf("the same message twice")
		}
		last = message
	}
	return nil
}

func hundred() error {
	var group sync.WaitGroup
	errs := make(chan error, 100)
	for i := 0; i < 100; i++ {
		group.Add(1)
		go func() {
			defer group.Done()
			errs <- has("web", api+"FetchX509SVID", nil, "spiffe://example.org/web")
		}()
	}
	group.Wait()
	close(errs)
	for err := range errs {
		if err != nil {
			return err
		}
	}
	return nil
}

// Whether the words name this case, or none.
func asked(name string) bool {
	for _, it := range os.Args[2:] {
		if it == name {
			return true
		}
	}
	return len(os.Args) == 2
}

func main() {
	secured := secure(context.Background())
	cases := []struct {
		name string
		run  func() error
	}{
		{"x509", func() error { return given("web", svid("web", "internal", "web.example.org", "api.example.org")) }},
		{"selectors", func() error { return given("team", svid("both", "team", "both.example.org"), svid("zone", "zone")) }},
		{"x509_bundles", func() error { return has("web", api+"FetchX509Bundles", nil, "spiffe://example.org") }},
		{"jwt", token},
		{"jwt_bundles", func() error { return has("web", api+"FetchJWTBundles", nil, "keys") }},
		{"check", func() error { return has("web", health+"Check", nil, "\x08\x01") }},
		{"watch", func() error { return has("web", health+"Watch", nil, "\x08\x01") }},
		{"denied", func() error { return refused(secured, "nobody", api+"FetchX509SVID", nil, codes.PermissionDenied) }},
		{"no_header", func() error {
			return refused(context.Background(), "web", api+"FetchX509SVID", nil, codes.InvalidArgument)
		}},
		{"cancelled", cancelled},
		{"rotation", rotation},
		{"above_64_kib", func() error { return longer("middle", 65536) }},
		{"above_1_mib", func() error { return longer("large", 1048576) }},
		{"hundred", hundred},
	}
	for _, it := range cases {
		if !asked(it.name) {
			continue
		}
		if err := it.run(); err != nil {
			fmt.Printf("%s FAILED %q\n", it.name, err.Error())
		} else {
			fmt.Printf("%s ok\n", it.name)
		}
	}
}
