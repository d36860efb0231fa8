// A server of the Workload API's methods by grpc-go, whose answers are fixed bytes: record.py records what it writes.
package main

import (
	"encoding/hex"
	"encoding/json"
	"net"
	"os"
	"strings"

	"google.golang.org/grpc"
	"google.golang.org/grpc/codes"
	"google.golang.org/grpc/status"
)

type fixed struct {
	Name, Path string
	Streams    bool
	Messages   []string
	Code       uint32
	Text       string
}

type plain struct{}

func (plain) Marshal(v interface{}) ([]byte, error) { return *v.(*[]byte), nil }
func (plain) Unmarshal(data []byte, v interface{}) error {
	*v.(*[]byte) = data
	return nil
}
func (plain) String() string { return "plain" }

func (c fixed) answer(_ interface{}, stream grpc.ServerStream) error {
	var request []byte
	if err := stream.RecvMsg(&request); err != nil {
		return err
	}
	for _, text := range c.Messages {
		message, err := hex.DecodeString(text)
		if err != nil {
			return err
		}
		if err := stream.SendMsg(&message); err != nil {
			return err
		}
	}
	return status.Error(codes.Code(c.Code), c.Text)
}

func main() {
	var cases []fixed
	if err := json.Unmarshal([]byte(os.Args[2]), &cases); err != nil {
		panic(err)
	}
	server := grpc.NewServer(grpc.CustomCodec(plain{}))
	for _, c := range cases {
		parts := strings.Split(strings.Trim(c.Path, "/"), "/")
		server.RegisterService(&grpc.ServiceDesc{
			ServiceName: c.Name + "." + parts[0],
			HandlerType: (*interface{})(nil),
			Streams:     []grpc.StreamDesc{{StreamName: parts[1], Handler: c.answer, ServerStreams: true}},
		}, struct{}{})
	}
	listener, err := net.Listen("unix", os.Args[1])
	if err != nil {
		panic(err)
	}
	panic(server.Serve(listener))
}
