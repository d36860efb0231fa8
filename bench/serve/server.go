// A server of FetchX509SVID by grpc-go, for comparison: it sends the bytes of a file to each call, and keeps the stream open.
// With a period it sends to all streams again, the last byte changed. With the word copied it makes each message anew, which for a message
// of a few long fields is what encoding costs: its bytes are copied once. Usage: server SOCKET FILE [MILLISECONDS|copied]
package main

import (
	"io/ioutil"
	"net"
	"os"
	"strconv"
	"sync"
	"time"

	"google.golang.org/grpc"
)

type plain struct{ copies bool }

func (p plain) Marshal(v interface{}) ([]byte, error) {
	message := *v.(*[]byte)
	if p.copies {
		return append([]byte(nil), message...), nil
	}
	return message, nil
}
func (plain) Unmarshal(data []byte, v interface{}) error {
	*v.(*[]byte) = data
	return nil
}
func (plain) String() string { return "plain" }

// The message that is sent now; changed is closed when there is another one.
type newest struct {
	sync.Mutex
	message []byte
	changed chan struct{}
}

func (n *newest) read() ([]byte, chan struct{}) {
	n.Lock()
	defer n.Unlock()
	return n.message, n.changed
}

func (n *newest) change() {
	n.Lock()
	defer n.Unlock()
	message := append([]byte(nil), n.message...)
	message[len(message)-1]++
	close(n.changed)
	n.message, n.changed = message, make(chan struct{})
}

func main() {
	message, err := ioutil.ReadFile(os.Args[2])
	if err != nil {
		panic(err)
	}
	now := &newest{message: message, changed: make(chan struct{})}
	handle := func(_ interface{}, stream grpc.ServerStream) error {
		var request []byte
		if err := stream.RecvMsg(&request); err != nil {
			return err
		}
		for {
			message, changed := now.read()
			if err := stream.SendMsg(&message); err != nil {
				return err
			}
			select {
			case <-changed:
			case <-stream.Context().Done():
				return nil
			}
		}
	}
	copies := len(os.Args) > 3 && os.Args[3] == "copied"
	if len(os.Args) > 3 && !copies {
		period, err := strconv.Atoi(os.Args[3])
		if err != nil {
			panic(err)
		}
		go func() {
			for range time.Tick(time.Duration(period) * time.Millisecond) {
				now.change()
			}
		}()
	}
	server := grpc.NewServer(grpc.CustomCodec(plain{copies}))
	server.RegisterService(&grpc.ServiceDesc{
		ServiceName: "SpiffeWorkloadAPI",
		HandlerType: (*interface{})(nil),
		Streams:     []grpc.StreamDesc{{StreamName: "FetchX509SVID", Handler: handle, ServerStreams: true}},
	}, struct{}{})
	listener, err := net.Listen("unix", os.Args[1])
	if err != nil {
		panic(err)
	}
	panic(server.Serve(listener))
}
