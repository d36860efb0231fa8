// Load on a server of FetchX509SVID, by grpc-go. Usage:
//
//	load SOCKET new COUNT WORKERS          first responses, each on a connection of its own
//	load SOCKET calls COUNT WORKERS        first responses on WORKERS open connections
//	load SOCKET spread CONNECTIONS STREAMS from the first stream that has its second message to the last one
//	load SOCKET burst ROUNDS STREAMS       first responses on so many streams of one connection at once, in each round
//	load SOCKET hold CONNECTIONS STREAMS   opens streams, and holds them until its input ends
//
// A line of seconds and, except for the spread, of responses a second.
package main

import (
	"context"
	"fmt"
	"io/ioutil"
	"net"
	"os"
	"strconv"
	"sync"
	"sync/atomic"
	"time"

	"google.golang.org/grpc"
	"google.golang.org/grpc/metadata"
)

const method = "/SpiffeWorkloadAPI/FetchX509SVID"

type plain struct{}

func (plain) Marshal(v interface{}) ([]byte, error) { return *v.(*[]byte), nil }
func (plain) Unmarshal(data []byte, v interface{}) error {
	*v.(*[]byte) = append([]byte(nil), data...)
	return nil
}
func (plain) Name() string { return "proto" }

func check(err error) {
	if err != nil {
		panic(err)
	}
}

func connect() *grpc.ClientConn {
	dial := func(ctx context.Context, _ string) (net.Conn, error) {
		return new(net.Dialer).DialContext(ctx, "unix", os.Args[1])
	}
	options := grpc.WithDefaultCallOptions(grpc.ForceCodec(plain{}), grpc.MaxCallRecvMsgSize(8000000))
	conn, err := grpc.Dial("passthrough:///localhost", grpc.WithInsecure(), grpc.WithContextDialer(dial), options)
	check(err)
	return conn
}

func open(ctx context.Context, conn *grpc.ClientConn) grpc.ClientStream {
	ctx = metadata.AppendToOutgoingContext(ctx, "workload.spiffe.io", "true")
	stream, err := conn.NewStream(ctx, &grpc.StreamDesc{ServerStreams: true}, method, grpc.WaitForReady(true))
	check(err)
	var request []byte
	check(stream.SendMsg(&request))
	check(stream.CloseSend())
	return stream
}

func next(stream grpc.ClientStream) {
	var message []byte
	check(stream.RecvMsg(&message))
}

func first(conn *grpc.ClientConn) {
	ctx, cancel := context.WithCancel(context.Background())
	defer cancel()
	next(open(ctx, conn))
}

// Each worker makes a call, until there were so many.
func rate(count, workers int64, each bool) {
	var group sync.WaitGroup
	var done int64
	begin := time.Now()
	for i := int64(0); i < workers; i++ {
		group.Add(1)
		go func() {
			defer group.Done()
			conn := connect()
			for atomic.AddInt64(&done, 1) <= count {
				first(conn)
				if each {
					conn.Close()
					conn = connect()
				}
			}
			conn.Close()
		}()
	}
	group.Wait()
	seconds := time.Since(begin).Seconds()
	fmt.Printf("%.3f %.0f\n", seconds, float64(count)/seconds)
}

func burst(rounds, each int64) {
	conn := connect()
	begin := time.Now()
	for i := int64(0); i < rounds; i++ {
		ctx, cancel := context.WithCancel(context.Background())
		var group sync.WaitGroup
		for j := int64(0); j < each; j++ {
			group.Add(1)
			go func() {
				defer group.Done()
				next(open(ctx, conn))
			}()
		}
		group.Wait()
		cancel()
	}
	conn.Close()
	seconds := time.Since(begin).Seconds()
	fmt.Printf("%.3f %.0f\n", seconds, float64(rounds*each)/seconds)
}

func streams(connections, each int64) []grpc.ClientStream {
	var opened []grpc.ClientStream
	for i := int64(0); i < connections; i++ {
		conn := connect()
		for j := int64(0); j < each; j++ {
			opened = append(opened, open(context.Background(), conn))
		}
	}
	for _, it := range opened {
		next(it)
	}
	return opened
}

func spread(connections, each int64) {
	var group sync.WaitGroup
	times := make(chan time.Time, connections*each)
	for _, it := range streams(connections, each) {
		group.Add(1)
		go func(it grpc.ClientStream) {
			defer group.Done()
			next(it)
			times <- time.Now()
		}(it)
	}
	group.Wait()
	close(times)
	var low, high time.Time
	for it := range times {
		if low.IsZero() || it.Before(low) {
			low = it
		}
		if it.After(high) {
			high = it
		}
	}
	fmt.Printf("%.6f\n", high.Sub(low).Seconds())
}

func main() {
	a, err := strconv.ParseInt(os.Args[3], 10, 64)
	check(err)
	b, err := strconv.ParseInt(os.Args[4], 10, 64)
	check(err)
	switch os.Args[2] {
	case "new":
		rate(a, b, true)
	case "calls":
		rate(a, b, false)
	case "spread":
		spread(a, b)
	case "burst":
		burst(a, b)
	case "hold":
		streams(a, b)
		fmt.Println("held")
		_, err := ioutil.ReadAll(os.Stdin)
		check(err)
	}
}
