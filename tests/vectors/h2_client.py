#!/usr/bin/env python3
"""Prints what an ordinary HTTP/2 client sends in two calls, as python3-h2 (Debian) writes it, in hexadecimal.

The client greets, asks, reads an answer with a message and trailers, asks again and cancels, pings, and
leaves. What the server says to it is made here by hand, from RFC 9113. The tests of h2_conn read these
bytes. Run it by /usr/bin/python3 where the package is installed; its output was copied into the tests once.
"""
from h2.config import H2Configuration
from h2.connection import H2Connection

SETTINGS = bytes.fromhex("00000c040000000000000300000010000600004000")
ACK = bytes.fromhex("000000040100000000")
HEAD = bytes.fromhex("000014010400000001880f10106170706c69636174696f6e2f67727063")
MESSAGE = bytes.fromhex("000007000000000001" + "0000000002" + "0801")
TRAILERS = bytes.fromhex("00000f010500000001000b677270632d7374617475730130")
REQUEST = [
    (":method", "POST"),
    (":scheme", "http"),
    (":path", "/grpc.health.v1.Health/Check"),
    (":authority", "localhost"),
    ("content-type", "application/grpc"),
    ("te", "trailers"),
]

client = H2Connection(H2Configuration(client_side=True, header_encoding="utf-8"))


def say(name):
    print(f"{client.data_to_send().hex()}  {name}")


client.initiate_connection()
client.increment_flow_control_window(1_000_000)
client.send_headers(1, REQUEST)
client.send_data(1, bytes(5), end_stream=True)
say("preface, SETTINGS, WINDOW_UPDATE, a call")
client.receive_data(SETTINGS + ACK)
say("acknowledgement")
client.receive_data(HEAD + MESSAGE)
client.acknowledge_received_data(7, 1)
client.receive_data(TRAILERS)
client.send_headers(3, REQUEST)
client.send_data(3, bytes(5))
say("a second call, whose request goes on")
client.reset_stream(3, 8)
client.ping(b"keepaliv")
client.close_connection()
say("RST_STREAM, PING, GOAWAY")
