#!/usr/bin/env python3
"""Prints frames as python3-hyperframe (Debian) spells them, in hexadecimal.

The tests of h2_frame read these bytes, and write those that have one spelling here. Run it by
/usr/bin/python3 where the package is installed; its output was copied into the tests once.
"""
from hyperframe import frame

FRAMES = [
    ("data", frame.DataFrame(1, b"hello", flags=["END_STREAM"])),
    ("data, open", frame.DataFrame(3, b"")),
    ("data, padded", frame.DataFrame(5, b"hey", pad_length=2, flags=["PADDED"])),
    ("headers", frame.HeadersFrame(1, b"\x82\x84", flags=["END_HEADERS", "END_STREAM"])),
    ("headers, open", frame.HeadersFrame(1, b"\x82")),
    ("headers, padded and with priority",
     frame.HeadersFrame(7, b"\x82\x86", pad_length=3, depends_on=1, stream_weight=15,
                        exclusive=True, flags=["PADDED", "PRIORITY", "END_HEADERS"])),
    ("priority", frame.PriorityFrame(5, depends_on=3, stream_weight=200)),
    ("reset", frame.RstStreamFrame(3, error_code=8)),
    ("settings", frame.SettingsFrame(0, settings={3: 16, 6: 16384})),
    ("settings ack", frame.SettingsFrame(0, flags=["ACK"])),
    ("push promise", frame.PushPromiseFrame(1, promised_stream_id=2, data=b"\x82",
                                            flags=["END_HEADERS"])),
    ("ping", frame.PingFrame(0, b"\x00\x00\x00\x00\x00\x00\x00\x01", flags=["ACK"])),
    ("goaway", frame.GoAwayFrame(0, last_stream_id=7, error_code=11)),
    ("goaway with text", frame.GoAwayFrame(0, last_stream_id=7, error_code=2,
                                           additional_data=b"bye")),
    ("window update", frame.WindowUpdateFrame(9, window_increment=65535)),
    ("continuation", frame.ContinuationFrame(7, b"\x88", flags=["END_HEADERS"])),
    ("alternative service", frame.AltSvcFrame(1, b"", b"h2=\":1\"")),
]

for name, each in FRAMES:
    print(f"{each.serialize().hex()}  {name}")
