#!/usr/bin/python3
"""Prints HTTP/2 frames as Debian's python3-hyperframe writes and reads them, as the lines of the table in
crates/hb_http2_rows/src/frame_vectors.rt: the octets of a frame, and the frame as `{:?}` shows it."""

from hyperframe.frame import (
    AltSvcFrame, ContinuationFrame, DataFrame, ExtensionFrame, Frame, GoAwayFrame, HeadersFrame,
    PingFrame, PriorityFrame, RstStreamFrame, SettingsFrame, WindowUpdateFrame,
)


def made(kind, stream, flags=(), **parts):
    frame = kind(stream, **parts)
    for flag in flags:
        frame.flags.add(flag)
    return frame.serialize()


def padded(octets, kind, stream, flags, pad, **parts):
    frame = kind(stream, octets, **parts)
    for flag in flags:
        frame.flags.add(flag)
    frame.pad_length = pad
    return frame.serialize()


def prioritised(octets, stream, flags, pad=0):
    frame = HeadersFrame(stream, octets, depends_on=3, stream_weight=200, exclusive=True)
    for flag in flags:
        frame.flags.add(flag)
    frame.pad_length = pad
    return frame.serialize()


def extension(kind, stream, flags, octets):
    frame = ExtensionFrame(kind, stream, flag_byte=flags, body=octets)
    frame.body_len = len(octets)  # hyperframe writes this number as the length
    return frame.serialize()


FRAMES = [
    made(DataFrame, 1, data=b"hello"),
    made(DataFrame, 3, ["END_STREAM"], data=b""),
    padded(b"a", DataFrame, 1, ["PADDED"], 1),
    padded(b"abc", DataFrame, 2147483647, ["PADDED", "END_STREAM"], 255),
    padded(b"", DataFrame, 5, ["PADDED"], 0),
    padded(b"", DataFrame, 5, ["PADDED"], 7),
    made(HeadersFrame, 1, ["END_HEADERS"], data=b"\x82\x86"),
    made(HeadersFrame, 7, [], data=b""),
    padded(b"\x88", HeadersFrame, 1, ["PADDED", "END_STREAM", "END_HEADERS"], 3),
    prioritised(b"\x82", 9, ["PRIORITY"]),
    prioritised(b"", 9, ["PRIORITY", "END_HEADERS"]),
    prioritised(b"\x84\x85", 9, ["PRIORITY", "PADDED"], 9),
    made(PriorityFrame, 5, depends_on=1, stream_weight=16, exclusive=False),
    made(RstStreamFrame, 1, error_code=8),
    made(RstStreamFrame, 3, error_code=4294967295),
    made(SettingsFrame, 0, settings={}),
    made(SettingsFrame, 0, settings={2: 0, 3: 100, 4: 65535, 5: 16384, 6: 16384, 0xFFFF: 7}),
    made(SettingsFrame, 0, settings={5: 16777215, 2: 1}),
    made(SettingsFrame, 0, ["ACK"], settings={}),
    made(PingFrame, 0, opaque_data=b"\x01\x02\x03\x04\xfc\xfd\xfe\xff"),
    made(PingFrame, 0, ["ACK"], opaque_data=b"\x00" * 8),
    made(GoAwayFrame, 0, last_stream_id=2147483647, error_code=2),
    made(GoAwayFrame, 0, last_stream_id=0, error_code=11, additional_data=b"too many"),
    made(WindowUpdateFrame, 0, window_increment=1),
    made(WindowUpdateFrame, 7, window_increment=2147483647),
    made(ContinuationFrame, 1, data=b"\x40\x01a\x01b"),
    made(ContinuationFrame, 1, ["END_HEADERS"], data=b""),
    made(AltSvcFrame, 0, origin=b"a.example", field=b'h2=":443"'),
    extension(0xFE, 4, 0xA5, b"\x00\x01\x02"),
]


def changed(octets, place, value):
    return octets[:place] + bytes([value]) + octets[place + 1:]


# The reserved bit set, flags that mean nothing on the type, an increment with its reserved bit.
FRAMES += [
    changed(FRAMES[0], 5, FRAMES[0][5] | 0x80),
    changed(FRAMES[3], 5, FRAMES[3][5] | 0x80),
    changed(FRAMES[19], 5, 0x80),
    changed(FRAMES[13], 4, 0xFF),
    changed(FRAMES[19], 4, 0x28),
    changed(FRAMES[25], 4, 0xFB),
    changed(FRAMES[0], 4, 0xF6),
    changed(FRAMES[24], 9, 0xFF),
    changed(FRAMES[21], 9, 0xFF),
]


def listed(octets):
    return "[" + ", ".join(str(octet) for octet in octets) + "]"


def body_of(frame, octets):
    if isinstance(frame, DataFrame):
        return f"Payload {{ bytes: {listed(frame.data)}, counted: {frame.flow_controlled_length} }}"
    if isinstance(frame, HeadersFrame):
        return f"Headers {{ block: {listed(frame.data)} }}"
    if isinstance(frame, PriorityFrame):
        return "Priority"
    if isinstance(frame, RstStreamFrame):
        return f"Reset {{ code: {frame.error_code} }}"
    if isinstance(frame, SettingsFrame):
        return f"Settings {{ pairs: {listed(octets[9:])} }}"
    if isinstance(frame, PingFrame):
        return f"Ping {{ value: {int.from_bytes(frame.opaque_data, 'big')} }}"
    if isinstance(frame, GoAwayFrame):
        return f"GoAway {{ last: {frame.last_stream_id & 0x7FFFFFFF}, code: {frame.error_code} }}"
    if isinstance(frame, WindowUpdateFrame):
        return f"Window {{ increment: {frame.window_increment & 0x7FFFFFFF} }}"
    if isinstance(frame, ContinuationFrame):
        return f"Continuation {{ block: {listed(frame.data)} }}"
    return f"Unknown {{ kind: {octets[3]} }}"


def parsed(octets):
    frame, length = Frame.parse_frame_header(octets[:9])
    frame.parse_body(memoryview(octets[9:9 + length]))
    return frame


def main():
    for octets in FRAMES:
        try:
            frame = parsed(octets)
        except Exception:  # hyperframe keeps the reserved bit of an increment; read it without that bit
            frame = parsed(changed(octets, 9, octets[9] & 0x7F))
        zeros = len(octets) - len(octets.rstrip(b"\0"))
        words = octets.hex() if zeros < 16 else f"{octets[:-zeros].hex()} 00*{zeros}"
        print(f"{words}; Frame {{ flags: {octets[4]}, stream: {frame.stream_id}, body: {body_of(frame, octets)} }}")


if __name__ == "__main__":
    main()
