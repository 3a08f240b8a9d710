"""Frames of Thrift's framed transport, cut out of the bytes of one direction as they come."""

from texts.wire import CALL

# A frame that is larger is none: a server that isn't framed is told so, before its bytes take memory.
MOST_BYTES = 16_384_000
# So much is kept of what is no frame, and so much of a call, of which its head alone is looked at.
MOST_REST = HEAD = 1_024


class Frames:
    """Cuts bytes into frames. Of each payload it keeps so many bytes at most."""

    def __init__(self, keep=MOST_BYTES):
        self.keep = keep
        self.size, self.payload, self.left = bytearray(), bytearray(), 0
        # (behind a size that no frame has there are no frames)
        self.is_spoilt = False

    def feed(self, data):
        """Yields the payload of each frame that these bytes end."""
        view = memoryview(data)
        while view and not self.is_spoilt:
            if len(self.size) < 4:
                view = self.take_size(view)
                continue
            part = view[: self.left]
            self.payload += part[: self.keep - len(self.payload)]
            self.left -= len(part)
            view = view[len(part) :]
            if not self.left:
                done, self.payload, self.size = self.payload, bytearray(), bytearray()
                yield done
        if self.is_spoilt:
            self.payload += view[: max(0, MOST_REST - len(self.payload))]

    def take_size(self, view):
        part = view[: 4 - len(self.size)]
        self.size += part
        if len(self.size) == 4:
            self.left = int.from_bytes(self.size, "big", signed=True)
            self.is_spoilt = not 1 <= self.left <= MOST_BYTES
        return view[len(part) :]

    def rest(self):
        """The bytes behind the last whole frame, or the first of them."""
        return bytes(self.size + self.payload[:MOST_REST])[:MOST_REST]


def message_type(payload):
    """The type of a message by its head in the binary protocol, strict or old, or in the compact one; or None."""
    if payload[:2] == b"\x80\x01" and len(payload) > 3:
        return payload[3]
    if payload[:1] == b"\x82" and len(payload) > 1:
        return payload[1] >> 5
    if payload[:1] == b"\0" and len(payload) > 4:
        behind = 4 + int.from_bytes(payload[:4], "big")
        return payload[behind] if behind < len(payload) else None
    return None


def awaits(payload):
    """Whether an answer is awaited to a message. Where its head isn't known, one is."""
    return message_type(payload) in (CALL, None)
