"""SDPCM packets in words, sent and received.

A packet comes twice: its bytes, from which headers are read, and the same with None for each byte that is not shown.
"""
from collections import namedtuple

from .names import CHANNELS, COMMANDS, ETHERTYPES, EVENTS, INTERFACES, KINDS, STATUSES, SUPPLICANTS
from .names import GET_VAR, LINK, PARTIAL, SCAN_RESULT, SET_KEY, SET_SSID, SET_VAR, SUPPLICANT, named
from .text import address, count, dots, number, quoted, row, signed, values

KEY_VARIABLE = list(b"sae_password")
UNKNOWN = -1  # no status
Ioctl = namedtuple("Ioctl", "command kind interface id status payload_at")


def size_of(data):
    """What a packet declares, if size and complement match."""
    size, complement = number(data[:2]), number(data[2:4])
    return size if size ^ complement == 0xFFFF else None


def packet(data, shown, payload_shown=None):
    """The lines of a packet. payload_shown: of a received one, whether the payload of a reply with this id is shown."""
    size = size_of(data)
    if len(data) < 12:
        return ["they are too few for a header, which has 12"]
    if not any(data[:4]):
        return ["no packet: size and complement are 0"]
    if size is None:
        return ["no packet: size and complement do not match"]
    if size < 12:
        return [f"no packet: its size is {size}, and a header has 12"]
    channel = data[5] & 15
    line = f"SDPCM: size {size}, sequence {data[4]}, channel {named(CHANNELS, channel)}, header length {data[7]}"
    lines = [f"{line}, flow {data[8]}, credit {data[9]}"]
    if size > len(data):
        lines.append(f"it declares {count(size, 'byte')}, and {len(data)} came")
    if channel == 0:
        return lines + control(data, shown[:size], payload_shown)
    if channel in CHANNELS:
        return lines + (event if channel == 1 else frame)(data[:size], shown[:size], size, data[7])
    return lines


# ---- control: a request or a reply


def ioctl_in(data):
    """The ioctl header of a control packet, if the packet has it and it came."""
    size = size_of(data)
    if len(data) < 12 or size is None or data[5] & 15 != 0 or min(size, len(data)) < data[7] + 16:
        return None
    at = data[7]
    command, flags = number(data[at : at + 4]), number(data[at + 8 : at + 12])
    return Ioctl(command, flags & 0xFFF, flags >> 12 & 15, flags >> 16, signed(data[at + 12 : at + 16]), at + 16)


def control(data, shown, payload_shown):
    ioctl = ioctl_in(data)
    if ioctl is None:
        return ["ioctl: its header is not there"]
    payload, kind = shown[ioctl.payload_at :], KINDS.get(ioctl.kind, f"kind {ioctl.kind}")
    line = f"ioctl: {kind} {named(COMMANDS, ioctl.command)}, interface {named(INTERFACES, ioctl.interface)}, id {ioctl.id}"
    if payload_shown and payload and not payload_shown(ioctl.id):
        text = f"payload: {count(len(payload), 'byte')}, not shown: a passphrase may be among them"
    else:
        text = payload_text(ioctl.command, payload, payload_shown is not None)
    return [f"{line}, status {ioctl.status}", text]


def payload_text(command, payload, is_reply):
    """A reply's payload is a value, but those of keys."""
    if not payload:
        return "no payload"
    if command == SET_KEY:
        return "passphrase: " + dots(min(number(payload[:2]), len(payload[4:])))
    if payload[:13] == [*KEY_VARIABLE, 0] or command in (GET_VAR, SET_VAR) and 0 in payload and not is_reply:
        return "variable " + variable_text(payload)
    if command == SET_SSID and len(payload) >= 4 and not is_reply:
        return "SSID: " + quoted(payload[4 : 4 + number(payload[:4])])
    return "payload: " + values(payload)


def variable_text(payload):
    """A name, a zero and data."""
    end = payload.index(0)
    name, data = payload[:end], payload[end + 1 :]
    if name == KEY_VARIABLE:
        return f"{quoted(name)}: passphrase {dots(min(number(data[:2]), len(data[2:])))}"
    return f"{quoted(name)}: {values(data)}"


# ---- events

Event = namedtuple("Event", "flags kind status reason")


def event_at(data, at):
    """The numbers that lead an event, if they came."""
    if len(data) < at + 16:
        return None
    return Event(number(data[at + 2 : at + 4], "big"), *(number(data[i : i + 4], "big") for i in (at + 4, at + 8, at + 12)))


def event(data, shown, size, header):
    """The event lies 32 bytes into the payload; what it lacks of its 140 bytes is zero."""
    if header > size:
        return ["event: its header length is above its size"]
    if size - header < 48:
        return [f"event of {count(size - header, 'byte')}: ignored, since 48 are needed"]
    at = header + 32
    found = event_at(data, at)
    if found is None:
        return ["event: its type and status did not come"]
    flags, kind, status, reason = found
    table = SUPPLICANTS if kind == SUPPLICANT else STATUSES
    line = f"event: type {named(EVENTS, kind)}, status {named(table, status)}, reason {reason}, flags 0x{flags:04x}"
    if kind == LINK:
        return [line + (", link up" if flags & 1 else ", link down")]
    return [line, network((shown[at:] + [0] * 140)[:140])] if (kind, status) == (SCAN_RESULT, PARTIAL) else [line]


def scan_status(data):
    """The status of a scan result; None where a received packet is none, and UNKNOWN where the bytes that tell it did not come."""
    if len(data) < 12:
        return UNKNOWN
    size, header = size_of(data), data[7]
    if size is None or data[5] & 15 != 1 or size < max(12, header + 48):
        return None
    found = event_at(data[:size], header + 32)
    if found is None:
        return UNKNOWN
    return found.status if found.kind == SCAN_RESULT else None


def network(event):
    ssid = quoted(event[79 : 79 + min(number(event[78:79]), 32)])
    return f"network: SSID {ssid}, BSSID {address(event[68:74])}, channel {number(event[132:133])}, RSSI {signed(event[138:140])}"


# ---- data: an Ethernet frame


def frame(data, shown, size, header):
    at = header + 4
    if size <= 16 or size < at or len(data) < at:
        return ["data: its header is not there"]
    at += 4 * data[header + 3]
    if size < at:
        return ["data: its frame would begin past its size"]
    return [f"data: interface {named(INTERFACES, data[header + 2])}, frame of {count(size - at, 'byte')}", ethernet(shown[at:])]


def ethernet(frame):
    if len(frame) < 14:
        return f"no Ethernet header: {row(frame)}"
    kind = number(frame[12:14], "big")
    ethertype = f"0x{kind:04x} ({ETHERTYPES.get(kind, 'unknown')})"
    return f"to {address(frame[:6])}, from {address(frame[6:12])}, ethertype {ethertype}, then {row(frame[14:])}"
