"""A call's arguments in words."""
from .names import AUTHS, COMMANDS, INTERFACES, SET_KEY, named
from .packets import variable_text
from .text import SHORTEST_KEY, blotted, count, dots, number, quoted, row

JOIN, SEND, TAKE, VARIABLE = 3, 7, 8, 13

# calls whose arguments are numbers, each a little-endian word
NUMBERS = {
    1: lambda country: f"country {quoted(country.to_bytes(4, 'little')[:2])}, revision {country >> 16}",
    TAKE: lambda length: f"an output of {count(length, 'byte')}",
    9: lambda pin, level: f"pin {pin}, {'high' if level else 'low'}",
    11: lambda command, at: f"{named(COMMANDS, command)}, {interface(at)}",
    12: lambda command, value, at: f"{named(COMMANDS, command)}, value {'....' if command == SET_KEY else value}, {interface(at)}",
}
LENGTHS = {1: 4, TAKE: 4, 9: 8, 11: 8, 12: 12}
LEAST = {JOIN: 8, SEND: 4, VARIABLE: 4}


def interface(at):
    return f"interface {named(INTERFACES, at)}"


def passphrase(call):
    """The passphrase of a join. Where the SSID would be longer than what is there, all of it may be one."""
    if call.number != JOIN:
        return b""
    start = 8 + number(call.args[4:8])
    return call.args[start:] if start <= len(call.args) else call.args[8:]


def keys(calls):
    """The passphrases of a session, but those that are too short to be told from other bytes."""
    return [key for key in map(passphrase, calls) if len(key) >= SHORTEST_KEY]


def key_places(call):
    """Where join lays the passphrase in its key packets, in their order: SetWsecPmk, `sae_password`."""
    return {0: [], 4: [43], 5: [32, 43]}.get(number(call.args[:4]), [32]) if call.number == JOIN else []


def arguments(call, keys):
    """The arguments, or what is wrong with them."""
    length, least, exact = len(call.args), LEAST.get(call.number), LENGTHS.get(call.number, 0)
    if least is not None:
        return of_bytes(call, keys) if length >= least else f"{count(length, 'argument byte')}, at least {least} needed"
    if length != exact:
        return f"{count(length, 'argument byte')}, not {exact}"
    return NUMBERS[call.number](*(number(call.args[at : at + 4]) for at in range(0, length, 4))) if exact else ""


def of_bytes(call, keys):
    first, rest = number(call.args[:4]), blotted(call.args[4:], keys)
    if call.number == JOIN:
        return f"auth {named(AUTHS, first)}, {of_join(call, keys)}"
    if call.number == SEND:
        return f"{interface(first)}, frame of {count(len(rest), 'byte')}: {row(rest)}"
    what = variable_text(rest) if 0 in rest else f"{count(len(rest), 'byte')} without a zero after the name"
    return f"{interface(first)}, {what}"


def of_join(call, keys):
    end, hidden = 8 + number(call.args[4:8]), dots(len(passphrase(call)))
    if end > len(call.args):
        return f"the SSID is longer than what is there: {hidden}"
    return f"SSID {quoted(blotted(call.args[8:end], keys))}, passphrase {hidden}"
