"""The numbers of the driver and of the chip, by name."""


def listed(text, first=0):
    return dict(enumerate(text.split(), first))


def numbered(text):
    """Numbers and names in turn."""
    words = text.split()
    return {int(number, 0): name for number, name in zip(words[::2], words[1::2])}


CALLS = listed("init scan join leave abort poll send take GPIO MAC get set variable up", 1)
AUTHS = listed("Open WpaTkipPsk Wpa2AesPsk Wpa2MixedPsk Wpa3SaeAesPsk Wpa3Wpa2AesPsk")
STATES = listed("Down Connecting Connected Disconnecting")
INTERFACES = listed("STA AP P2P")
POLLED = {0: "nothing waits", 1: "a frame waits", 2: "the connection failed"}

# a fault's place
PLACES = listed("Busy NoSuchDevice Unsupported WouldBlock Timeout InvalidArg Io DevAlreadyInit NoFreeDriverSlot NoMem")
REFUSALS = {
    1: "InvalidArg: an argument is bad, missing or left over",
    2: "Timeout: credit, room or a reply did not come in time",
    3: "Io: the reply's status is not 0",
    4: "Busy: join, and the state is not Down",
    5: "WouldBlock: no frame waits",
    6: "NoMem: the output is shorter than the frame, which is dropped",
    7: "Fault: a bus fault",
    8: "Unrecorded: the next answer is not wholly recorded",
    9: "WrongAnswer: the next answer is not one to the operation",
    10: "EventHeader: an event's header length is above its size",
    11: "PastBuffer: a copied part ends past the work buffer",
    12: "LogFull: the operation does not fit the log",
    13: "BufferLength: the work buffer has another length",
}
ROLLED_BACK = (8, 9, 12, 13)

CHANNELS = listed("control event data")
KINDS = {0: "get", 2: "set"}
SET_SSID, GET_VAR, SET_VAR, SET_KEY = 26, 262, 263, 268
COMMANDS = numbered(
    "2 Up 20 SetInfra 22 SetAuth 23 GetBssid 25 GetSsid 26 SetSsid 30 SetChannel 52 Disassoc 63 GetAntDiv 64 SetAntDiv "
    "78 SetDtimPrd 85 GetPm 86 SetPm 110 SetGMode 134 SetWsec 142 SetBand 159 GetAssocList 165 SetWpaAuth 262 GetVar "
    "263 SetVar 268 SetWsecPmk"
)

LINK, SUPPLICANT, SCAN_RESULT = 16, 46, 69
EVENTS = numbered(
    "0 SET_SSID 1 JOIN 3 AUTH 5 DEAUTH 6 DEAUTH_IND 7 ASSOC 11 DISASSOC 12 DISASSOC_IND 16 LINK 23 PRUNE 46 PSK_SUP 49 ICV_ERROR "
    "69 ESCAN_RESULT 80 CSA_COMPLETE_IND 87 ASSOC_REQ_IE 88 ASSOC_RESP_IE"
)
SUCCESS, PARTIAL = 0, 8
STATUSES = listed("SUCCESS FAIL TIMEOUT NO_NETWORKS ABORT NO_ACK UNSOLICITED ATTEMPT PARTIAL NEWSCAN NEWASSOC")
# the status of a PSK_SUP event
SUPPLICANTS = listed(
    "DISCONNECTED CONNECTING IDREQUIRED AUTHENTICATING AUTHENTICATED KEYXCHANGE KEYED TIMEOUT KEYXCHANGE_WAIT_M3 "
    "KEYXCHANGE_PREP_M4 KEYXCHANGE_WAIT_G1 KEYXCHANGE_PREP_G2"
)
ETHERTYPES = numbered("0x0800 IPv4 0x0806 ARP 0x86DD IPv6 0x888E EAPOL")

# the bits of the interrupt and of the status register
INTERRUPTS = listed(
    "DATA_UNAVAILABLE F2_F3_FIFO_RD_UNDERFLOW F2_F3_FIFO_WR_OVERFLOW COMMAND_ERROR DATA_ERROR F2_PACKET_AVAILABLE "
    "F3_PACKET_AVAILABLE F1_OVERFLOW GSPI_PACKET_AVAILABLE MISC_INTR1 MISC_INTR2 MISC_INTR3 MISC_INTR4 F1_INTR F2_INTR F3_INTR"
)
STATUS_BITS = listed(
    "DATA_NOT_AVAILABLE UNDERFLOW OVERFLOW F2_INTR F3_INTR F2_RX_READY F3_RX_READY HOST_CMD_DATA_ERR F2_PKT_AVAILABLE"
)


def named(table, number):
    """A number with its name."""
    return f"{table.get(number, 'unknown')} ({number})"


def bits(table, word):
    """The names of the bits that are set."""
    return [name for i, name in table.items() if word >> i & 1]
