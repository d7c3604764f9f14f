"""A real U2F client against the key: python-fido2's calls, first alone and then with a stranger on the bus, and what came of them.

Arguments: the bus, which is C, as a shared library; then the bench program and its arguments.
"""

import ctypes
import functools
import os
import sys
import threading
import types

from fido2.ctap1 import ApduError, Ctap1
from fido2.hid import CTAPHID, CtapHidDevice
from fido2.hid.base import CtapHidConnection

PACKET = 64
LONGEST_DATA = 7600  # with the seven bytes before it and the two after it, the longest message there is

CHALLENGE = b"thirty-two bytes in place of one"
SAW = b"thirty-two bytes, and of another"
OTHER_HANDLE = b"a handle that the core never made"

bus = ctypes.CDLL(sys.argv[1])
bus.usb_begin.argtypes = [ctypes.c_char_p, ctypes.POINTER(ctypes.c_char_p), ctypes.c_bool]
bus.usb_write.argtypes = [ctypes.c_void_p, ctypes.c_char_p, ctypes.c_size_t]
bus.usb_read.argtypes = [ctypes.c_void_p, ctypes.c_char_p, ctypes.c_size_t, ctypes.c_int]
bus.usb_exchange.argtypes = [ctypes.c_char_p, ctypes.c_bool, ctypes.c_char_p, ctypes.c_char_p]

# The bus keeps both, so they must last as long as the program.
NAME = b"python-fido2"
WORDS = [os.fsencode(word) for word in sys.argv[2:]] + [None]
COMMAND = (ctypes.c_char_p * len(WORDS))(*WORDS)


class Connection(CtapHidConnection):
    """The packets of python-fido2 go where those of libfido2 go."""

    def __init__(self):
        bus.usb_open(None)

    def write_packet(self, packet):
        report = b"\0" + packet
        bus.usb_write(None, report, len(report))

    def read_packet(self):
        packet = ctypes.create_string_buffer(PACKET)
        if bus.usb_read(None, packet, PACKET, -1) == 0:
            raise OSError("the key has no packet to read")
        return packet.raw

    def close(self):
        bus.usb_close(None)


def exchange(name, handed_on, expected, call):
    """The bus prints what the call returned or raised, and ends the program where that is not as expected."""
    try:
        reported = str(call())
    except ApduError as error:
        reported = "ApduError %04x" % error.code
    except Exception as error:
        reported = str(error)
    bus.usb_exchange(name.encode(), handed_on, reported.encode(), expected.encode())


def play(stranger):
    bus.usb_begin(NAME, COMMAND, stranger)
    device = CtapHidDevice(types.SimpleNamespace(report_size_in=PACKET, report_size_out=PACKET), Connection())
    u2f = Ctap1(device)
    handles = []

    # Where this event is set, python-fido2 sends CANCEL before it reads.
    cancelled = threading.Event()
    cancelled.set()
    cancelling = Ctap1(types.SimpleNamespace(call=functools.partial(device.call, event=cancelled)))

    def register():
        handles.append(u2f.register(CHALLENGE, SAW).key_handle)
        return "a key handle"

    def authenticate(check_only=False):
        return "counter %d" % u2f.authenticate(CHALLENGE, SAW, handles[0], check_only).counter

    def message(*apdu):
        return device.call(CTAPHID.MSG, bytes(apdu)).hex()

    exchange("open: INIT", False, "flags 04", lambda: "flags %02x" % device.capabilities)
    exchange("VERSION", True, "U2F_V2", u2f.get_version)
    exchange("VERSION, then CANCEL", True, "U2F_V2", cancelling.get_version)
    exchange("REGISTER, not yet touched", True, "ApduError 6985", register)
    exchange("REGISTER", True, "a key handle", register)
    exchange("AUTHENTICATE, check only", True, "ApduError 6985", lambda: authenticate(check_only=True))
    exchange("AUTHENTICATE, not yet touched", True, "ApduError 6985", authenticate)
    exchange("AUTHENTICATE", True, "counter 7", authenticate)
    exchange("AUTHENTICATE, other handle", True, "ApduError 6a80", lambda: u2f.authenticate(CHALLENGE, SAW, OTHER_HANDLE))
    exchange("REGISTER, the longest", True, "ApduError 6a80", lambda: u2f.send_apdu(ins=1, data=bytes(LONGEST_DATA)))
    exchange("class 80", False, "ApduError 6e00", lambda: u2f.send_apdu(cla=0x80, ins=3))
    exchange("instruction 04", False, "ApduError 6d00", lambda: u2f.send_apdu(ins=4))
    # What no call of the library sends: the bytes are ours, the packets still its own.
    exchange("VERSION, no reply length", True, b"U2F_V2\x90\x00".hex(), lambda: message(0, 3, 0, 0, 0, 0, 0))
    exchange("VERSION in four bytes", False, "6700", lambda: message(0, 3, 0, 0))
    exchange("MSG of no bytes", False, "CTAP error: 0x03 - INVALID_LENGTH", message)
    device.close()


play(stranger=False)
play(stranger=True)
bus.usb_report()
