"""PC/SC from Python: as much of pcsc-lite's winscard.h as a test needs, by ctypes. No packages."""
import ctypes
import time

LIBRARY = 'libpcsclite.so.1'

SCOPE_SYSTEM = 2
SHARE_SHARED = 2
PROTOCOL_T1 = 2
LEAVE_CARD = 0
RESET_CARD = 1
LONGEST = 65_548                    # MAX_BUFFER_SIZE_EXTENDED
# What a call answers while there is no card to talk to, or the daemon is not up yet.
NO_SERVICE, NO_READERS, NO_CARD = 0x8010001D, 0x8010002E, 0x8010000C
REMOVED, UNKNOWN_READER, UNPOWERED, UNRESPONSIVE = 0x80100069, 0x80100009, 0x80100067, 0x80100066
LATER = {NO_SERVICE, NO_READERS, NO_CARD, REMOVED, UNKNOWN_READER, UNPOWERED, UNRESPONSIVE}

LONG, DWORD = ctypes.c_long, ctypes.c_ulong


class Error(Exception):
    """A call that did not succeed, and its number."""

    def __init__(self, call, number):
        super().__init__(f'{call}: {number:08X}')
        self.number = number


class IoRequest(ctypes.Structure):
    """SCARD_IO_REQUEST."""
    _fields_ = [('protocol', DWORD), ('length', DWORD)]


class Context:
    """A connection to pcscd."""

    def __init__(self):
        self.library = ctypes.CDLL(LIBRARY)
        self.handle = LONG()
        self.call('SCardEstablishContext', DWORD(SCOPE_SYSTEM), None, None, ctypes.byref(self.handle))

    def call(self, name, *arguments):
        function = getattr(self.library, name)
        function.restype = LONG
        number = function(*arguments) & 0xFFFFFFFF
        if number:
            raise Error(name, number)

    def readers(self):
        """The names of the readers."""
        length = DWORD()
        self.call('SCardListReaders', self.handle, None, None, ctypes.byref(length))
        names = ctypes.create_string_buffer(length.value)
        self.call('SCardListReaders', self.handle, None, names, ctypes.byref(length))
        return [name.decode() for name in names.raw[:length.value].split(b'\0') if name]

    def connect(self, reader):
        return Card(self, reader)

    def close(self):
        self.call('SCardReleaseContext', self.handle)


class Card:
    """A card in a reader."""

    def __init__(self, context, reader):
        self.context = context
        self.handle, self.protocol = LONG(), DWORD()
        context.call('SCardConnect', context.handle, reader.encode(), DWORD(SHARE_SHARED), DWORD(PROTOCOL_T1),
                     ctypes.byref(self.handle), ctypes.byref(self.protocol))

    def atr(self):
        """The card's answer to reset, as the daemon has it."""
        atr, length = ctypes.create_string_buffer(33), DWORD(33)
        state, protocol = DWORD(), DWORD()
        name_length = DWORD(0)
        self.context.call('SCardStatus', self.handle, None, ctypes.byref(name_length), ctypes.byref(state),
                          ctypes.byref(protocol), atr, ctypes.byref(length))
        return atr.raw[:length.value]

    def transmit(self, command):
        """Sends a command; answers data and status word."""
        header = IoRequest(self.protocol.value, ctypes.sizeof(IoRequest))
        answer, length = ctypes.create_string_buffer(LONGEST), DWORD(LONGEST)
        self.context.call('SCardTransmit', self.handle, ctypes.byref(header), bytes(command), DWORD(len(command)), None,
                          answer, ctypes.byref(length))
        return answer.raw[:length.value]

    def reset(self):
        self.context.call('SCardReconnect', self.handle, DWORD(SHARE_SHARED), DWORD(PROTOCOL_T1), DWORD(RESET_CARD),
                          ctypes.byref(self.protocol))

    def close(self):
        self.context.call('SCardDisconnect', self.handle, DWORD(LEAVE_CARD))


def wait(what, seconds=30):
    """What a function answers, once it does so without one of the errors of LATER."""
    end = time.monotonic() + seconds
    while True:
        try:
            return what()
        except Error as error:
            if error.number not in LATER or time.monotonic() > end:
                raise
        time.sleep(0.05)


def wait_until_empty(context, reader, seconds=30):
    """Waits until the daemon has seen that the card is gone."""
    end = time.monotonic() + seconds
    while time.monotonic() < end:
        try:
            context.connect(reader).close()
        except Error as error:
            if error.number in LATER:
                return
            raise
        time.sleep(0.05)
    raise TimeoutError(f'{reader} still has a card')
