"""An NVM Express controller in memory, around the fused Compare and Write, hosts with a driver each, also of a
controller that is somewhere else, slots that hosts claim and release, and a checker of histories.

Whoever tests a device or its driver in Python has both at hand. The controller makes one step at a time, when it is
asked; the checker says of each line of a log whether the controller that wrote it did right.

>>> with Controller(Config.of_line("config 8 1 1 0 0 2 4 4 8")) as disk:
...     disk.publish(1, [Entry.compare(7, 3, bytes(512)).first(), Entry.write(8, 3, b"\\xA1" * 512).second()])
...     disk.fetch(1)
...     disk.settle()
...     [reaped.completion.is_success for reaped in disk.completions(1)]
...     disk.medium(3) == b"\\xA1" * 512
Work(ticket=1, kind=<Kind.PAIR: 4>, slba=3, blocks=1, op=None, statuses=0)
[True, True]
True

It stands on the shared library, each function of which is proved; this file is only tested. VANDREXU_LIBRARY names that
library. Else it is beside this file, where this repository or an installation has it, or where the system looks.

A handle may go from thread to thread; calls of one take turns. It isn't called in a child that a process with threads
forked.
"""
from __future__ import annotations

import ctypes
import os
import threading
from collections.abc import Iterable, Iterator
from ctypes import POINTER, Structure, byref, c_char_p, c_size_t, c_uint8, c_uint16, c_uint32, c_uint64, c_void_p
from dataclasses import astuple, dataclass
from enum import IntEnum, IntFlag
from typing import NamedTuple

BLOCK = 512
"""How many bytes a block of the volume has."""

# ---- What a call answers


class Status(IntEnum):
    """The statuses of vandrexu.h, vandrexu_hosts.h and vandrexu_slots.h."""
    DONE = 0
    NO_QUEUE = 1
    NO_ROOM = 2
    NO_ENTRY = 3
    JOBS_FULL = 4
    NO_TICKET = 5
    CONFLICT = 6
    WRONG_STATE = 7
    CQ_FULL = 8
    NO_COMPLETION = 9
    BAD_BATCH = 10
    NO_MEMORY = 11
    BUSY = 12
    AWUN_TOO_LARGE = 21
    ACWU_TOO_LARGE = 22
    BOUNDARY_BELOW_UNIT = 23
    OFFSET_PAST_BOUNDARY = 24
    BAD_BLOCKS = 25
    BAD_PAIRS = 26
    BAD_SQ_SIZE = 27
    BAD_CQ_SIZE = 28
    BAD_JOBS = 29
    BAD_CQS = 30
    CALL_LENGTH = 41
    CALL_TOO_LONG = 42
    CALL_NO_ROOM = 43
    CALL_FAILED = 44
    CALL_BUSY = 45
    CALL_NO_MEMORY = 46
    CALL_SLOT_AREA = 47
    CALL_NO_SERIAL = 48
    NO_HANDLE = 101
    IN_USE = 102
    TOO_SMALL = 103
    NO_BLOCK = 104
    NOTHING_READY = 105
    BAD_ENTRY = 106
    BAD_LINE = 107
    NOT_LEGAL = 108
    NOT_EXPLAINED = 109
    BAD_HISTORY = 110
    OTHER_CONFIG = 111
    GAVE_UP = 112
    UNFINISHED = 113
    NO_HOST = 114
    BAD_NUMBER = 115
    IN_CALL = 116
    NO_CALL = 117
    NO_SLOT = 118
    NOT_HELD = 119
    HELD = 120
    BAD_NAME = 122
    BAD_AREA = 123
    USED_NUMBER = 124
    USED_QUEUE = 125
    NOT_FOUND = 126
    NOT_REFUTED = 127
    SLOTS_MISUSED = 128
    FORGOTTEN = 129
    OTHER_HOST = 130
    OTHER_ENTRY = 131


WORDS: dict[Status, str] = {
    Status.DONE: "done",
    Status.NO_QUEUE: "no such queue",
    Status.NO_ROOM: "no room in the submission queue",
    Status.NO_ENTRY: "no entry to fetch",
    Status.JOBS_FULL: "as many tickets in flight as may be",
    Status.NO_TICKET: "no such ticket in flight",
    Status.CONFLICT: "conflict with an open unit",
    Status.WRONG_STATE: "not the ticket's turn",
    Status.CQ_FULL: "completion queue full",
    Status.NO_COMPLETION: "no completion to reap",
    Status.BAD_BATCH: "no entry to publish",
    Status.NO_MEMORY: "no memory",
    Status.BUSY: "another handle of the disk had the controller",
    Status.AWUN_TOO_LARGE: "AWUN is above 255",
    Status.ACWU_TOO_LARGE: "ACWU is above 255",
    Status.BOUNDARY_BELOW_UNIT: "NABSN isn't 0, and AWUN or ACWU is above it",
    Status.OFFSET_PAST_BOUNDARY: "NABO is above NABSN",
    Status.BAD_BLOCKS: "BLOCKS isn't 1 to 65,536",
    Status.BAD_PAIRS: "PAIRS isn't 1 to 16",
    Status.BAD_SQ_SIZE: "SQ isn't 2 to 1,024",
    Status.BAD_CQ_SIZE: "CQ isn't 2 to 1,024",
    Status.BAD_JOBS: "JOBS isn't 1 to 256",
    Status.BAD_CQS: "CQS is 0 or above PAIRS",
    Status.CALL_LENGTH: "no block, or data that isn't whole blocks, or two data of unlike lengths",
    Status.CALL_TOO_LONG: "more blocks than a call may have",
    Status.CALL_NO_ROOM: "no room in the submission queue for a call",
    Status.CALL_FAILED: "the call failed",
    Status.CALL_BUSY: "another handle of the disk had the controller, for a call",
    Status.CALL_NO_MEMORY: "no memory for a call",
    Status.CALL_SLOT_AREA: "the call would write to a slot",
    Status.CALL_NO_SERIAL: "the host has used the last serial",
    Status.NO_HANDLE: "the handle owns nothing",
    Status.IN_USE: "the handle owns something already",
    Status.TOO_SMALL: "the room is too small",
    Status.NO_BLOCK: "the volume has no such block",
    Status.NOTHING_READY: "no ticket can go on by itself",
    Status.BAD_ENTRY: "the data aren't just those of the entries",
    Status.BAD_LINE: "no line of a history",
    Status.NOT_LEGAL: "the history with this line isn't legal",
    Status.NOT_EXPLAINED: "the trace isn't explained",
    Status.BAD_HISTORY: "what stands beside the trace has a line that is none",
    Status.OTHER_CONFIG: "a trace and a history that don't belong together",
    Status.GAVE_UP: "the steps of the search were used up",
    Status.NOT_FOUND: "neither a history nor a refutation was found",
    Status.NOT_REFUTED: "the trace isn't refuted by this",
    Status.FORGOTTEN: "the step at this place was forgotten",
    Status.UNFINISHED: "what was fetched before isn't finished",
    Status.NO_HOST: "as many hosts were made as the disk was made for",
    Status.BAD_NUMBER: "a host has no number 0",
    Status.IN_CALL: "the host has a call",
    Status.NO_CALL: "the host has no such call",
    Status.NO_SLOT: "no such slot",
    Status.NOT_HELD: "the host hasn't the slot",
    Status.HELD: "the host has the slot",
    Status.BAD_NAME: "the name has a zero in it, or is of the host itself",
    Status.BAD_AREA: "there would be no slot, or one behind block 65,535",
    Status.USED_NUMBER: "a host of the disk had the number before",
    Status.USED_QUEUE: "a host of the disk had the completion queue before",
    Status.OTHER_HOST: "no host of this number, made of the disk, lives, or none ended",
    Status.OTHER_ENTRY: "the step's line isn't the one that was given",
    Status.SLOTS_MISUSED: "the history with this line doesn't keep the discipline of slots",
}
"""What each status says."""


class Error(Exception):
    """A call did nothing: all but what it says otherwise is as before.

    >>> try:
    ...     Controller(Config(blocks=0))
    ... except BadConfig as error:
    ...     print(int(error.status), error)
    25 BLOCKS isn't 1 to 65,536
    """

    line: int | None = None
    """The line of a text that it is about, from 1."""
    text: str = ""
    """What a call about a text wrote before."""

    def __init__(self, status: Status):
        super().__init__(status)
        self.status = status

    def __str__(self) -> str:
        return WORDS[self.status]


class Refused(Error):
    """A step is refused: statuses 1 to 10."""


class BadConfig(Error):
    """A configuration is refused: statuses 21 to 30."""


class NoMemory(Error, MemoryError):
    """There is no memory: status 11, and 46 for a host's call."""


class Busy(Error):
    """Another handle of the disk had the controller: status 12, and 45 for a host's call. Ask again."""


class CallRefused(Error):
    """A host's call isn't begun: statuses 41 to 43, 47 and 48."""


class SlotRefused(Error):
    """A disk with slots, a slot host or a checker of slots isn't made, or a call about a slot isn't begun: statuses 118
    to 123."""


class NoHandle(Error):
    """The handle owns nothing, since it is closed: status 101."""


class NoBlock(Error, IndexError):
    """The volume has no such block: status 104."""


class BadLine(Error, ValueError):
    """This is no line of a history, or of a configuration: status 107."""


class NotLegal(Error):
    """The history, or the history with this line, isn't legal: status 108."""


class SlotsMisused(Error):
    """The history with this line doesn't keep the discipline of slots: status 128."""


class NotExplained(Error):
    """A history doesn't explain a trace, or none does, and `refutation` shows it: status 109."""
    refutation: str | None = None


class BadHistory(Error, ValueError):
    """What stands beside a trace has a line that is none, or its configuration is refused: status 110."""


class OtherConfig(Error, ValueError):
    """A trace and a history that don't belong together: status 111."""


class GaveUp(Error):
    """The steps of a search were used up: status 112."""


class NotFound(Error):
    """A search found neither a history nor a refutation: status 126."""


class NotRefuted(Error):
    """The trace isn't refuted by this: status 127."""


class OtherEntry(Error):
    """A step was made, and stays, whose line isn't the one that was given: status 131."""


class Forgotten(Error, LookupError):
    """The step at this place of a history was forgotten: status 129."""


_ERRORS = {
    Status.NO_MEMORY: NoMemory, Status.NO_HANDLE: NoHandle, Status.NO_BLOCK: NoBlock, Status.BAD_LINE: BadLine,
    Status.NOT_LEGAL: NotLegal, Status.NOT_EXPLAINED: NotExplained, Status.BAD_HISTORY: BadHistory,
    Status.OTHER_CONFIG: OtherConfig, Status.GAVE_UP: GaveUp, Status.NOT_FOUND: NotFound,
    Status.NOT_REFUTED: NotRefuted, Status.FORGOTTEN: Forgotten, Status.SLOTS_MISUSED: SlotsMisused,
    Status.OTHER_ENTRY: OtherEntry,
    Status.BUSY: Busy, Status.CALL_BUSY: Busy,
    Status.CALL_NO_MEMORY: NoMemory, Status.CALL_LENGTH: CallRefused, Status.CALL_TOO_LONG: CallRefused,
    Status.CALL_NO_ROOM: CallRefused, Status.CALL_SLOT_AREA: CallRefused, Status.CALL_NO_SERIAL: CallRefused,
}


def _error(number: int) -> Error:
    """The exception of a status."""
    status = Status(number)
    if 1 <= status <= 10:
        return Refused(status)
    if 21 <= status <= 30:
        return BadConfig(status)
    if 118 <= status <= 123:
        return SlotRefused(status)
    return _ERRORS.get(status, Error)(status)


def _want(number: int) -> None:
    """Raises what a status says, where it isn't 0."""
    if number != Status.DONE:
        raise _error(number)


# ---- The structs of the headers, and their functions

class RawController(Structure):
    """vandrexu_controller"""
    _fields_ = [("at", c_void_p), ("live", c_uint32)]


class RawChecker(Structure):
    """vandrexu_checker"""
    _fields_ = [("at", c_void_p), ("live", c_uint32)]


class RawDisk(Structure):
    """vandrexu_disk"""
    _fields_ = [("at", c_void_p), ("live", c_uint32)]


class RawHost(Structure):
    """vandrexu_host"""
    _fields_ = [("at", c_void_p), ("live", c_uint32)]


class RawSlotHost(Structure):
    """vandrexu_slot_host"""
    _fields_ = [("at", c_void_p), ("live", c_uint32)]


class RawTracer(Structure):
    """vandrexu_tracer"""
    _fields_ = [("at", c_void_p), ("live", c_uint32)]


class RawSlotChecker(Structure):
    """vandrexu_slot_checker"""
    _fields_ = [("at", c_void_p), ("live", c_uint32)]


class RawRemote(Structure):
    """vandrexu_remote"""
    _fields_ = [("at", c_void_p), ("live", c_uint32)]


class RawRemoteSlotHost(Structure):
    """vandrexu_remote_slot_host"""
    _fields_ = [("at", c_void_p), ("live", c_uint32)]


class RawConfig(Structure):
    """vandrexu_config"""
    _fields_ = [("blocks", c_uint32), ("awun", c_uint16), ("acwu", c_uint16), ("nabsn", c_uint16), ("nabo", c_uint16),
                ("pairs", c_uint16), ("sq_size", c_uint16), ("cq_size", c_uint16), ("jobs", c_uint16),
                ("cqs", c_uint16)]


class RawEntry(Structure):
    """vandrexu_entry"""
    _fields_ = [("bytes", c_uint8 * 64), ("count", c_size_t)]


class RawWork(Structure):
    """vandrexu_work"""
    _fields_ = [("ticket", c_uint64), ("slba", c_uint64), ("blocks", c_uint32), ("kind", c_uint32), ("op", c_uint32),
                ("statuses", c_uint32)]


class RawGranted(Structure):
    """vandrexu_granted"""
    _fields_ = [("unit", c_uint64), ("slba", c_uint64), ("blocks", c_uint32), ("mode", c_uint32)]


class RawBlocked(Structure):
    """vandrexu_blocked"""
    _fields_ = [("lba", c_uint64), ("found", c_uint32), ("effect", c_uint8), ("ended", c_uint8), ("zeros", c_uint8 * 2)]


class RawStep(Structure):
    """vandrexu_step"""
    _fields_ = [("ticket", c_uint64), ("kind", c_uint32)]


class RawReply(Structure):
    """vandrexu_reply"""
    _fields_ = [("kind", c_uint32), ("sct", c_uint8), ("sc", c_uint8), ("zeros", c_uint8 * 2)]


class RawSlotReply(Structure):
    """vandrexu_slot_reply"""
    _fields_ = [("kind", c_uint32), ("slot", c_uint32), ("serial", c_uint64), ("host", c_uint32), ("sct", c_uint8),
                ("sc", c_uint8), ("zeros", c_uint8 * 2)]


class RawOutgoing(Structure):
    """vandrexu_outgoing"""
    _fields_ = [("bytes", c_uint8 * 64), ("count", c_size_t), ("more", c_size_t), ("queue", c_uint16),
                ("zeros", c_uint8 * 6)]


_Bytes = POINTER(c_uint8)
_Controller = POINTER(RawController)
_Checker = POINTER(RawChecker)
_Disk = POINTER(RawDisk)
_Host = POINTER(RawHost)
_SlotHost = POINTER(RawSlotHost)
_Tracer = POINTER(RawTracer)
_SlotChecker = POINTER(RawSlotChecker)
_Remote = POINTER(RawRemote)
_RemoteSlotHost = POINTER(RawRemoteSlotHost)
_Number = POINTER(c_uint32)
_TEXT = [_Bytes, c_size_t, POINTER(c_size_t), POINTER(c_uint64)]
_ARGUMENTS = {
    "vandrexu_config_fault": [POINTER(RawConfig)],
    "vandrexu_controller_new": [POINTER(RawConfig), _Controller],
    "vandrexu_controller_free": [_Controller],
    "vandrexu_controller_reserve": [_Controller, c_size_t],
    "vandrexu_controller_publish": [_Controller, c_uint16, POINTER(RawEntry), c_size_t, c_char_p, c_size_t],
    "vandrexu_controller_fetch": [_Controller, c_uint16, POINTER(RawWork)],
    "vandrexu_controller_grant": [_Controller, c_uint64, POINTER(RawGranted)],
    "vandrexu_controller_block": [_Controller, c_uint64, POINTER(RawBlocked)],
    "vandrexu_controller_post": [_Controller, c_uint64, _Bytes],
    "vandrexu_controller_reap": [_Controller, c_uint16, _Bytes, POINTER(c_size_t)],
    "vandrexu_controller_data": [_Controller, _Bytes, c_size_t, POINTER(c_size_t)],
    "vandrexu_controller_ready": [_Controller, POINTER(RawStep)],
    "vandrexu_controller_medium": [_Controller, c_uint64, _Bytes],
    "vandrexu_controller_history_count": [_Controller, POINTER(c_uint64)],
    "vandrexu_controller_history": [_Controller, c_uint64, _Bytes, c_size_t, POINTER(c_size_t), POINTER(c_uint64)],
    "vandrexu_controller_forget": [_Controller, c_uint64],
    "vandrexu_settle": [_Controller],
    "vandrexu_controller_replay": [_Controller, c_char_p, c_size_t],
    "vandrexu_checker_new": [POINTER(RawConfig), _Checker],
    "vandrexu_checker_free": [_Checker],
    "vandrexu_checker_take_line": [_Checker, c_char_p, c_size_t],
    "vandrexu_checker_why": [_Checker, c_char_p, c_size_t, _Bytes, c_size_t, POINTER(c_size_t)],
    "vandrexu_tracer_new": [POINTER(RawConfig), _Tracer],
    "vandrexu_tracer_free": [_Tracer],
    "vandrexu_tracer_take_line": [_Tracer, c_char_p, c_size_t],
    "vandrexu_tracer_seen": [_Tracer, _Bytes, c_size_t, POINTER(c_size_t)],
    "vandrexu_run_text": [c_char_p, c_size_t, c_uint8, *_TEXT],
    "vandrexu_check_text": [c_char_p, c_size_t, *_TEXT],
    "vandrexu_certify_text": [c_char_p, c_size_t, c_char_p, c_size_t, *_TEXT],
    "vandrexu_refute_text": [c_char_p, c_size_t, c_char_p, c_size_t, *_TEXT],
    "vandrexu_observe_text": [c_char_p, c_size_t, c_uint64, _Bytes, c_size_t, POINTER(c_size_t), *_TEXT],
    "vandrexu_heap_limit": [c_size_t],
    "vandrexu_heap_used": [],
    "vandrexu_disk_new": [POINTER(RawConfig), c_uint16, _Disk],
    "vandrexu_disk_free": [_Disk],
    "vandrexu_disk_hosts_left": [_Disk, POINTER(c_size_t)],
    "vandrexu_disk_serve": [_Disk, c_uint16],
    "vandrexu_disk_fetch": [_Disk, c_uint16],
    "vandrexu_disk_task": [_Disk],
    "vandrexu_disk_forget": [_Disk, c_uint64],
    "vandrexu_disk_history": [_Disk, c_uint64, _Bytes, c_size_t, POINTER(c_size_t), POINTER(c_uint64)],
    "vandrexu_disk_history_count": [_Disk, POINTER(c_uint64)],
    "vandrexu_disk_medium": [_Disk, c_uint64, _Bytes],
    "vandrexu_host_new": [_Disk, c_uint32, c_uint16, _Host],
    "vandrexu_host_end": [_Disk, _Host],
    "vandrexu_host_again": [_Disk, c_uint32, _Host],
    "vandrexu_host_free": [_Host],
    "vandrexu_host_read": [_Host, c_uint64, c_uint32, _Number],
    "vandrexu_host_write_zeroes": [_Host, c_uint64, c_uint32, _Number],
    "vandrexu_host_write": [_Host, c_uint64, c_char_p, c_size_t, _Number],
    "vandrexu_host_compare": [_Host, c_uint64, c_char_p, c_size_t, _Number],
    "vandrexu_host_compare_and_write": [_Host, c_uint64, c_char_p, c_size_t, c_char_p, c_size_t, _Number],
    "vandrexu_host_poll": [_Host, c_uint32, POINTER(RawReply)],
    "vandrexu_host_give_up": [_Host, c_uint32],
    "vandrexu_host_waiting": [_Host, POINTER(c_size_t), POINTER(c_size_t)],
    "vandrexu_host_data": [_Host, _Bytes, c_size_t, POINTER(c_size_t)],
    "vandrexu_slot_disk_new": [POINTER(RawConfig), c_uint16, c_uint64, c_uint32, _Disk],
    "vandrexu_slot_host_new": [_Disk, c_uint32, c_uint16, _SlotHost],
    "vandrexu_slot_host_free": [_SlotHost],
    "vandrexu_slot_claim": [_SlotHost, c_uint32],
    "vandrexu_slot_claim_any": [_SlotHost],
    "vandrexu_slot_release": [_SlotHost, c_uint32],
    "vandrexu_slot_take_over": [_SlotHost, c_uint32, c_uint32, c_uint64],
    "vandrexu_slot_ask_holder": [_SlotHost, c_uint32],
    "vandrexu_slot_poll": [_SlotHost, POINTER(RawSlotReply)],
    "vandrexu_slot_checker_new": [POINTER(RawConfig), c_uint64, c_uint32, _SlotChecker],
    "vandrexu_slot_checker_free": [_SlotChecker],
    "vandrexu_slot_checker_take_line": [_SlotChecker, c_char_p, c_size_t],
    "vandrexu_slot_checker_why": [_SlotChecker, POINTER(c_uint64), POINTER(c_uint64), _Bytes, c_size_t,
                                  POINTER(c_size_t)],
    "vandrexu_remote_new": [c_uint32, c_uint16, c_uint16, c_uint64, c_uint32, _Remote],
    "vandrexu_remote_free": [_Remote],
    "vandrexu_remote_read": [_Remote, c_uint64, c_uint32, _Number],
    "vandrexu_remote_write_zeroes": [_Remote, c_uint64, c_uint32, _Number],
    "vandrexu_remote_write": [_Remote, c_uint64, c_char_p, c_size_t, _Number],
    "vandrexu_remote_compare": [_Remote, c_uint64, c_char_p, c_size_t, _Number],
    "vandrexu_remote_compare_and_write": [_Remote, c_uint64, c_char_p, c_size_t, c_char_p, c_size_t, _Number],
    "vandrexu_remote_poll": [_Remote, c_uint32, POINTER(RawReply)],
    "vandrexu_remote_give_up": [_Remote, c_uint32],
    "vandrexu_remote_waiting": [_Remote, POINTER(c_size_t), POINTER(c_size_t)],
    "vandrexu_remote_data": [_Remote, _Bytes, c_size_t, POINTER(c_size_t)],
    "vandrexu_remote_outgoing": [_Remote, POINTER(RawOutgoing), _Bytes, c_size_t],
    "vandrexu_remote_incoming": [_Remote, c_char_p, c_char_p, c_size_t],
    "vandrexu_remote_dropped": [_Remote, POINTER(c_uint64)],
    "vandrexu_remote_slot_host_new": [c_uint32, c_uint16, c_uint64, c_uint32, c_uint64, _RemoteSlotHost],
    "vandrexu_remote_slot_host_free": [_RemoteSlotHost],
    "vandrexu_remote_slot_claim": [_RemoteSlotHost, c_uint32],
    "vandrexu_remote_slot_claim_any": [_RemoteSlotHost],
    "vandrexu_remote_slot_release": [_RemoteSlotHost, c_uint32],
    "vandrexu_remote_slot_take_over": [_RemoteSlotHost, c_uint32, c_uint32, c_uint64],
    "vandrexu_remote_slot_ask_holder": [_RemoteSlotHost, c_uint32],
    "vandrexu_remote_slot_poll": [_RemoteSlotHost, POINTER(RawSlotReply)],
    "vandrexu_remote_slot_outgoing": [_RemoteSlotHost, POINTER(RawOutgoing), _Bytes, c_size_t],
    "vandrexu_remote_slot_incoming": [_RemoteSlotHost, c_char_p, c_char_p, c_size_t],
    "vandrexu_remote_slot_dropped": [_RemoteSlotHost, POINTER(c_uint64)],
}


_SHARED = "libvandrexu.so.0"
# From this file: beside it; in a clone, where `./casdisk --library out/library` makes it; and where install.sh puts it.
_PLACES = (".", "../../out/library/lib", "../../../../../lib")


def _path() -> str:
    """Where the shared library is: as VANDREXU_LIBRARY names it, in one of these places, or where the system looks."""
    if named := os.environ.get("VANDREXU_LIBRARY"):
        return named
    here = os.path.dirname(os.path.abspath(__file__))
    found = (os.path.join(here, place, name) for place in _PLACES for name in (_SHARED, "libvandrexu.so"))
    return next(filter(os.path.exists, found), _SHARED)


def _load() -> ctypes.CDLL:
    """The shared library, each of its functions with its arguments."""
    path = _path()
    try:
        library = ctypes.CDLL(path)
    except OSError as error:
        raise ImportError(f"no library of Vandrexu: `./casdisk --library out/library` makes it, and VANDREXU_LIBRARY names another ({error})") from error
    for name, arguments in _ARGUMENTS.items():
        function = getattr(library, name)
        function.argtypes = arguments
        function.restype = None if name.endswith(("_free", "_limit")) else c_size_t if name.endswith("_used") else c_uint32
    return library


library = _load()
"""The functions of the headers, as they are for C."""


# ---- Configurations and entries

@dataclass(frozen=True)
class Config:
    """A configuration, with the limits of docs/SCRIPTS.md; `cqs` is `pairs` unless it is given.

    >>> Config(blocks=8, pairs=2).fault() is None
    True
    >>> Config(jobs=0).fault()
    <Status.BAD_JOBS: 29>
    """
    blocks: int = 1024
    awun: int = 0
    acwu: int = 0
    nabsn: int = 0
    nabo: int = 0
    pairs: int = 1
    sq_size: int = 64
    cq_size: int = 64
    jobs: int = 64
    cqs: int | None = None

    def __post_init__(self) -> None:
        if self.cqs is None:
            object.__setattr__(self, "cqs", self.pairs)
        for number, bits in zip(astuple(self), [32] + [16] * 9):
            _fits(number, bits)

    @classmethod
    def of_line(cls, line: str) -> Config:
        """Reads the line with which a history, a script and a trace begin. It may still have a fault.

        >>> Config.of_line("config2 8 1 1 0 0 2 4 4 8 1").cqs
        1
        >>> Config.of_line("config 8 1 1 0 0 2 4 4")
        Traceback (most recent call last):
        vandrexu.BadLine: no line of a history
        """
        word, *words = line.split(" ")
        spelled = all(it.isascii() and it.isdigit() and (it == "0" or it[0] != "0") for it in words)
        if not spelled or (word, len(words)) not in [("config", 9), ("config2", 10)] or words[9:] == words[5:6]:
            raise BadLine(Status.BAD_LINE)
        try:
            return cls(*map(int, words))
        except OverflowError:
            raise BadLine(Status.BAD_LINE) from None

    def __str__(self) -> str:
        """Its line, without a line feed."""
        numbers = [str(it) for it in astuple(self)]
        return " ".join(["config", *numbers[:9]] if self.cqs == self.pairs else ["config2", *numbers])

    def fault(self) -> Status | None:
        """The first fault of it."""
        number = library.vandrexu_config_fault(byref(self._raw()))
        return Status(number) if number else None

    def _raw(self) -> RawConfig:
        return RawConfig(*astuple(self))


def _fits(number: int, bits: int) -> int:
    """The number, where it has so many bits at most."""
    if not 0 <= number < 1 << bits:
        raise OverflowError(f"{number} isn't a number of {bits} bits")
    return number


class Entry(NamedTuple):
    """A submission queue entry of 64 bytes, and the data that travels beside it.

    >>> entry = Entry.write(7, 3, bytes(1024), blocks=2)
    >>> entry.entry[:8].hex(), entry.entry[40:50].hex(), len(entry.data)
    ('0100070001000000', '03000000000000000100', 1024)
    """
    entry: bytes
    data: bytes = b""

    @staticmethod
    def flush(cid: int) -> Entry:
        """A Flush, which has no blocks."""
        return _named(0x00, cid, 0, 1, b"")

    @staticmethod
    def write(cid: int, slba: int, data: bytes, blocks: int = 1) -> Entry:
        """A Write of so many blocks from this one on."""
        return _named(0x01, cid, slba, blocks, data)

    @staticmethod
    def read(cid: int, slba: int, blocks: int = 1) -> Entry:
        """A Read of so many blocks from this one on."""
        return _named(0x02, cid, slba, blocks, b"")

    @staticmethod
    def compare(cid: int, slba: int, data: bytes, blocks: int = 1) -> Entry:
        """A Compare of so many blocks from this one on."""
        return _named(0x05, cid, slba, blocks, data)

    @staticmethod
    def write_zeroes(cid: int, slba: int, blocks: int = 1) -> Entry:
        """A Write Zeroes of so many blocks from this one on."""
        return _named(0x08, cid, slba, blocks, b"")

    def first(self) -> Entry:
        """The same as the first of a fused pair."""
        return self._fused(1)

    def second(self) -> Entry:
        """The same as the second of a fused pair."""
        return self._fused(2)

    def _fused(self, fuse: int) -> Entry:
        return self._replace(entry=self.entry[:1] + bytes([self.entry[1] & ~3 | fuse]) + self.entry[2:])


def _named(opcode: int, cid: int, slba: int, blocks: int, data: bytes) -> Entry:
    head = bytes([opcode, 0]) + cid.to_bytes(2, "little") + (1).to_bytes(4, "little") + bytes(32)
    return Entry(head + slba.to_bytes(8, "little") + (blocks - 1).to_bytes(2, "little") + bytes(14), bytes(data))


# ---- What steps answer

class Kind(IntEnum):
    """What a ticket has to do."""
    FAILED = 1
    FLUSH = 2
    UNITS = 3
    PAIR = 4


class Op(IntEnum):
    """What the units of a command do."""
    READ = 1
    COMPARE = 2
    WRITE = 3
    WRITE_ZEROES = 4


class Mode(IntEnum):
    """How a unit holds its blocks."""
    SHARED = 1
    EXCLUSIVE = 2


class Found(IntEnum):
    """What was done or found at a block."""
    READ = 1
    EQUAL = 2
    DIFFERS = 3
    WRITTEN = 4


class StepKind(IntEnum):
    """What a ticket does next."""
    GRANT = 2
    BLOCK = 3
    POST = 4


class Work(NamedTuple):
    """A fetched ticket, numbered from 1: `op` is of a command by itself, `statuses` of one whose checks failed."""
    ticket: int
    kind: Kind
    slba: int
    blocks: int
    op: Op | None
    statuses: int


class Granted(NamedTuple):
    """A unit that began, counted from 0."""
    unit: int
    slba: int
    blocks: int
    mode: Mode


class Blocked(NamedTuple):
    """A block that was made: whether the unit takes effect by it, and whether the unit has ended."""
    lba: int
    found: Found
    effect: bool
    ended: bool


class Step(NamedTuple):
    """A step that a ticket makes."""
    kind: StepKind
    ticket: int


class Completion(bytes):
    """A completion queue entry of 16 bytes.

    >>> failed = Completion.fromhex("00000000000000000200010007000B05")
    >>> failed.sqhd, failed.sqid, failed.cid, failed.phase, failed.status, failed.is_success
    (2, 1, 7, 1, (2, 133), False)
    """

    def _word(self, at: int) -> int:
        return int.from_bytes(self[at:at + 2], "little")

    @property
    def sqhd(self) -> int:
        """How many entries of the submission queue were fetched, modulo its size."""
        return self._word(8)

    @property
    def sqid(self) -> int:
        """The number of the submission queue."""
        return self._word(10)

    @property
    def cid(self) -> int:
        """The command identifier."""
        return self._word(12)

    @property
    def phase(self) -> int:
        """The phase tag."""
        return self[14] & 1

    @property
    def status(self) -> tuple[int, int]:
        """The status code type and the status code."""
        return self._word(14) >> 9 & 7, self._word(14) >> 1 & 0xFF

    @property
    def is_success(self) -> bool:
        """Whether the status is Successful Completion, 0/00."""
        return self.status == (0, 0)


class Reaped(NamedTuple):
    """A completion that was reaped, and what a successful Read read."""
    completion: Completion
    data: bytes


# ---- The controller, the checker, a disk and its hosts

class _Handle:
    """What owns something until it is closed. Calls of one handle take turns."""
    _new: str
    _free: str
    _raw_type: type[Structure]

    def __init__(self, config: Config, *more: object):
        self.config = config
        self._hold(byref(config._raw()), *more)

    def _hold(self, *arguments: object) -> None:
        """Makes what it owns."""
        self._turn = threading.Lock()
        self._raw = self._raw_type()
        _want(getattr(library, self._new)(*arguments, byref(self._raw)))

    def _ask(self, name: str, *arguments: object) -> None:
        """Makes a call, and raises what it answers."""
        with self._turn:
            _want(getattr(library, name)(byref(self._raw), *arguments))

    def close(self) -> None:
        """Frees it; from then on its calls raise NoHandle. Nothing is done to one that is closed."""
        with self._turn:
            getattr(library, self._free)(byref(self._raw))

    def __enter__(self):
        return self

    def __exit__(self, *_: object) -> None:
        self.close()

    def __del__(self) -> None:
        if hasattr(self, "_raw"):
            self.close()


class _Looked(_Handle):
    """What has blocks and a history: a Controller and a Disk."""
    _kind: str

    def medium(self, lba: int) -> bytes:
        """The block as it lies in the volume, also in the middle of a unit."""
        block = (c_uint8 * BLOCK)()
        self._ask(f"{self._kind}_medium", _fits(lba, 64), block)
        return bytes(block)

    def history_count(self) -> int:
        """How many steps were made."""
        count = c_uint64()
        self._ask(f"{self._kind}_history_count", byref(count))
        return count.value

    def history(self, start: int = 0) -> Iterator[str]:
        """The lines of the history from a place on, without their line feeds. Place 0 is the configuration's line, and
        place k the k-th step's; what stands before costs nothing. Steps that are made meanwhile are told, too. At one
        that was forgotten `Forgotten` is raised.

        >>> with Controller(Config()) as disk:
        ...     disk.publish(1, [Entry.flush(7)])
        ...     work = disk.fetch(1)
        ...     disk.settle()
        ...     list(disk.history(2))
        ['fetch 1 1 1 ok', 'post 1 00000000000000000100010007000100 -']
        """
        place, room = _fits(start, 64), 4096
        while True:
            out, needed, behind = (c_uint8 * room)(), c_size_t(), c_uint64()
            try:
                self._ask(f"{self._kind}_history", place, out, room, byref(needed), byref(behind))
            except Error as error:
                if error.status != Status.TOO_SMALL:
                    raise
                room = needed.value
                continue
            if behind.value == place:
                return
            place = behind.value
            yield from bytes(out)[:needed.value].decode().splitlines()

    def trace(self) -> Iterator[str]:
        """The lines of the trace (docs/OBSERVING.md): the configuration's line, and what hosts saw of each step.

        >>> with Disk(Config(), 1) as disk, disk.host(1, 1) as host:
        ...     call = host.read(3)
        ...     disk.serve(1)
        ...     kind = host.poll(call).kind
        ...     [line.split(" ")[0] for line in disk.trace()], list(disk.trace())[2][-3:]
        (['config', 'publish', 'reap'], ' 00')
        """
        yield str(self.config)
        with Tracer(self.config) as tracer:
            for line in self.history(1):
                if seen := tracer.take_line(line):
                    yield seen


class Controller(_Looked):
    """A controller with its volume, its queues and its history. It is freed where its `with` ends, by `close`, or where
    it is forgotten.

    Each call makes one step, or none and raises why. Nothing happens by itself: a published entry waits until it is
    fetched, and a ticket goes on by `grant`, `block` and `post`, or by `settle`.

    >>> disk = Controller(Config())
    >>> disk.history_count()
    0
    >>> disk.fetch(1)
    Traceback (most recent call last):
    vandrexu.Refused: no entry to fetch
    >>> disk.close()
    >>> disk.fetch(1)
    Traceback (most recent call last):
    vandrexu.NoHandle: the handle owns nothing
    """
    _new, _free, _raw_type = "vandrexu_controller_new", "vandrexu_controller_free", RawController
    _kind = "vandrexu_controller"

    def reserve(self, more: int) -> None:
        """Makes the memory of so many Grants, Blocks and Reaps that come next, so that none of them raises NoMemory."""
        self._ask("vandrexu_controller_reserve", _fits(more, 64))

    def publish(self, queue: int, entries: Iterable[Entry]) -> None:
        """Publishes all these entries to a submission queue, or none."""
        entries = list(entries)
        data = b"".join(it.data for it in entries)
        # (an array of one at least, since no pointer may be null)
        raw = (RawEntry * max(1, len(entries)))()
        for place, it in enumerate(entries):
            if len(it.entry) != 64:
                raise ValueError(f"an entry has 64 bytes, and not {len(it.entry)}")
            raw[place].bytes[:] = it.entry
            raw[place].count = len(it.data)
        self._ask("vandrexu_controller_publish", _fits(queue, 16), raw, len(entries), data, len(data))

    def fetch(self, queue: int) -> Work:
        """Takes the next command of a submission queue, or a fused pair, as the next ticket.

        >>> with Controller(Config()) as disk:
        ...     disk.publish(1, [Entry.read(7, 3)])
        ...     disk.fetch(1)
        Work(ticket=1, kind=<Kind.UNITS: 3>, slba=3, blocks=1, op=<Op.READ: 1>, statuses=0)
        """
        work = RawWork()
        self._ask("vandrexu_controller_fetch", _fits(queue, 16), byref(work))
        op = Op(work.op) if work.op else None
        return Work(work.ticket, Kind(work.kind), work.slba, work.blocks, op, work.statuses)

    def grant(self, ticket: int) -> Granted:
        """The ticket's next unit begins, and holds its blocks."""
        granted = RawGranted()
        self._ask("vandrexu_controller_grant", _fits(ticket, 64), byref(granted))
        return Granted(granted.unit, granted.slba, granted.blocks, Mode(granted.mode))

    def block(self, ticket: int) -> Blocked:
        """The next block of the ticket's open unit is read, compared or written.

        >>> with Controller(Config()) as disk:
        ...     disk.publish(1, [Entry.compare(7, 3, b"\\xA1" * 512)])
        ...     ticket = disk.fetch(1).ticket
        ...     disk.grant(ticket).mode
        ...     disk.block(ticket)
        ...     disk.post(ticket).status
        <Mode.SHARED: 1>
        Blocked(lba=3, found=<Found.DIFFERS: 3>, effect=True, ended=True)
        (2, 133)
        """
        blocked = RawBlocked()
        self._ask("vandrexu_controller_block", _fits(ticket, 64), byref(blocked))
        return Blocked(blocked.lba, Found(blocked.found), blocked.effect == 1, blocked.ended == 1)

    def post(self, ticket: int) -> Completion:
        """The next completion that the ticket owes goes into its completion queue."""
        cqe = (c_uint8 * 16)()
        self._ask("vandrexu_controller_post", _fits(ticket, 64), cqe)
        return Completion(cqe)

    def step(self, step: Step) -> Granted | Blocked | Completion:
        """Makes a Grant, Block or Post."""
        calls = {StepKind.GRANT: self.grant, StepKind.BLOCK: self.block, StepKind.POST: self.post}
        return calls[step.kind](step.ticket)

    def ready(self) -> Step | None:
        """The step of the least ticket that can go on. It isn't made."""
        step = RawStep()
        try:
            self._ask("vandrexu_controller_ready", byref(step))
        except Error as error:
            if error.status != Status.NOTHING_READY:
                raise
            return None
        return Step(StepKind(step.kind), step.ticket)

    def steps(self) -> Iterator[tuple[Step, Granted | Blocked | Completion]]:
        """Makes each step that is ready, as it is asked for, until nothing is.

        >>> with Controller(Config()) as disk:
        ...     disk.publish(1, [Entry.write(7, 3, b"\\xA1" * 512)])
        ...     ticket = disk.fetch(1).ticket
        ...     [step.kind.name for step, _ in disk.steps()]
        ['GRANT', 'BLOCK', 'POST']
        """
        while step := self.ready():
            yield step, self.step(step)

    def settle(self) -> None:
        """Makes what is ready until nothing is."""
        self._ask("vandrexu_settle")

    def reap(self, queue: int) -> Reaped:
        """Takes the next completion of a completion queue, with what a successful Read read."""
        cqe, count = (c_uint8 * 16)(), c_size_t()
        with self._turn:
            handle = byref(self._raw)
            _want(library.vandrexu_controller_reap(handle, _fits(queue, 16), cqe, byref(count)))
            data = (c_uint8 * max(1, count.value))()
            _want(library.vandrexu_controller_data(handle, data, count.value, byref(count)))
        return Reaped(Completion(cqe), bytes(data)[:count.value])

    def completions(self, queue: int) -> Iterator[Reaped]:
        """Takes completions of a completion queue, as they are asked for, until none is there.

        >>> with Controller(Config()) as disk:
        ...     disk.publish(1, [Entry.read(7, 3)])
        ...     ticket = disk.fetch(1).ticket
        ...     disk.settle()
        ...     [(it.completion.cid, it.data == bytes(512)) for it in disk.completions(1)]
        [(7, True)]
        """
        while True:
            try:
                reaped = self.reap(queue)
            except Refused as error:
                if error.status != Status.NO_COMPLETION:
                    raise
                return
            yield reaped

    def forget(self, place: int) -> None:
        """Forgets the steps before a place, which counts as in `history`: their memory is used again, and the places of
        the others stay. What was forgotten before stays so.

        >>> with Controller(Config()) as disk:
        ...     disk.publish(1, [Entry.flush(7)])
        ...     work = disk.fetch(1)
        ...     disk.forget(2)
        ...     list(disk.history(2))
        ['fetch 1 1 1 ok']
        """
        self._ask("vandrexu_controller_forget", _fits(place, 64))

    def replay(self, line: str | bytes) -> None:
        """Makes the step of the next line of a history once more. So a new controller that is given all lines of a
        history but the first, its configuration's, goes on from there. OtherEntry is raised where the step was made and
        has another line, which is now the last of the history; Refused, BadLine and NoMemory, where it wasn't made.

        >>> with Controller(Config()) as disk, Controller(Config()) as again:
        ...     disk.publish(1, [Entry.write(7, 3, b"\\xA1" * 512)])
        ...     ticket = disk.fetch(1).ticket
        ...     for line in disk.history(1):
        ...         again.replay(line)
        ...     again.settle()
        ...     again.medium(3) == b"\\xA1" * 512
        True
        """
        line = _bytes_of(line)
        self._ask("vandrexu_controller_replay", line, len(line))


class Checker(_Handle):
    """Checks the history of a controller line by line, and keeps no line. It is freed where its `with` ends, by
    `close`, or where it is forgotten.

    The lines are those of docs/CHECKING.md, without their line feeds. The configuration line, with which a history's
    file begins, is no step: it is what the checker is made of.

    >>> with Checker(Config()) as checker:
    ...     checker.take_line("publish 1 0000070001" + "0" * 118 + " -")
    ...     checker.take_line("fetch 1 1 1 ok")
    ...     checker.why("fetch 1 2 1 ok")
    ...     checker.take_line("fetch 1 2 1 ok")
    Traceback (most recent call last):
    vandrexu.NotLegal: the history with this line isn't legal
    """
    _new, _free, _raw_type = "vandrexu_checker_new", "vandrexu_checker_free", RawChecker

    def take_line(self, line: str | bytes) -> None:
        """Takes the next line of the history. NotLegal is raised where the history with it isn't legal, and from then
        on for each; BadLine and NoMemory, where it isn't taken."""
        line = _bytes_of(line)
        self._ask("vandrexu_checker_take_line", line, len(line))

    def why(self, line: str | bytes) -> str | None:
        """The words of the first rule that the next line would break, and None where the history with it would be
        legal. The line isn't taken.

        >>> with Checker(Config()) as checker:
        ...     checker.why("fetch 1 1 1 ok")
        'refused 3: no entry to fetch'
        """
        line, needed = _bytes_of(line), c_size_t(128)
        while True:
            room = needed.value
            words = (c_uint8 * room)()
            try:
                self._ask("vandrexu_checker_why", line, len(line), words, room, byref(needed))
                return None
            except NotLegal:
                return bytes(words)[:needed.value].decode()
            except Error as error:
                if error.status != Status.TOO_SMALL:
                    raise


class Tracer(_Handle):
    """Makes the trace of a legal history (docs/OBSERVING.md) line by line, and keeps no line but the last. It is freed
    where its `with` ends, by `close`, or where it is forgotten. `Disk.trace` and `Controller.trace` are made by it."""
    _new, _free, _raw_type = "vandrexu_tracer_new", "vandrexu_tracer_free", RawTracer

    def take_line(self, line: str | bytes) -> str | None:
        """Takes the next line of the history, and returns the line of the trace that it adds, and None where hosts see
        nothing of it. BadLine and NoMemory are raised where it isn't taken."""
        line, needed = _bytes_of(line), c_size_t(256)
        with self._turn:
            handle = byref(self._raw)
            _want(library.vandrexu_tracer_take_line(handle, line, len(line)))
            while True:
                room = needed.value
                seen = (c_uint8 * room)()
                number = library.vandrexu_tracer_seen(handle, seen, room, byref(needed))
                if number != Status.TOO_SMALL:
                    _want(number)
                    return bytes(seen)[:needed.value].decode().removesuffix("\n") or None


class SlotFault(NamedTuple):
    """The first line of a history that breaks the discipline of slots: its place from 1, the block of the slot, and the
    words of the rule."""
    place: int
    block: int
    words: str


class SlotChecker(_Handle):
    """Checks whether the hosts of a legal history keep the discipline of their slots, line by line, and keeps no line.
    It is freed where its `with` ends, by `close`, or where it is forgotten.

    The lines are those of a Checker. The history of a Disk is legal. Of one that isn't nothing is said: give the lines
    of others to a Checker, too.

    >>> with Disk(Config(), 1) as disk, disk.host(1, 1) as host, SlotChecker(Config(), 3, 2) as slots:
    ...     call = host.write(4, b"\\xA1" * 512)
    ...     slots.why()
    ...     try:
    ...         for line in disk.history(1):
    ...             slots.take_line(line)
    ...     except SlotsMisused:
    ...         slots.why()
    SlotFault(place=1, block=4, words='a write in the slots that is no claim, release or takeover')
    """
    _new, _free, _raw_type = "vandrexu_slot_checker_new", "vandrexu_slot_checker_free", RawSlotChecker

    def __init__(self, config: Config, first: int, count: int):
        """A checker of so many slots from block `first` on, which has taken no line."""
        super().__init__(config, _fits(first, 64), _fits(count, 32))

    def take_line(self, line: str | bytes) -> None:
        """Takes the next line of the history. SlotsMisused is raised where the history with it doesn't keep the
        discipline, and from then on for each; BadLine and NoMemory, where it isn't taken."""
        line = _bytes_of(line)
        self._ask("vandrexu_slot_checker_take_line", line, len(line))

    def why(self) -> SlotFault | None:
        """The first of the lines that were taken that breaks the discipline, and None where none does."""
        place, block, needed = c_uint64(), c_uint64(), c_size_t(128)
        while True:
            room = needed.value
            words = (c_uint8 * room)()
            try:
                self._ask("vandrexu_slot_checker_why", byref(place), byref(block), words, room, byref(needed))
                return None
            except SlotsMisused:
                return SlotFault(place.value, block.value, bytes(words)[:needed.value].decode())
            except Error as error:
                if error.status != Status.TOO_SMALL:
                    raise


class Disk(_Looked):
    """A controller that hosts share. It is served by this handle, and freed where its `with` ends, by `close`, or where
    it is forgotten; hosts that were made of it stay, but nobody serves them then.

    Nothing happens by itself: what a host asks for waits until the disk serves its submission queue. Each host has a
    number and a completion queue that no host of the disk had before. Where `cqs` is below `pairs`, some submission
    queues share a completion queue, and only one of these gets a host.

    >>> with Disk(Config(pairs=2), 2) as disk, disk.host(1, 1) as one, disk.host(2, 2) as two:
    ...     of_one = one.compare_and_write(3, bytes(512), b"\\xA1" * 512)
    ...     of_two = two.compare_and_write(3, bytes(512), b"\\xB2" * 512)
    ...     disk.serve(2)
    ...     disk.serve(1)
    ...     [two.poll(of_two).kind.name for _ in "12"], [one.poll(of_one).kind.name for _ in "12"]
    (['PENDING', 'SWAPPED'], ['PENDING', 'DIFFERS'])
    """
    _new, _free, _raw_type = "vandrexu_disk_new", "vandrexu_disk_free", RawDisk
    _kind = "vandrexu_disk"

    def __init__(self, config: Config, hosts: int, *, slots: tuple[int, int] | None = None):
        """A disk with no history, whose blocks are zeros, of which so many hosts can be made. With `slots=(first,
        count)` it has so many slots, and slot i is block `first` + i; without, it has none.

        >>> Disk(Config(), 1, slots=(65535, 2))
        Traceback (most recent call last):
        vandrexu.SlotRefused: there would be no slot, or one behind block 65,535
        """
        self.slots = slots
        # (the submission queues of hosts that ended, by their numbers)
        self._queues: dict[int, int] = {}
        if slots is None:
            super().__init__(config, _fits(hosts, 16))
        else:
            first, count = slots
            self._new = "vandrexu_slot_disk_new"
            super().__init__(config, _fits(hosts, 16), _fits(first, 64), _fits(count, 32))

    def host(self, number: int, queue: int) -> Host:
        """A host of this number, with a driver on this submission queue. It isn't made where a host of the disk, of
        either kind, had the number or the queue's completion queue before, also one that is closed.

        >>> with Disk(Config(pairs=2), 2) as disk, disk.host(1, 1) as one:
        ...     disk.host(1, 2)
        Traceback (most recent call last):
        vandrexu.Error: a host of the disk had the number before
        """
        return Host(self, number, queue)

    def slot_host(self, number: int, queue: int) -> SlotHost:
        """A slot host of this number, with a driver on this submission queue, for the slots of the disk. It isn't made
        where `host` would make none, nor where the disk has no slots."""
        return SlotHost(self, number, queue)

    def end(self, host: Host) -> None:
        """Ends a host: the disk keeps its number, its submission queue and the CIDs of calls that were given up, until
        `again` asks for it. Error is raised where a call wasn't given up, and where no host of its number, made of this
        disk, lives; the host is then as before.

        >>> with Disk(Config(), 1) as disk:
        ...     host = disk.host(1, 1)
        ...     host.give_up(host.write(3, b"\\xA1" * 512))
        ...     disk.end(host)
        ...     with disk.again(1) as host:
        ...         host.waiting()
        Waiting(calls=0, given_up=1)
        """
        with self._turn, host._turn:
            _want(library.vandrexu_host_end(byref(self._raw), byref(host._raw)))
            self._queues[host.number] = host.queue

    def again(self, number: int) -> Host:
        """The host of this number that ended, on its submission queue, as it was. It takes none of the hosts that are
        left, so a host may end and be made again for ever. Error is raised where none ended."""
        host = Host.__new__(Host)
        host._new = "vandrexu_host_again"
        host.config, host.number, host.queue = self.config, number, self._queues.get(number, 0)
        with self._turn:
            host._hold(byref(self._raw), _fits(number, 32))
        return host

    def hosts_left(self) -> int:
        """How many hosts, of either kind, can be made of it yet.

        >>> with Disk(Config(pairs=2), 2) as disk, disk.host(1, 1) as one:
        ...     disk.hosts_left()
        1
        """
        count = c_size_t()
        self._ask("vandrexu_disk_hosts_left", byref(count))
        return count.value

    def serve(self, queue: int) -> None:
        """Fetches the next command of a submission queue, or a fused pair, and makes all that it has to do. Where
        Refused, NoMemory or Busy is raised what was fetched is kept: the next call goes on with it, whichever queue it
        names."""
        self._ask("vandrexu_disk_serve", _fits(queue, 16))

    def fetch(self, queue: int) -> None:
        """Fetches the next command of a submission queue, or a fused pair, and keeps what has to be done."""
        self._ask("vandrexu_disk_fetch", _fits(queue, 16))

    def task(self) -> bool:
        """Makes the next step of what is kept, and says whether there was one.

        >>> with Disk(Config(), 1) as disk, disk.host(1, 1) as host:
        ...     call = host.read(3, 1)
        ...     disk.fetch(1)
        ...     [disk.task() for _ in range(4)]
        [True, True, True, False]
        """
        try:
            self._ask("vandrexu_disk_task")
        except Error as error:
            if error.status != Status.NOTHING_READY:
                raise
            return False
        return True

    def forget(self, place: int = 2 ** 64 - 1) -> None:
        """Forgets the steps of the disk's history before a place, the k-th step's being k, or all so far: their memory is
        used again. Nothing that a host or the disk is answered changes by it.

        >>> with Disk(Config(), 1) as disk, disk.host(1, 1) as host:
        ...     call = host.read(3, 1)
        ...     disk.serve(1)
        ...     disk.forget()
        ...     host.poll(call).data == bytes(512)
        True
        """
        self._ask("vandrexu_disk_forget", _fits(place, 64))


class ReplyKind(IntEnum):
    """What became of a host's call."""
    PENDING = 1
    READ = 2
    WRITTEN = 3
    EQUAL = 4
    DIFFERS = 5
    SWAPPED = 6
    FAILED = 7


class Reply(NamedTuple):
    """What became of a host's call: what a Read read, and the Status Code Type and Status Code of one that failed."""
    kind: ReplyKind
    data: bytes = b""
    status: tuple[int, int] | None = None


def _reply(number: int, reply: RawReply, copy, handle: object) -> Reply:
    """What a poll told, or its error; of a Read with what was read, which `copy` copies of the handle."""
    if number != Status.CALL_FAILED:
        _want(number)
    kind = ReplyKind(reply.kind)
    if kind == ReplyKind.FAILED:
        return Reply(kind, status=(reply.sct, reply.sc))
    if kind != ReplyKind.READ:
        return Reply(kind)
    # (the first call, with no room, says how much there is)
    needed = c_size_t()
    copy(handle, (c_uint8 * 1)(), 0, byref(needed))
    data = (c_uint8 * max(1, needed.value))()
    _want(copy(handle, data, needed.value, byref(needed)))
    return Reply(kind, bytes(data)[:needed.value])


class Waiting(NamedTuple):
    """How many calls a host waits for: those that have a number, and those that were given up and keep their CIDs."""
    calls: int
    given_up: int


class _Calls(_Handle):
    """A host with up to 64 commands in flight, of which a pair is two. Each call has a number, by which it is polled."""
    _kind: str

    def _begin(self, name: str, *arguments: object) -> int:
        """Begins a call, and returns its number."""
        call = c_uint32()
        self._ask(f"{self._kind}_{name}", *arguments, byref(call))
        return call.value

    def read(self, lba: int, blocks: int = 1) -> int:
        """Begins to read so many blocks, and returns the call's number."""
        return self._begin("read", _fits(lba, 64), _fits(blocks, 32))

    def write_zeroes(self, lba: int, blocks: int = 1) -> int:
        """Begins to write zeros to so many blocks, and returns the call's number."""
        return self._begin("write_zeroes", _fits(lba, 64), _fits(blocks, 32))

    def write(self, lba: int, data: bytes) -> int:
        """Begins to write this data, 512 bytes a block, and returns the call's number."""
        data = bytes(data)
        return self._begin("write", _fits(lba, 64), data, len(data))

    def compare(self, lba: int, data: bytes) -> int:
        """Begins to compare this data, 512 bytes a block, with what is there, and returns the call's number."""
        data = bytes(data)
        return self._begin("compare", _fits(lba, 64), data, len(data))

    def compare_and_write(self, lba: int, expected: bytes, desired: bytes) -> int:
        """Begins to write the desired data where the blocks hold the expected data, as one fused pair, and returns the
        call's number."""
        old, new = bytes(expected), bytes(desired)
        return self._begin("compare_and_write", _fits(lba, 64), old, len(old), new, len(new))

    def poll(self, call: int) -> Reply:
        """Takes at most one completion, of whichever call, and says what became of this call, which is over but where
        it is pending. Calls are polled in any order. Where calls were given up, one of them has its turn first, and
        takes one more."""
        reply = RawReply()
        with self._turn:
            handle = byref(self._raw)
            number = getattr(library, f"{self._kind}_poll")(handle, _fits(call, 32), byref(reply))
            return _reply(number, reply, getattr(library, f"{self._kind}_data"), handle)

    def give_up(self, call: int) -> None:
        """Gives up a call, whose number is free then: what it asked for is done or not, and nobody is told. Its CIDs
        stay in use until its completions came, and polls have taken them. Where NoMemory is raised the call goes on."""
        self._ask(f"{self._kind}_give_up", _fits(call, 32))

    def waiting(self) -> Waiting:
        """How many calls the host waits for.

        >>> with RemoteHost(1, 1) as host:
        ...     one, two = host.read(0), host.read(1)
        ...     host.give_up(one)
        ...     host.waiting()
        Waiting(calls=1, given_up=1)
        """
        calls, given_up = c_size_t(), c_size_t()
        self._ask(f"{self._kind}_waiting", byref(calls), byref(given_up))
        return Waiting(calls.value, given_up.value)


class _HostHandle(_Handle):
    """A host of a Disk, of either kind."""

    def __init__(self, disk: Disk, number: int, queue: int):
        _fits(number, 32), _fits(queue, 16)
        self.config, self.number, self.queue = disk.config, number, queue
        with disk._turn:
            self._hold(byref(disk._raw), number, queue)


class Host(_HostHandle, _Calls):
    """A host of a Disk, with a driver, and up to 64 commands in flight, of which a pair is two. It is freed where its
    `with` ends, by `close`, or where it is forgotten.

    A call is begun, and polled by its number until it is over; then the next one may have the number. A call that would
    write to a slot of the disk isn't begun.

    >>> with Disk(Config(), 1) as disk, disk.host(1, 1) as host:
    ...     write, zeroes = host.write(3, b"\\xA1" * 1024), host.write_zeroes(3, 1)
    ...     host.poll(write)
    ...     disk.serve(1)
    ...     disk.serve(1)
    ...     [host.poll(zeroes).kind.name for _ in "12"], host.poll(write).kind.name
    ...     read = host.read(3, 2)
    ...     disk.serve(1)
    ...     host.poll(read).data == bytes(512) + b"\\xA1" * 512
    Reply(kind=<ReplyKind.PENDING: 1>, data=b'', status=None)
    (['PENDING', 'WRITTEN'], 'WRITTEN')
    True
    """
    _new, _free, _raw_type = "vandrexu_host_new", "vandrexu_host_free", RawHost
    _kind = "vandrexu_host"


class SlotReplyKind(IntEnum):
    """What became of a slot host's call. HELD and TAKEN are of a claim and of a takeover, RELEASED of a release, and
    FREE, OF_NAME and FOREIGN of the question who holds a slot. No call writes what is FOREIGN."""
    PENDING = 1
    HELD = 2
    TAKEN = 3
    RELEASED = 4
    FREE = 5
    OF_NAME = 6
    FOREIGN = 7
    FAILED = 8


class Name(NamedTuple):
    """Who holds a slot: a host, by the serial of its claim or of its takeover. A host uses each serial once."""
    host: int
    serial: int


class SlotReply(NamedTuple):
    """What became of a slot host's call: the slot that is the host's now, the name of who holds a slot, and the Status
    Code Type and Status Code of a call that failed."""
    kind: SlotReplyKind
    slot: int | None = None
    name: Name | None = None
    status: tuple[int, int] | None = None


class _SlotCalls(_Handle):
    """What claims slots and releases them: a SlotHost and a RemoteSlotHost."""
    _kind: str

    def claim(self, slot: int) -> None:
        """Begins to claim a slot: to swap zeros for the host's next name."""
        self._ask(f"{self._kind}_claim", _fits(slot, 32))

    def claim_any(self) -> None:
        """Begins to claim the first slot that nobody has: slot 0, and each further one by a poll, once the one before is
        answered to be somebody's, so it is served between two polls. TAKEN is told where each was, at a moment of its
        own."""
        self._ask(f"{self._kind}_claim_any")

    def release(self, slot: int) -> None:
        """Begins to release a slot that was claimed or taken over: to swap the host's name for zeros. From then on the
        host has it no more, whatever comes of it."""
        self._ask(f"{self._kind}_release", _fits(slot, 32))

    def take_over(self, slot: int, dead: Name) -> None:
        """Begins to take a slot over: to swap the name of a dead host for the host's next name. That the dead host does
        nothing any more is yours to see."""
        host, serial = dead
        self._ask(f"{self._kind}_take_over", _fits(slot, 32), _fits(host, 32), _fits(serial, 64))

    def ask_holder(self, slot: int) -> None:
        """Begins to ask who holds a slot: to read its block."""
        self._ask(f"{self._kind}_ask_holder", _fits(slot, 32))

    def poll(self) -> SlotReply:
        """Takes at most one completion, and says what became of the call, which is over but where it is pending."""
        reply = RawSlotReply()
        with self._turn:
            number = getattr(library, f"{self._kind}_poll")(byref(self._raw), byref(reply))
        if number != Status.CALL_FAILED:
            _want(number)
        kind = SlotReplyKind(reply.kind)
        return SlotReply(kind,
                         slot=reply.slot if kind == SlotReplyKind.HELD else None,
                         name=Name(reply.host, reply.serial) if kind == SlotReplyKind.OF_NAME else None,
                         status=(reply.sct, reply.sc) if kind == SlotReplyKind.FAILED else None)


class SlotHost(_HostHandle, _SlotCalls):
    """A host of a Disk that claims slots and releases them, with a driver, and one call at a time. It is freed where
    its `with` ends, by `close`, or where it is forgotten. Its slots then stay held by their names, and another host may
    take them over.

    A slot is a lock: one block of the disk. The block holds zeros while the slot is free, and else the name of who has
    it (docs/SLOTS.md). A call is begun, and then polled until it is over.

    >>> def over(disk, host):
    ...     disk.serve(host.queue)
    ...     while (reply := host.poll()).kind == SlotReplyKind.PENDING:
    ...         pass
    ...     return reply
    >>> disk = Disk(Config(pairs=2), 2, slots=(2, 4))
    >>> one, two = disk.slot_host(1, 1), disk.slot_host(2, 2)
    >>> one.claim(0)
    >>> over(disk, one)
    SlotReply(kind=<SlotReplyKind.HELD: 2>, slot=0, name=None, status=None)
    >>> two.claim(0)
    >>> over(disk, two).kind.name
    'TAKEN'
    >>> one.close()
    >>> two.ask_holder(0)
    >>> name = over(disk, two).name
    >>> name
    Name(host=1, serial=1)
    >>> two.take_over(0, name)
    >>> over(disk, two).kind.name
    'HELD'
    >>> two.claim(1)
    >>> over(disk, two).kind.name
    'HELD'
    """
    _new, _free, _raw_type = "vandrexu_slot_host_new", "vandrexu_slot_host_free", RawSlotHost
    _kind = "vandrexu_slot"


# ---- Hosts of a controller that is somewhere else

class Outgoing(NamedTuple):
    """An entry that is to be carried to a submission queue. Where there is more, it is the first of a fused pair, whose
    second is the next entry."""
    queue: int
    entry: Entry
    more: bool


class _Carried(_Handle):
    """A host whose entries and completions are carried, of either kind."""
    _kind: str

    def outgoing(self) -> Outgoing | None:
        """The entry that was published first of those that weren't told yet, and None where there is none."""
        raw, room = RawOutgoing(), 1024
        while True:
            data = (c_uint8 * max(1, room))()
            try:
                self._ask(f"{self._kind}_outgoing", byref(raw), data, room)
                return Outgoing(raw.queue, Entry(bytes(raw.bytes), bytes(data)[:raw.count]), raw.more == 1)
            except Error as error:
                if error.status == Status.NOTHING_READY:
                    return None
                if error.status != Status.TOO_SMALL:
                    raise
                room = raw.count

    def incoming(self, completion: bytes, data: bytes = b"") -> None:
        """Brings a completion, with what a successful Read read, else with no data. Where NoMemory is raised it may be
        brought again.

        Its `sqid` is the host's queue. Command Retry Delay, More and Do Not Retry count as reserved: clear these bits
        where a controller sets them, else the completion is dropped."""
        cqe, data = bytes(completion), bytes(data)
        if len(cqe) != 16:
            raise ValueError(f"a completion has 16 bytes, and not {len(cqe)}")
        self._ask(f"{self._kind}_incoming", cqe, data, len(data))

    def dropped(self) -> int:
        """How many of the completions that were brought, and taken by a poll, no call was owed: of no command in
        flight, one that came twice, or one with a reserved bit."""
        count = c_uint64()
        self._ask(f"{self._kind}_dropped", byref(count))
        return count.value


class RemoteHost(_Carried, _Calls):
    """A host of a controller that is somewhere else, with a driver, and up to 64 commands in flight, of which a pair is
    two. It is freed where its `with` ends, by `close`, or where it is forgotten.

    A call is begun, and polled by its number until it is over; then the next one may have the number. What calls
    publish is told by `outgoing`, entry by entry, and what came back is brought by `incoming`. What lies between, such
    as a socket, is the caller's. A reply is what the call's own completions tell, if each is brought once, and none
    before its entry was told.

    >>> def carry(host, disk):
    ...     batch = []
    ...     while it := host.outgoing():
    ...         batch.append(it.entry)
    ...         if not it.more:
    ...             disk.publish(it.queue, batch)
    ...             work, batch = disk.fetch(it.queue), []
    ...     disk.settle()
    ...     for reaped in disk.completions(1):
    ...         host.incoming(*reaped)
    >>> disk, host = Controller(Config()), RemoteHost(7, 1)
    >>> read = host.read(3)
    >>> swap = host.compare_and_write(3, bytes(512), b"\\xA1" * 512)
    >>> carry(host, disk)
    >>> [host.poll(swap).kind.name for _ in "123"]
    ['PENDING', 'PENDING', 'SWAPPED']
    >>> host.poll(read).data == bytes(512)
    True
    >>> host.poll(read)
    Traceback (most recent call last):
    vandrexu.Error: the host has no such call
    """
    _new, _free, _raw_type = "vandrexu_remote_new", "vandrexu_remote_free", RawRemote
    _kind = "vandrexu_remote"

    def __init__(self, number: int, queue: int, acwu: int = 0, *, slots: tuple[int, int] = (0, 0)):
        """A host of this number on this submission queue of the controller. A Compare and Write has at most `acwu` and
        one blocks. With `slots=(first, count)` no call writes to so many blocks from block `first` on."""
        first, count = slots
        self.number, self.queue = number, queue
        self._hold(_fits(number, 32), _fits(queue, 16), _fits(acwu, 16), _fits(first, 64), _fits(count, 32))


class RemoteSlotHost(_Carried, _SlotCalls):
    """A slot host of a controller that is somewhere else, with a driver, and one call at a time. It is freed where its
    `with` ends, by `close`, or where it is forgotten, and its slots then stay held by their names. Its calls are
    carried as those of a RemoteHost.

    >>> host = RemoteSlotHost(7, 1, (2, 4), serial=41)
    >>> host.claim(3)
    >>> compare, write = host.outgoing(), host.outgoing()
    >>> compare.entry.data == bytes(512), write.entry.data[0], write.entry.data[8], compare.more, write.more
    (True, 7, 42, True, False)
    >>> for cid in compare.entry.entry[2], write.entry.entry[2]:
    ...     host.incoming(bytes([0, 0, 0, 0, 0, 0, 0, 0, 2, 0, 1, 0, cid, 0, 1, 0]))
    >>> [host.poll().kind.name for _ in "12"]
    ['PENDING', 'HELD']
    """
    _new, _free, _raw_type = "vandrexu_remote_slot_host_new", "vandrexu_remote_slot_host_free", RawRemoteSlotHost
    _kind = "vandrexu_remote_slot"

    def __init__(self, number: int, queue: int, slots: tuple[int, int], serial: int = 0):
        """A host of this number on this submission queue of the controller, which claims so many slots from a block on:
        `slots=(first, count)`. The serials of its names are above `serial`: a number that a host had before, in a
        process that ended, is given with a serial that none of its names had, as the clock's."""
        first, count = slots
        self.number, self.queue, self.slots = number, queue, slots
        self._hold(_fits(number, 32), _fits(queue, 16), _fits(first, 64), _fits(count, 32), _fits(serial, 64))


def _bytes_of(line: str | bytes) -> bytes:
    """The bytes of a line, also of one that was read as text and is none."""
    return line.encode("utf-8", "surrogateescape") if isinstance(line, str) else bytes(line)


# ---- Whole texts

class Lines(IntFlag):
    """The kinds of lines that a run shows."""
    PUBLISH = 1
    FETCH = 2
    GRANT = 4
    BLOCK = 8
    POST = 16
    REAP = 32
    REFUSED = 64
    MEDIUM = 128
    HISTORY = 63
    ALL = 255


def _told(number: int, line: int, text: str) -> str:
    """What a call about a text gave, or its error with the line and what was written before."""
    if number == Status.DONE:
        return text
    error = _error(number)
    error.line, error.text = line or None, text
    raise error


def _text(name: str, *arguments: object) -> str:
    """What a call about a text gives: asks with some room, and once more where that is too short."""
    needed, line = c_size_t(4096), c_uint64()
    while True:
        room = needed.value
        out = (c_uint8 * room)()
        number = getattr(library, name)(*arguments, out, room, byref(needed), byref(line))
        if number != Status.TOO_SMALL:
            return _told(number, line.value, bytes(out)[:needed.value].decode())


def run_text(script: str | bytes, lines: Lines = Lines.ALL) -> str:
    """Runs a script (docs/SCRIPTS.md), and returns what a run of it prints, the lines of these kinds. BadLine has the
    first bad line, and the text of the lines before it.

    >>> print(run_text("config 8 1 1 0 0 1 4 4 8\\nfetch 1\\n"), end="")
    config 8 1 1 0 0 1 4 4 8
    refused 3
    """
    script = _bytes_of(script)
    return _text("vandrexu_run_text", script, len(script), lines)


def check_text(history: str | bytes) -> str:
    """Checks a history (docs/CHECKING.md) with its configuration line, and returns the line that says that it is legal.
    NotLegal has the line that says where it isn't, BadLine the first bad line.

    >>> check_text("config 8 1 1 0 0 1 4 4 8\\n")
    'legal\\n'
    """
    history = _bytes_of(history)
    return _text("vandrexu_check_text", history, len(history))


def certify_text(trace: str | bytes, history: str | bytes) -> str:
    """Says whether a history explains a trace (docs/OBSERVING.md), and returns the line that says so. NotExplained has
    the line that says why not; BadLine is about the trace, BadHistory about the history."""
    trace, history = _bytes_of(trace), _bytes_of(history)
    return _text("vandrexu_certify_text", trace, len(trace), history, len(history))


def refute_text(trace: str | bytes, refutation: str | bytes) -> str:
    """Says whether a trace is refuted (docs/OBSERVING.md), so that no legal history explains it, and returns the line
    that says so. NotRefuted has the line that says why it isn't by this; BadLine is about the trace, BadHistory about
    the refutation."""
    trace, refutation = _bytes_of(trace), _bytes_of(refutation)
    return _text("vandrexu_refute_text", trace, len(trace), refutation, len(refutation))


def observe_text(trace: str | bytes, steps: int = 10_000_000) -> str:
    """Looks for a history that explains a trace, in so many steps at most, and returns it. Where there is none,
    NotExplained has what refutes the trace as `refutation`; NotFound says that neither was found, GaveUp that the steps
    were used up.

    >>> publish = "publish 1 0000070001" + "0" * 118 + " -"
    >>> trace = f"config 8 1 1 0 0 1 4 4 8\\n{publish}\\nreap 1 00000000000000000100010007000100 -\\n"
    >>> certify_text(trace, observe_text(trace))
    'explained\\n'
    """
    trace = _bytes_of(trace)
    found, needed, line = c_size_t(4096), c_size_t(256), c_uint64()
    while True:
        room, words = found.value, needed.value
        history, out = (c_uint8 * room)(), (c_uint8 * words)()
        number = library.vandrexu_observe_text(trace, len(trace), steps, history, room, byref(found), out, words,
                                               byref(needed), byref(line))
        if number != Status.TOO_SMALL:
            found_text = bytes(history)[:found.value].decode()
            try:
                _told(number, line.value, bytes(out)[:needed.value].decode())
            except NotExplained as why:
                why.refutation = found_text
                raise
            return found_text


def heap_limit(size: int = 2 ** 64 - 1) -> None:
    """Lets all that the library holds have so many bytes at the most, from now on: what wants more raises NoMemory, and
    what is there stays. Without a number there is no limit.

    >>> heap_limit(heap_used() + 1000)
    >>> Controller(Config())
    Traceback (most recent call last):
    vandrexu.NoMemory: no memory
    >>> heap_limit()
    >>> with Controller(Config()) as disk:
    ...     heap_used() > 512 * 1024
    True
    """
    library.vandrexu_heap_limit(_fits(size, 64))


def heap_used() -> int:
    """How many bytes the library holds now, as malloc rounds them up."""
    return library.vandrexu_heap_used()
