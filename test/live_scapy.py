"""The testers of test/live.py that scapy plays: its ISO-TP and its UDS layer, and its scanners, over a CAN socket that
speaks the program's lines, with identifiers of 11 and of 29 bits, and by CAN FD. No part of what is proved."""
import contextlib
import itertools
import logging
import os
import queue
import sys
import threading
import time

import packages
from harness import DEBIAN
from uds_link import LENGTHS, cut, read_setup

SERVICES = {0x10, 0x11, 0x14, 0x19, 0x22, 0x27, 0x2E, 0x31, 0x3E, 0x85}
LONG = bytes(range(60)).hex().upper()
OTHER = bytes(range(100, 160)).hex().upper()
MORE = f"""
[[did]]
id = 0xF191
value = "{LONG}"
write = true
"""
# requests of several frames come in blocks of four, 5 ms apart
HEAD = "s3_ms = 2000\nblock_size = 4\nst_min = 5\n"
# the most seconds that the scanner is let go on
SCAN = 25


def found():
    """Whether scapy is there. Where it is missing, Debian's package is installed, if that may be done."""
    return loads() or (packages.install("python3-scapy", "live: scapy is installed for its testers") and loads())


def loads():
    if os.path.isdir(f"{DEBIAN}/scapy") and DEBIAN not in sys.path:
        sys.path.append(DEBIAN)
    logging.getLogger("scapy").setLevel(logging.CRITICAL)
    try:
        # pylint: disable=import-outside-toplevel
        from scapy.contrib.automotive import log_automotive, uds, uds_scan
        from scapy.contrib.isotp import ISOTPSoftSocket
        from scapy.contrib.isotp.isotp_scanner import scan as isotp_scan
        from scapy.layers.can import CAN, CANFD
        from scapy.supersocket import SuperSocket
    except ImportError:
        return False
    log_automotive.setLevel(logging.CRITICAL)
    globals().update(uds=uds, uds_scan=uds_scan, ISOTPSoftSocket=ISOTPSoftSocket, isotp_scan=isotp_scan, CANFD=CANFD)
    globals().update(wire=wire_class(SuperSocket, CAN, CANFD))
    return True


def wire_class(socket_class, packet_class, fd_class):
    """The class of a CAN socket over a run: frames go as lines, and those of some identifiers come back; those of CAN FD have a
    class of their own."""

    class Wire(socket_class):
        nonblocking_socket = True

        def __init__(self, run, *identifiers):  # pylint: disable=super-init-not-called
            self.run, self.closed = run, False
            self.came = {it: run.came[f"{it:0{digits(is_wide(it))}X}"] for it in identifiers}
            self.ins = self.outs = None

        def send(self, x):
            # (behind a frame's head of eight bytes stands its data, whatever layers of scapy's it is made of)
            data = bytes(x)[8:]
            flags = f"#{int(x.fd_flags):X}" if isinstance(x, fd_class) else ""
            self.run.send(f"{x.identifier:0{digits(x.flags.extended)}X}", flags + data.hex().upper())
            return len(data)

        def recv(self, x=0):
            for identifier, came in self.came.items():
                with contextlib.suppress(queue.Empty):
                    text = came.get_nowait()[1]
                    how = {"identifier": identifier, "flags": "extended" if is_wide(identifier) else 0}
                    if text.startswith("#"):
                        return fd_class(fd_flags=int(text[1], 16), data=bytes.fromhex(text[2:]), **how)
                    return packet_class(data=bytes.fromhex(text), **how)
            return None

        def waited(self, patience=5):
            """The next frame, waited for so many seconds."""
            end = time.monotonic() + patience
            while (found := self.recv()) is None and time.monotonic() < end:
                time.sleep(0.001)
            return found

        @staticmethod
        def select(sockets, remain=None):
            return [it for it in sockets if not all(came.empty() for came in it.came.values())]

        def close(self):
            self.closed = True

    return Wire


def is_wide(identifier):
    """Whether scapy takes an identifier for one of 29 bits."""
    return identifier > 0x7FF


def digits(is_extended):
    """How many digits an identifier has in a line."""
    return 8 if is_extended else 3


def tester(run, number, **how):
    """A tester of scapy: requests go as ISO-TP messages, and each has its answer."""
    return tester_by(run, 0x7E0 + number, 0x7E8 + number, **how)


def tester_by(run, request, response, **how):
    """The tester that asks and is answered by these identifiers."""
    return ISOTPSoftSocket(wire(run, response), tx_id=request, rx_id=response, basecls=uds.UDS, padding=True, **how)


def asks(socket, request, want):
    """What is wrong with the answer to a request, which is to be these bytes, in hex."""
    answer = socket.sr1(request, timeout=5, verbose=False)
    got = "nothing" if answer is None else bytes(answer).hex().upper()
    return "" if got == want else f"{request.summary()}: {got} in place of {want}; "


def session(kind):
    return uds.UDS() / uds.UDS_DSC(diagnosticSessionType=kind)


def read(identifier):
    return uds.UDS() / uds.UDS_RDBI(identifiers=[identifier])


def write(identifier, value):
    return uds.UDS(bytes([0x2E]) + identifier.to_bytes(2, "big") + bytes.fromhex(value))


def access(kind, key=""):
    return uds.UDS(bytes([0x27, kind]) + bytes.fromhex(key))


def routine(kind):
    return uds.UDS() / uds.UDS_RC(routineControlType=kind, routineIdentifier=0x0203)


# ---- runs


def whole_session(room, live):
    """A tester's session through the services, with long messages both ways."""
    with live.running(room, HEAD + live.SETUP + MORE) as run, tester(run, 0) as a, tester(run, 1) as b:
        wrong = asks(a, session(3), "5003003201F4") + asks(b, session(3), "7F1021")
        wrong += asks(a, access(1), "670111223344") + asks(a, access(2, "AABBCCDD"), "6702")
        wrong += asks(a, read(0xF191), f"62F191{LONG}") + asks(b, read(0xF191), f"62F191{LONG}")
        wrong += asks(a, write(0xF191, OTHER), "6EF191") + asks(b, read(0xF191), f"62F191{OTHER}")
        wrong += asks(a, routine(1), "71010203")
        time.sleep(0.2)
        wrong += asks(a, routine(3), "710302030001")
        wrong += asks(a, uds.UDS(bytes.fromhex("1902FF")), "5902FF0123452F")
        wrong += asks(a, uds.UDS(bytes.fromhex("14FFFFFF")), "54")
        wrong += asks(a, uds.UDS(bytes.fromhex("190A")), "590AFF01234550")
        wrong += asks(a, uds.UDS() / uds.UDS_TP(), "7E00") + asks(a, uds.UDS(bytes([0x23])), "7F2311")
        wrong += run.ends_well()
        live.told(not wrong, "scapy: a tester's session through the services", wrong)


def by_the_clock(room, live):
    """The session's end, and the delay after three wrong keys."""
    setup = HEAD + live.SETUP.replace("delay_ms = 2000", "delay_ms = 900")
    with live.running(room, setup) as run, tester(run, 0) as a, tester(run, 1) as b:
        wrong = asks(a, session(3), "5003003201F4")
        for seed, code in (("11223344", "35"), ("55667788", "35"), ("11223344", "36")):
            wrong += asks(a, access(1), f"6701{seed}") + asks(a, access(2, "00000000"), f"7F27{code}")
        wrong += asks(a, access(1), "7F2737")
        time.sleep(1.1)
        wrong += asks(a, access(1), "670155667788") + asks(a, access(2, "01020304"), "6702") + asks(b, session(3), "7F1021")
        time.sleep(2.3)
        wrong += asks(b, session(3), "5003003201F4") + asks(a, access(1), "7F277F")
        wrong += run.ends_well()
        live.told(not wrong, "scapy: the session's end, and the delay after three wrong keys", wrong)


def separation(room, live):
    """Long replies by the separation time that scapy asks for."""
    moments = []
    with live.running(room, HEAD + live.SETUP + MORE) as run:
        taken = run.came["7E8"]
        keep = taken.put
        taken.put = lambda it: (moments.append(it), keep(it))
        with tester(run, 0, stmin=10, bs=3) as a:
            wrong = "".join(asks(a, read(0xF191), f"62F191{LONG}") for _ in range(4))
        wrong += run.ends_well()
    frames = [it[1][:2] for it in moments]
    wrong += "" if frames == ["10", *(f"2{it}" for it in range(1, 10))] * 4 else f"{frames}"
    # within a block of three, which the next flow control ends
    gaps = [(y[0] - x[0]) * 1000 for x, y in itertools.pairwise(moments) if int(x[1][:2], 16) % 3 != 0 and x[1][0] == y[1][0] == "2"]
    live.told(not wrong, "scapy: long replies by its separation time", wrong)
    live.note(f"scapy: separation time 10 ms, seen from outside: {min(gaps):.1f} to {max(gaps):.1f} ms")


def two_at_once(room, live):
    """Two testers in threads of their own."""
    wrong = {0: "", 1: ""}

    def plays(run, number):
        with tester(run, number, stmin=1 + number) as it:
            for _ in range(6):
                wrong[number] += asks(it, read(0xF191), f"62F191{LONG}") + asks(it, write(0xF191, LONG), want[number])
                wrong[number] += asks(it, uds.UDS() / uds.UDS_TP(), "7E00")

    # only the holder may write
    want = {0: "6EF191", 1: "7F2E7F"}
    with live.running(room, HEAD + live.SETUP + MORE) as run:
        with tester(run, 0) as it:
            wrong[0] += asks(it, session(3), "5003003201F4")
        testers = [threading.Thread(target=plays, args=(run, it)) for it in wrong]
        for it in testers:
            it.start()
        for it in testers:
            it.join()
        more = wrong[0] + wrong[1] + run.ends_well()
        live.told(not more, "scapy: two testers at once", more)


def answered(results, code=0x11):
    """The scanner's requests, with their states, that weren't refused with this code, and those without an answer."""
    good = {(str(it.state), bytes(it.req)) for it in results if it.resp is not None and getattr(it.resp, "negativeResponseCode", 0) != code}
    return good, [bytes(it.req) for it in results if it.resp is None]


def scan(room, live):
    """scapy's scanner finds the services, sessions and data that the unit has, in each session."""
    quick = {"timeout": 1, "retry_if_none_received": False}
    how = {
        "UDS_ServiceEnumerator_kwargs": quick,
        "UDS_DSCEnumerator_kwargs": {**quick, "overwrite_timeout": False, "scan_range": range(1, 16), "delay_state_change": 0},
        "UDS_RDBIEnumerator_kwargs": {**quick, "scan_range": range(0xF188, 0xF198)},
        "UDS_SAEnumerator_kwargs": {**quick, "scan_range": range(1, 9, 2)},
        "UDS_RCEnumerator_kwargs": {**quick, "scan_range": range(0x200, 0x206), "type_list": [3]},
    }
    cases = [uds_scan.UDS_ServiceEnumerator, uds_scan.UDS_DSCEnumerator, uds_scan.UDS_TPEnumerator, uds_scan.UDS_RDBIEnumerator]
    cases += [uds_scan.UDS_SAEnumerator, uds_scan.UDS_RCEnumerator]
    with live.running(room, "s3_ms = 60000\n" + live.SETUP + MORE) as run, tester(run, 0) as a:
        scanner = uds_scan.UDS_Scanner(a, reset_handler=lambda: asks(a, session(1), ""), test_cases=cases, unittest=True, **how)
        scanner.scan(timeout=SCAN)
        wrong = scanned(live, scanner) + run.ends_well()
        live.told(not wrong, "scapy: its scanner", wrong)


def scanned(live, scanner):
    """What is wrong with what the scanner found."""
    kinds = {type(it).__name__: it.results for it in scanner.configuration.test_cases}
    wrong, asked = "", sum(len(it) for it in kinds.values())
    services, silent = answered(kinds["UDS_ServiceEnumerator"])
    for state in {it[0] for it in services}:
        got = {it[1][0] for it in services if it[0] == state}
        wrong += "" if got == SERVICES else f"services in {state}: {sorted(got)}; "
    sessions = {it[1][1] for it in answered(kinds["UDS_DSCEnumerator"], 0x12)[0]}
    data = {it[1] for it in answered(kinds["UDS_RDBIEnumerator"], 0x31)[0]}
    wrong += "" if sessions == {1, 3} else f"sessions {sessions}; "
    wrong += "" if data == {b"\x22\xF1\x90", b"\x22\xF1\x91"} else f"data {data}; "
    wrong += "" if not silent else f"no answer to {silent}; "
    live.note(f"scapy: its scanner asked {asked} times, in {len({it[0] for it in services})} states")
    return wrong


# ---- identifiers of 29 bits, by normal fixed addressing: two testers of them beside the one of 11 bits
WIDE = """
[[tester]]
name = "F1"
extended = true
request = 0x18DA10F1
response = 0x18DAF110

[[tester]]
name = "F2"
extended = true
request = 0x18DA10F2
response = 0x18DAF210
"""
EVERYONE = 0x18DB33F1


def wide_setup(live):
    return HEAD + live.SETUP + MORE + WIDE


def wide_session(room, live):
    """Testers of both kinds: one's session, with long messages both ways, and functional requests."""
    with live.running(room, wide_setup(live)) as run:
        with tester(run, 0) as a, tester_by(run, 0x18DA10F1, 0x18DAF110, stmin=1) as one, tester_by(run, 0x18DA10F2, 0x18DAF210) as other:
            wrong = asks(one, session(3), "5003003201F4") + asks(other, session(3), "7F1021") + asks(a, session(3), "7F1021")
            wrong += asks(one, access(1), "670111223344") + asks(one, access(2, "AABBCCDD"), "6702")
            wrong += asks(one, read(0xF191), f"62F191{LONG}") + asks(one, write(0xF191, OTHER), "6EF191")
            wrong += asks(a, read(0xF191), f"62F191{OTHER}") + asks(other, read(0xF191), f"62F191{OTHER}")
        # (asked by all, the unit answers each tester of 29 bits)
        with tester_by(run, EVERYONE, 0x18DAF110) as everyone:
            wrong += asks(everyone, uds.UDS() / uds.UDS_TP(), "7E00")
        wrong += "" if run.next("18DAF210")[1] == live.PRESENT and run.came["7E8"].empty() else "a functional request; "
        wrong += run.ends_well()
    live.told(not wrong, "scapy: a session by identifiers of 29 bits, beside a tester of 11", wrong)


def wide_scan(room, live):
    """scapy's scanner of ISO-TP finds whom the unit answers by 29 bits, and by which identifier."""
    want = {0x18DA10F1: 0x18DAF110, 0x18DA10F2: 0x18DAF210}
    with live.running(room, wide_setup(live)) as run:
        # (it listens for a short while alone, so the program has to be there by then)
        run.send("7E0", "023E00")
        wrong = "" if run.next("7E8")[1] == live.PRESENT else "nothing; "
        scanner = wire(run, *want.values())
        heard = isotp_scan(scanner, range(0x18DA10F0, 0x18DA10F4), extended_can_id=True, verify_results=False, sniff_time=0.3)
        found = {request: identifier for request, (_, identifier) in heard.items()}
        wrong += "" if found == want else f"{found}; "
        wrong += run.ends_well()
    live.told(not wrong, "scapy: its scanner of ISO-TP, by identifiers of 29 bits", wrong)


# ---- by CAN FD

FD = "\nfd = true\nfunctional = 0x7D0"
# the flags that Linux has for a frame of CAN FD: that it is one, and its bit rate switch
FD_FLAGS = "fd_frame+bit_rate_switch"


def fd_setup(live, tx_dl):
    """A setup whose first tester talks by CAN FD, and the second doesn't."""
    return f"tx_dl = {tx_dl}\n{live.SETUP.replace('response = 0x7E8', f'response = 0x7E8{FD}')}{MORE}"


def fd_answers(room, live):
    """scapy's ISO-TP takes the length of an answer's frames from its FirstFrame. The tester's own frames are classic, which the
    unit takes of one by CAN FD, too."""
    wrong = ""
    for tx_dl in LENGTHS:
        with live.running(room, fd_setup(live, tx_dl)) as run, tester(run, 0, stmin=1, bs=4) as a, tester(run, 1) as b:
            wrong += asks(a, session(3), "5003003201F4") + asks(b, session(3), "7F1021") + asks(a, write(0xF191, OTHER), "6EF191")
            wrong += asks(a, read(0xF191), f"62F191{OTHER}") + asks(b, read(0xF191), f"62F191{OTHER}")
            wrong += run.ends_well()
    live.told(not wrong, "scapy: answers in frames of CAN FD of each length", wrong)


def fd_frames(room, live):
    """scapy's frames of CAN FD, in which a request goes in one length after the other."""
    link = read_setup(live.SETUP)
    with live.running(room, fd_setup(live, 20)) as run:
        one = wire(run, 0x7E8)
        wrong = exchanges(one, [b"\x02\x10\x03"], "065003003201F4CC")
        for size in LENGTHS:
            wrong += exchanges(one, cut(link, b"\x2e\xf1\x91" + bytes.fromhex(LONG), size), "036EF191CCCCCCCC")
        wrong += exchanges(one, cut(link, b"\x22" + b"\xff\xff" * 20, 64), "037F2231CCCCCCCC")
        wrong += run.ends_well()
    live.told(not wrong, "scapy: its frames of CAN FD of each length", wrong)


def exchanges(one, frames, answer):
    """What is wrong with what comes to a request in these frames: behind the first of several FlowControl, and the answer."""
    first, *rest = (CANFD(identifier=0x7E0, fd_flags=FD_FLAGS, data=it) for it in frames)
    one.send(first)
    wrong = hears(one, "300000CCCCCCCCCC") if rest else ""
    for it in rest:
        one.send(it)
    return wrong + hears(one, answer)


def hears(one, want):
    """What is wrong with the next frame, which is to be one of CAN FD with these bytes."""
    found = one.waited()
    is_it = isinstance(found, CANFD) and (int(found.fd_flags), bytes(found.data)) == (1, bytes.fromhex(want))
    return "" if is_it else f"{found!r} in place of {want}; "


GROUPS = [whole_session, by_the_clock, separation, two_at_once, scan, wide_session, wide_scan, fd_answers, fd_frames]
