"""Worked files with their whole texts, written out by hand, and the program's orders, for the scripts that run it.

`ORDERS` has a line for each order: what stands for `FILE` and `REPORT` is filled in by `words`. A new order is one line
more there, with its whole answer over the file `FRAME`; each script then asks it whatever it asks the others.
"""
import struct

from made_code import EBREAK, elf

FIVE = elf([0x00500513, EBREAK])  # addi a0,zero,5; ebreak
FIVE_REPORT = "affine-report 2\ntrack a0\nproc 0x10078\nat 0x10078\nnone\nat 0x1007c\nrel 1*a0 -5\nend\n"

# addi a0,zero,0; addi a0,a0,8; bne a0,a1,-4; ebreak: counts by 8 up to a1
COUNTING = elf([0x00000513, 0x00850513, 0xFEB51EE3, EBREAK])
COUNTING_REPORT = (
    "affine-report 2\ntrack a0\nproc 0x10078\nat 0x10078\nnone\n"
    + "".join(f"at {a:#x}\nrel 2305843009213693952*a0\n" for a in (0x1007C, 0x10080, 0x10084))
    + "end\n"
)

# A procedure that saves ra in its frame and may call itself.
RECURSION = elf([0x008000EF, EBREAK, 0xFF010113, 0x00113423, 0x00050463, 0xFF5FF0EF, 0x00813083, 0x01010113, 0x00008067])
RECURSION_LIST = "sp,ra,0x10080:-8"
SAVED = "rel 1*ra +4611686018427387903*0x10080:-8\nrel 4611686018427387904*0x10080:-8\n"
RECURSION_REPORT = (
    f"affine-report 2\ntrack {RECURSION_LIST}\nproc 0x10078\ncert sp never\ncert ra never\nat 0x10078\nnone\n"
    "at 0x1007c\nrel 1*ra -65660\nproc 0x10080\ncert sp granted\ncert ra granted\n"
    "at 0x10080\nrel 4611686018427387904*ra\nat 0x10084\nrel 4611686018427387904*ra\n"
    f"at 0x10088\n{SAVED}at 0x1008c\n{SAVED}"
    "at 0x10090\nrel 4611686018427387904*ra\nrel 4611686018427387904*0x10080:-8\n"
    f"at 0x10094\n{SAVED}at 0x10098\n{SAVED}end\n"
)

# Start code that sets sp and calls main by a pair; main has a frame of 32 bytes, and calls a leaf.
FRAME_LINES = [
    (0x00001117, "auipc sp,0x1"), (0xF8810113, "addi sp,sp,-120"), (0x00000097, "auipc ra,0x0"), (0x00C080E7, "jalr ra,12(ra)"),
    (EBREAK, "ebreak"), (0xFE010113, "addi sp,sp,-32"), (0x00813823, "sd s0,16(sp)"), (0x00113C23, "sd ra,24(sp)"),
    (0x00050413, "addi s0,a0,0"), (0x018000EF, "jal ra,24"), (0x00850533, "add a0,a0,s0"), (0x01813083, "ld ra,24(sp)"),
    (0x01013403, "ld s0,16(sp)"), (0x02010113, "addi sp,sp,32"), (0x00008067, "jalr zero,0(ra)"), (0x00251513, "slli a0,a0,2"),
    (0x00008067, "jalr zero,0(ra)"),
]
FRAME = elf([word for word, _ in FRAME_LINES])
FRAME_LIST = "sp,ra,s0,a0,0x1008c:-8,0x1008c:-16"
FRAME_PROCS = {0x10078: "never", 0x1008C: "granted", 0x100B4: "granted"}
QUARTER = ["rel 4*s0 +4611686018427387903*a0", "rel 4611686018427387904*a0"]
FIFTH = "rel 1*s0 +3689348814741910323*a0"
S0_SAVED, RA_SAVED = "rel 1*s0 -1*0x1008c:-16", "rel 1*0x1008c:-8 -65672"


def rel_sp(words):
    return f"rel 1*sp -{words}"


def rel_ra(address):
    return f"rel 1*ra -{address}"


FRAME_ROWS = [
    ["none"], [rel_sp(69752)], [rel_sp(69632)], [rel_sp(69632), rel_ra(65664)], [rel_sp(69632), rel_ra(65672)],
    [rel_sp(69632), rel_ra(65672)], [rel_sp(69600), rel_ra(65672)], [rel_sp(69600), rel_ra(65672), S0_SAVED],
    [rel_sp(69600), rel_ra(65672), S0_SAVED, RA_SAVED], [rel_sp(69600), rel_ra(65672), "rel 1*s0 -1*a0", RA_SAVED],
    [rel_sp(69600), rel_ra(65696)] + QUARTER + [RA_SAVED], [rel_sp(69600), rel_ra(65696), FIFTH, RA_SAVED],
    [rel_sp(69600), rel_ra(65672), FIFTH, RA_SAVED], [rel_sp(69600), rel_ra(65672), S0_SAVED, RA_SAVED],
    [rel_sp(69632), rel_ra(65672), S0_SAVED, RA_SAVED], [rel_sp(69600), rel_ra(65696), "rel 1*s0 -1*a0"],
    [rel_sp(69600), rel_ra(65696)] + QUARTER,
]


def told(first, track, at_proc, at_point):
    """The lines of a text over FRAME: its head, what stands below each `proc`, and for each point."""
    lines = [first] + track
    for i, (word, instruction) in enumerate(FRAME_LINES):
        address = 0x10078 + 4 * i
        if address in FRAME_PROCS:
            lines += [f"proc {address:#x}"] + at_proc(FRAME_PROCS[address])
        lines += at_point(i, address, word, instruction)
    return "".join(line + "\n" for line in lines + ["end"])


KEPT = ["sp", "ra", "s0"]
TRACK = [f"track {FRAME_LIST}"]
FRAME_REPORT = told("affine-report 2", TRACK, lambda c: [f"cert {r} {c}" for r in KEPT], lambda i, a, w, t: [f"at {a:#x}"] + FRAME_ROWS[i])
FRAME_OLD = told("affine-report 1", TRACK, lambda c: [], lambda i, a, w, t: [f"at {a:#x}"] + FRAME_ROWS[i])
FRAME_CERT = told("affine-cert 1", TRACK, lambda c: [f"{r} {c}" for r in KEPT], lambda i, a, w, t: [])
FRAME_CODE = told("affine-list 1", [], lambda c: [], lambda i, a, w, t: [f"{a:#x} {w:08x} {t}"])
NARROW_LIST = "sp,ra,0x1008c:-8"
NARROW_ROWS = [[row for row in rows if row == "none" or row == RA_SAVED or row[:8] in ("rel 1*sp", "rel 1*ra")] for rows in FRAME_ROWS]
FRAME_NARROW = told("affine-narrow 1", [f"track {NARROW_LIST}"], lambda c: [], lambda i, a, w, t: [f"at {a:#x}"] + NARROW_ROWS[i])
FRAME_BROKEN = "affine-refute 1\nbroken\nstart sp=0 ra=0 s0=0 a0=0\n1 open 0x10078\n2 step 1 0x1007c\npath 2\nvalue 69752\nend\n"
FRAME_VERDICT = "affine-run 1\nsteps 16\nstop break 0x10088\nend\n"
ONE = "affine-gen 1\nn 1\nbytes 164\npoints 11\nprocs 2\nrows 1\nunreached 0\nend\n"

USAGE = (
    "usage:\nanalyse FILE --track LIST\ncert FILE --track LIST\nlist FILE\nrun FILE REPORT --steps N [--regs R]\n"
    "gen N --track LIST\nupgrade FILE REPORT\nnarrow FILE --track LIST\nrefute FILE --track LIST --at POINT --row ROW\n"
)

# Each order over FRAME: its words, the text that REPORT is, or None, and its whole answer, with status 0.
ORDERS = {
    "analyse": ("analyse FILE --track " + FRAME_LIST, None, FRAME_REPORT),
    "cert": ("cert FILE --track " + FRAME_LIST, None, FRAME_CERT),
    "list": ("list FILE", None, FRAME_CODE),
    "run": ("run FILE REPORT --steps 100 --regs a0=3", FRAME_REPORT, FRAME_VERDICT),
    "upgrade": ("upgrade FILE REPORT", FRAME_OLD, FRAME_REPORT),
    "narrow": ("narrow FILE --track " + NARROW_LIST, None, FRAME_NARROW),
    "refute": ("refute FILE --track " + FRAME_LIST + " --at 0x10078,0x1007c --row 1*sp", None, FRAME_BROKEN),
    "gen": ("gen 1 --track a0", None, ONE),
}


def words(order, file="file.elf", report="file.report"):
    """The words of the order over these names."""
    return [{"FILE": file, "REPORT": report}.get(word, word) for word in ORDERS[order][0].split(" ")]


def reads_file(order):
    return "FILE" in ORDERS[order][0].split(" ")


def reads_report(order):
    return "REPORT" in ORDERS[order][0].split(" ")


def without_certificates(report):
    """A report of version 2 as it is in version 1."""
    lines = report.split("\n")[1:]
    return "\n".join(["affine-report 1"] + [line for line in lines if not line.startswith("cert ")])


def with_header(file, at, change):
    """The file with other bytes at one place."""
    return file[:at] + change + file[at + len(change):]


def number(value, size):
    return struct.pack("<Q", value)[:size]
