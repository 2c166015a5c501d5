"""Values a contract, settles the day file of standard input, makes it anew of its lists, and prints a refusal."""
import struct
import sys
from decimal import Decimal

import citronreef

print(citronreef.value("IR", Decimal("95.01")), "cents")
try:
    file = sys.stdin.buffer.read()
    day = citronreef.settle(file)
    print(day.amounts_cents, day.aud_cents, day.nzd_cents, day.resent)
    print(citronreef.mark(file, 0))
    _, marks_at, _, corrections_at, _, positions_at = struct.unpack_from("<6I", file)
    lists = file[marks_at:corrections_at], file[corrections_at:positions_at], file[positions_at:]
    print(citronreef.make(*lists) == file)
    citronreef.value("IR", Decimal("95.005"))
except citronreef.Refusal as refusal:
    print(refusal.number, refusal.index, refusal.words)
