"""The program of client.c in Python, by ctypes: the same records and the same output. A refusal is raised."""
import ctypes
import decimal
import struct

PLAN_MAX, RECORD_MAX = 2147, 2048  # sizes that suffice for anything accepted
DIGITS = 0, 1, 15, 16, 17  # the roles of digits in a plan
NAMES = "OK TEXT SYMBOL LONG SHAPE DIGITS VALUE ROOM SIZE LENGTH CONVERSION COUNT PLAN INPUT FULL".split()

library = ctypes.CDLL("libmorvenka.so.3")


class Refused(Exception):
    pass


def call(name, *runs):
    """The length that a call answers. Each run is bytes, or a buffer for the lent one."""
    function = getattr(library, name)
    function.argtypes = [ctypes.c_char_p, ctypes.c_size_t] * len(runs)
    function.restype = ctypes.c_uint64
    answer = function(*(word for run in runs for word in (run, len(run))))
    number, field, length = answer % 256, answer // 256 % 256, answer // 65536
    if number != 0:
        raise Refused(f"refused with {number}, {NAMES[number]}, at field {field}")
    return length


def compiled(layout):
    plan = ctypes.create_string_buffer(PLAN_MAX)
    return plan[: call("morvenka_compile", layout, plan)]


def read(plan, record):
    row = ctypes.create_string_buffer(8 * plan[0])
    call("morvenka_plan_read", plan, record, row)
    return struct.unpack(f"<{plan[0]}q", row)


def edited(plan, numbers):
    record = ctypes.create_string_buffer(RECORD_MAX)
    return record[: call("morvenka_plan_edit", plan, struct.pack(f"<{len(numbers)}q", *numbers), record)]


def width(plan, field):
    return plan[3 * field - 2]


def scale(plan, field):
    """The scale of a field, counted from 1, by the bytes of an accepted plan."""
    first = 3 + 3 * plan[0] + sum(width(plan, before) for before in range(1, field))
    vee = plan[3 * field - 1]
    return sum(role in DIGITS for role in plan[first + vee : first + width(plan, field)])


def show(plan, what, record):
    numbers = read(plan, record)
    for field, m in enumerate(numbers, 1):
        amount = decimal.Decimal(m).scaleb(-scale(plan, field))
        print(f"{what}: field {field} is {amount:f}")
    print(f'{what}: "{edited(plan, numbers).decode()}"')


plan = compiled(b"ZZ,ZZ9V.99;$$,$$9V.99CR;(3)Z9;9999V9T;")
print(f"layout: {plan[0]} fields, {sum(width(plan, field) for field in range(1, plan[0] + 1))} characters")
for what, record in (
    ("weighed", b" 1,250.50  $312.62CR  4200184C"),
    ("corrected", b"     0.75    $0.05CR  4300245}"),
    ("missed", b"           $312.62CR  4400000{"),
):
    try:
        show(plan, what, record)
    except Refused as refusal:
        print(f"{what}: {refusal}")
