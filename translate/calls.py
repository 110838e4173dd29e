"""Whole calls on the machine, as a driver makes them, so that the calls inside of them make sense."""
from machine import Block, Pointer

LEFT = 300  # steps in all


def lent(elements, width=8):
    return Pointer(Block(width, elements), 0), (64, len(elements))


def call(machine, name, arguments, crate='c2'):
    return machine.call(machine.exported(crate, name), arguments)


def pairs_of(count, registers, values):
    """c2_pairs; what is not named is any byte."""
    return (8, count), Block(8, registers), Block(8, values)


def some_pairs(rng, fpdat, counts=(0, 1, 2, 4)):
    """Pairs that pass 19, few registers among them, so that some come twice."""
    registers = [r for r in (3, 4, 0xB2, 0xEF, 255) if r != fpdat]
    return pairs_of(rng.choice(counts), rng.choices(registers, k=4), rng.choices((0, 1, 0x83), k=4))


def bad_pairs(rng, fpdat):
    """Pairs that 19 refuses, mostly."""
    made = some_pairs(rng, fpdat, (1, 4, 4, 5, 255))
    made[1].elements[rng.randrange(4)] = rng.choice((0, 2, 3, fpdat))
    return made


def c2(machine, rng):
    """Sessions against the modelled target, bad replies, damaged records and states, refused openings."""
    left = LEFT
    while left > 0:
        size = rng.choice((512, 1024))
        count = rng.choice((1, 2, 3))
        limit, fpdat = (8, rng.choice((1, 2, 20, 20, 255))), rng.randrange(3, 256)
        pairs = some_pairs(rng, fpdat)
        settings = (8, rng.randrange(256)), (8, fpdat), (32, size), (32, count), limit, pairs
        wanted = rng.choice((pairs, pairs, some_pairs(rng, fpdat)))
        image, flash = rng.choices(range(256), k=size), [0] * (size * count)
        record, delays, step = [0] * 32, rng.choices(range(256), k=rng.randrange(4)), 4
        refused = settings[:3] + ((32, rng.choice((0, 129, count))), (8, rng.choice((0, 20))), bad_pairs(rng, fpdat))
        call(machine, 'c2_open', [lent(record), lent(image), refused, (32, rng.randrange(200))])
        call(machine, 'c2_open', [lent(record), lent(image), settings, (32, rng.randrange(count))])
        target = call(machine, 'c2_target_fresh', [])
        for _ in range(rng.choice((40, 100, 200))):
            left -= 1
            _, (_, reply), target = call(machine, 'c2_target_step',
                                         [settings, wanted, target, lent(flash), lent(delays), (8, step)])
            steps = [0]
            reply = reply if rng.randrange(500) else rng.randrange(4)
            (_, number), _, _ = call(machine, 'c2_advance', [lent(record), lent(image), lent([reply]), lent(steps), (64, 0)])
            step = steps[0]
            if rng.randrange(12) == 0:
                beside(machine, rng, (settings, wanted, record, image, flash, delays, target))
            if number:
                break


def beside(machine, rng, kept):
    """Calls that leave the session as it is: on a copy of its record, damaged, and of the target's state."""
    settings, wanted, record, image, flash, delays, target = kept
    other = list(record)
    call(machine, 'c2_steps_left', [lent(other)])
    replies = rng.choices((0, 1, 1, 1, 2), k=rng.randrange(9))
    place = rng.choice((0, 1, 5, 2**32, 2**64 - 1))
    call(machine, 'c2_advance', [lent(list(other)), lent(image), lent(replies), lent([0] * rng.randrange(16)), (64, place)])
    other[rng.randrange(32)] ^= 1 << rng.randrange(8)
    call(machine, 'c2_steps_left', [lent(other)])
    call(machine, 'c2_advance', [lent(other), lent(image), lent(replies), lent([0] * 16), (64, 0)])
    k = rng.randrange(len(target))
    damaged = target[:k] + ((target[k][0], rng.randrange(12)),) + target[k + 1:]
    other = rng.choice((wanted, wanted, bad_pairs(rng, settings[1][1])))
    call(machine, 'c2_target_step', [settings, other, damaged, lent(list(flash)), lent(delays), (8, rng.randrange(9))])


def dump(machine, rng):
    """Dumps that are equal, that differ in some bytes or in every second one, and refused ones."""
    for _ in range(24):
        size = rng.choice((512, 1024))
        a = rng.choices(range(256), k=size * rng.choice((0, 1, 1, 2)))
        b = list(a)
        if a and rng.randrange(4) == 0:
            b = [byte ^ (1 - place % 2) for place, byte in enumerate(a)]
        for _ in range(rng.choice((0, 1, 3, 40)) if a else 0):
            b[rng.randrange(len(b))] ^= rng.randrange(1, 256)
        ranges = lent([0] * rng.choice((0, 1, 2, 3, 8, 100)), 64)
        for asked, other in ((size, b), (rng.choice((0, 511, 1024)), b), (size, b[1:])):
            call(machine, 'c2_dump_ranges', [(32, asked), lent(a), lent(other), ranges], 'dump')
            call(machine, 'c2_dump_first', [(32, asked), lent(a), lent(other)], 'dump')


def record(address, data, kind=0):
    """A line of a HEX file."""
    content = [len(data), address // 256 % 256, address % 256, kind] + data
    content.append(-sum(content) % 256)
    return list(b':' + bytes(content).hex().upper().encode() + b'\n')


def hex(machine, rng):
    """Files that are written and read back, files of scattered records, damaged ones, and buffers too short."""
    for _ in range(6):
        size, count = rng.choice(((512, 2), (1024, 1), (512, 3)))
        fpdat = rng.randrange(2, 256)
        pairs = some_pairs(rng, fpdat) if rng.randrange(4) else bad_pairs(rng, fpdat)
        settings = ((8, rng.randrange(256)), (8, fpdat), (32, size), (32, rng.choice((count, count, 0))),
                    (8, rng.choice((20, 1, 255, 0))), pairs)
        image, room = rng.choices(range(256), k=size), rng.choice((0, 511, size, size * count))
        file = [0] * (size // 16 * 44 + rng.choice((11, 12, 20)))
        call(machine, 'c2_hex_write', [settings, (32, rng.randrange(3)), lent(image), lent(file)], 'hex_calls')
        call(machine, 'c2_hex_read', [settings, lent(file), lent([0] * room)], 'hex_calls')
        scattered = []
        for _ in range(rng.randrange(1, 12)):
            scattered += record(rng.randrange(size * count), rng.choices(range(256), k=rng.choice((0, 1, 3, 16))))
        scattered += record(0, [], 1)
        call(machine, 'c2_hex_read', [settings, lent(scattered), lent([0] * room)], 'hex_calls')
        scattered[rng.randrange(len(scattered))] ^= 1 << rng.randrange(8)
        call(machine, 'c2_hex_read', [settings, lent(scattered[:rng.randrange(len(scattered) + 1)]), lent([0] * room)], 'hex_calls')


COMMANDS = (0x4B, 0x8C, 0x6B, 0x6C, 0x69, 0x6A, 0x6D, 0x6E, 0x58, 0x99, 0x70, 0x71, 0x6F)


def command(byte, *parameters):
    """The eight bytes of a command of the radio module."""
    content = [0xA5, byte, *parameters]
    return [0xA5, 0x5A, *content, sum(content) % 256]


def radio(machine, rng):
    """Jobs against the modelled module, every command to it, bad replies, damaged records and states, refused calls."""
    for length in (1, 300, 256):
        radio_job(machine, rng, length)
    flash = rng.choices(range(256), k=33024)
    for byte in COMMANDS + (0x00,) + COMMANDS:
        parameters = rng.choice((0, 1, 4, 5, 127, 128, 129)), rng.choice((0, 1, 2)), rng.randrange(256)
        message = command(byte, *parameters)
        room = rng.choice((256, 256, 300, 255, 8, 7))
        call(machine, 'radio_build', [(8, byte), *((8, p) for p in parameters), lent([0] * room)], 'radio')
        message[rng.randrange(8)] ^= rng.choice((0, 0, 1))
        call(machine, 'radio_read', [lent(message[:rng.choice((8, 8, 7))])], 'radio')
        state = rng.choice((((32, 0),) * 3, ((32, 0),) * 3, tuple((32, rng.randrange(5)) for _ in range(3))))
        call(machine, 'radio_target_step', [state, lent(flash[:rng.choice((33024, 33024, 33023))]), lent(message),
                                            lent([0] * room)], 'radio')


def radio_job(machine, rng, length):
    image, flash = rng.choices(range(256), k=length), rng.choices(range(1, 256), k=33024)
    mask = [0 if i in (2, 3) else rng.choice((0, 255)) for i in range(256)]
    data = rng.choices(range(256), k=256)
    for kept, room in ((519, 256), (520, 255), (520, 256)):
        held, out = [0] * kept, [0] * room
        _, (_, send), _ = call(machine, 'radio_open', [lent(held), lent(image), lent(mask), lent(data), lent(out)], 'radio')
    call(machine, 'radio_open', [lent(held[:]), lent(image), lent(mask[1:]), lent(data), lent(out[:])], 'radio')
    call(machine, 'radio_open', [lent(held[:]), lent([]), lent(mask), lent(data), lent(out[:])], 'radio')
    target, number = call(machine, 'radio_target_fresh', [], 'radio'), 0
    while number == 0:
        answer = [0] * 256
        _, (_, came), target = call(machine, 'radio_target_step', [target, lent(flash), lent(out[:send]), lent(answer)], 'radio')
        beside_radio(machine, rng, held, image, answer[:came])
        (_, number), _, _, (_, send), _ = call(
            machine, 'radio_advance', [lent(held), lent(image), lent(answer[:came]), lent(out)], 'radio')
    beside_radio(machine, rng, held, image, [])


def beside_radio(machine, rng, held, image, reply):
    """Calls that leave the job as it is: on copies of its record, with damaged replies, other images, no room."""
    damaged, other = list(held), list(reply)
    damaged[rng.choice((0, 256, rng.randrange(512, 520)))] ^= 1 << rng.randrange(8)
    if other:
        other[rng.randrange(len(other))] ^= 1 << rng.randrange(8)
    error = command(0x99, rng.randrange(9), 0, 0)
    for record, lent_image, answer, room in ((damaged, image, reply, 256), (list(held), image, other, 256),
                                             (list(held), image, error, 256), (list(held), image[1:], reply, 256),
                                             (list(held), image, reply[1:], rng.choice((255, 256, 300)))):
        call(machine, 'radio_advance', [lent(record), lent(lent_image), lent(answer), lent([0] * room)], 'radio')


CALLS = {'c2': c2, 'dump': dump, 'hex_calls': hex, 'radio': radio}
