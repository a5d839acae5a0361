"""Every part from Python: prints a line for each, in the header's order.

Pages' status, answers of a put of the longest recipe and of one byte more, of
gets into buffers for it and of one byte less, of the same puts with a term and of
gets on days around it, of a cut with junk of the part and with junk of the part
that has pages of the other size.
"""
import ctypes as c

lib = c.CDLL("./libslipknoll.so")
for name in ("fresh", "send", "put", "put_term", "get", "cut"):
    getattr(lib, "slipknoll_" + name).restype = c.c_uint8


class Chip:
    def __init__(self, length):
        self.record, self.array = (c.c_uint8 * 765)(), (c.c_uint8 * length)()
        self.chip = (self.record, self.array, c.c_size_t(length))
        lib.slipknoll_fresh(self.record, bytes(64), self.array, c.c_size_t(length))

    def status(self):
        reply = (c.c_uint8 * 2)()
        lib.slipknoll_send(*self.chip, b"\xd7\x00", c.c_size_t(2), reply, c.c_size_t(2))
        return reply[1]

    def call(self, function, dates, data, length):
        """A call on slot 3 with poll limit 1; its answer, and n."""
        log, counts = (c.c_uint8 * 258)(), (c.c_uint64 * 3)()
        none = (b"\0", c.c_size_t(0))
        lent = (*none, *none, log, c.c_size_t(len(log)), counts)
        slot, limit = c.c_size_t(3), c.c_size_t(1)
        numbers = [c.c_uint32(number) for date in dates for number in date]
        return function(*self.chip, slot, limit, *numbers, data, c.c_size_t(length), *lent), counts[2]

    def put(self, recipe, *term):
        function = lib.slipknoll_put_term if term else lib.slipknoll_put
        return self.call(function, term, recipe, len(recipe))[0]

    def get(self, room, *today):
        buffer = (c.c_uint8 * room)()
        answer, n = self.call(lib.slipknoll_get, [today or (2026, 11, 16)], buffer, room)
        return answer, bytes(buffer[:n])

    def cut(self, length):
        return lib.slipknoll_cut(*self.chip, bytes(length), c.c_size_t(length))


for pages in (4096, 128):
    for page, other in ((264, 256), (256, 264)):
        chip, longest = Chip(pages * page), 8 * page - 3
        recipe = bytes(i % 251 for i in range(longest))
        puts = chip.put(recipe + b"!"), chip.put(recipe)
        gets = chip.get(longest - 1)[0], chip.get(longest) == (0, recipe)
        at = 3 * 8 * page
        stored = bytes(chip.array[at:at + 8 * page]) == bytes([1, longest >> 8, longest & 255]) + recipe
        term = (2096, 2, 29), (2100, 2, 28)
        terms = chip.put(recipe[7:], *term), chip.put(recipe[8:], *term)
        days = (2096, 2, 28), (2096, 2, 29), (2100, 2, 28), (2100, 3, 1), (2100, 2, 29)
        terms += tuple(chip.get(longest, *day)[0] for day in days)
        terms += (chip.get(longest, *term[0]) == (0, recipe[8:]),)
        cuts = chip.cut((pages + 2) * other), chip.cut((pages + 2) * page)
        print(pages, page, "%02X" % chip.status(), *puts, *gets, stored, *terms, *cuts)
