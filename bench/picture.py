"""Line plots in a PNG file, with nothing but Python's own library: a canvas of pixels, letters, axes."""
import math
import struct
import zlib

# Letters of 5 by 7 points, seven rows each; a row's five bits are written as two octal digits.
LETTERS = {
    "0": "16212325312116", "1": "04140404040416", "2": "16210102041037", "3": "37020402012116", "4": "02061222370202",
    "5": "37203601012116", "6": "06102036212116", "7": "37010204101010", "8": "16212116212116", "9": "16212117010214",
    "A": "16212137212121", "B": "36212136212136", "C": "16212020202116", "D": "34222121212234", "E": "37202036202037",
    "F": "37202036202020", "G": "16212027212117", "H": "21212137212121", "I": "16040404040416", "J": "07020202022214",
    "K": "21222430242221", "L": "20202020202037", "M": "21332525212121", "N": "21213125232121", "O": "16212121212116",
    "P": "36212136202020", "Q": "16212121252215", "R": "36212136242221", "S": "17202016010136", "T": "37040404040404",
    "U": "21212121212116", "V": "21212121211204", "W": "21212125252512", "X": "21211204122121", "Y": "21211204040404",
    "Z": "37010204102037", ".": "00000000001414", ",": "00000000140410", "-": "00000037000000", "/": "00010204102000",
    "(": "02041010100402", ")": "10040202020410", ":": "00141400141400", "=": "00003700370000",
    "+": "00040437040400", "%": "30310204101303", " ": "00000000000000",
}
WHITE, BLACK, GREY, PALE = (255, 255, 255), (30, 30, 30), (120, 120, 120), (225, 225, 225)


class Canvas:
    def __init__(self, width, height):
        self.width, self.height = width, height
        self.pixels = bytearray(WHITE * (width * height))

    def blend(self, x, y, colour, part):
        """Mixes a colour into a pixel; part is 0 to 1."""
        if 0 <= x < self.width and 0 <= y < self.height and part > 0:
            at = 3 * (y * self.width + x)
            for i in range(3):
                self.pixels[at + i] = round(self.pixels[at + i] * (1 - part) + colour[i] * part)

    def line(self, x0, y0, x1, y1, colour, width=1.0):
        """A line with soft edges: each pixel by its distance from the line."""
        reach = width / 2 + 1
        length = (x1 - x0) ** 2 + (y1 - y0) ** 2
        for y in range(math.floor(min(y0, y1) - reach), math.ceil(max(y0, y1) + reach) + 1):
            for x in range(math.floor(min(x0, x1) - reach), math.ceil(max(x0, x1) + reach) + 1):
                t = 0 if length == 0 else max(0, min(1, ((x - x0) * (x1 - x0) + (y - y0) * (y1 - y0)) / length))
                distance = math.hypot(x - x0 - t * (x1 - x0), y - y0 - t * (y1 - y0))
                self.blend(x, y, colour, max(0, min(1, width / 2 + 0.5 - distance)))

    def dot(self, x, y, colour, radius=4):
        self.line(x, y, x, y, colour, 2 * radius)

    def text(self, x, y, words, colour=BLACK, scale=2, anchor=0.0, upright=False):
        """Words in capitals. x, y is the top left corner; anchor 0.5 centres them there, 1 puts their end there."""
        words = words.upper()
        long = (6 * len(words) - 1) * scale
        if upright:
            y += round(anchor * long)
        else:
            x -= round(anchor * long)
        for n, letter in enumerate(words):
            rows = LETTERS[letter]
            for row in range(7):
                bits = int(rows[2 * row:2 * row + 2], 8)
                for column in range(5):
                    if not bits >> (4 - column) & 1:
                        continue
                    for i in range(scale):
                        for j in range(scale):
                            along, across = (6 * n + column) * scale + i, row * scale + j
                            if upright:
                                self.blend(x + across, y - along, colour, 1)
                            else:
                                self.blend(x + along, y + across, colour, 1)

    def save(self, path):
        def chunk(kind, data):
            return struct.pack(">I", len(data)) + kind + data + struct.pack(">I", zlib.crc32(kind + data))

        rows = b"".join(b"\0" + self.pixels[3 * self.width * y:3 * self.width * (y + 1)] for y in range(self.height))
        with open(path, "wb") as file:
            file.write(b"\x89PNG\r\n\x1a\n" + chunk(b"IHDR", struct.pack(">IIBBBBB", self.width, self.height, 8, 2, 0, 0, 0))
                       + chunk(b"IDAT", zlib.compress(rows, 9)) + chunk(b"IEND", b""))


def short(value):
    """A label of an axis: 1000 as 1,000, small numbers as they are."""
    return f"{value:,.0f}" if value >= 1 or value == 0 else f"{value:.6f}".rstrip("0")


class Panel:
    """One plot. Both axes count in powers of ten, or `by_one` the lower one in steps of 1."""

    def __init__(self, canvas, box, title, across, up, lines, by_one=False):
        self.canvas, self.by_one = canvas, by_one
        left, top, width, height = box
        self.x0, self.x1, self.y0, self.y1 = left + 108, left + width - 36, top + height - 62, top + 40
        xs = [x for _, _, points in lines for x, _ in points]
        ys = [y for _, _, points in lines for _, y in points]
        self.low_x, self.high_x = (min(xs), max(xs)) if by_one else (math.log10(min(xs)), math.log10(max(xs)))
        self.low_y, self.high_y = math.floor(math.log10(min(ys))), math.ceil(math.log10(max(ys)))
        self.axes(title, across, up, xs)
        for _, colour, points in lines:
            places = [self.place(x, y) for x, y in points]
            for (a, b), (c, d) in zip(places, places[1:]):
                canvas.line(a, b, c, d, colour, 2.4)
            for a, b in places:
                canvas.dot(a, b, colour)

    def place(self, x, y):
        across = ((x if self.by_one else math.log10(x)) - self.low_x) / (self.high_x - self.low_x or 1)
        up = (math.log10(y) - self.low_y) / (self.high_y - self.low_y or 1)
        return self.x0 + across * (self.x1 - self.x0), self.y0 - up * (self.y0 - self.y1)

    def axes(self, title, across, up, xs):
        c = self.canvas
        for power in range(self.low_y, self.high_y + 1):
            _, y = self.place(xs[0], 10.0 ** power)
            c.line(self.x0, y, self.x1, y, PALE)
            c.text(self.x0 - 10, round(y) - 6, short(10.0 ** power), GREY, anchor=1)
        begin = self.x1 + 1000
        for x in sorted(set(xs), reverse=True):
            at, _ = self.place(x, 10.0 ** self.low_y)
            c.line(at, self.y0, at, self.y1, PALE)
            label = short(x)
            half = 6 * len(label)
            if at + half < begin:  # labels that would touch are left out, the last one never
                c.text(round(at), self.y0 + 10, label, GREY, anchor=0.5)
                begin = at - half - 6
        c.line(self.x0, self.y0, self.x1, self.y0, BLACK)
        c.line(self.x0, self.y0, self.x0, self.y1, BLACK)
        c.text(self.x0, self.y1 - 28, title)
        c.text((self.x0 + self.x1) // 2, self.y0 + 34, across, anchor=0.5)
        c.text(self.x0 - 98, (self.y0 + self.y1) // 2, up, anchor=0.5, upright=True)
