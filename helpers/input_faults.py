"""Words for the fault of a stream of images: which image, where in it, what stands there, what was expected, and what
to do. `pnmpipe-explain` uses it."""

import errno
import re

from image_stream import BLANKS, PIECE
from slow_reader import MOST_GAP, MOST_HEADER

KINDS = {"Bit": "PBM", "Gray": "PGM", "Color": "PPM", "Pam": "PAM"}

CONVERT = "Convert it first:\n"
MAGICK = "convert FILE ppm:- | pnmpipe '..'"
PRINTER = "Have the program that wrote it write PGM or PPM, as Ghostscript does by -sDEVICE=ppmraw."
DECOMPRESS = "Decompress it first:\n"
HEIF = "heif-convert FILE NEW.png && pngtopam NEW.png | pnmpipe '..'"
GHOSTSCRIPT = "gs -q -dBATCH -dNOPAUSE -sDEVICE=ppmraw -sOutputFile=- FILE | pnmpipe '..'"

TARGA = CONVERT + "tgatoppm FILE | pnmpipe '..'"

# a byte order mark and white space, where they are
MARK = rb"(?:\xef\xbb\xbf)?\s*"

# what the first bytes of other files are, and what makes images of them
OTHERS = [
    (rb"\xff\xd8\xff", "a JPEG file", CONVERT + "jpegtopnm FILE | pnmpipe '..'"),
    (rb"\x89PNG", "a PNG file", CONVERT + "pngtopam FILE | pnmpipe '..'"),
    (rb"GIF8", "a GIF file", CONVERT + "giftopnm FILE | pnmpipe '..'"),
    (rb"II\*\0|MM\0\*|II\+\0|MM\0\+", "a TIFF file", CONVERT + "tifftopnm FILE | pnmpipe '..'"),
    (rb"%PDF", "a PDF file", CONVERT + "pdftoppm -r 300 FILE | pnmpipe '..'"),
    (rb"%!", "a PostScript file", CONVERT + GHOSTSCRIPT),
    (rb"BM....\0\0\0\0", "a BMP file", CONVERT + "bmptopnm FILE | pnmpipe '..'"),
    (rb"RIFF....WEBP", "a WebP file", CONVERT + "dwebp FILE -ppm -o - | pnmpipe '..'"),
    (rb"\0\0\0\x0cjP  |\xff\x4f\xff\x51", "a JPEG 2000 file", CONVERT + "jpeg2ktopam FILE | pnmpipe '..'"),
    (rb"....ftyp(?:hei|mif|avif)", "a HEIF or AVIF file", CONVERT + HEIF),
    (rb"AT&TFORM", "a DjVu file", CONVERT + "ddjvu -format=ppm FILE | pnmpipe '..'"),
    (rb"P[Ff][ \n]", "a PFM file, whose samples are floating-point numbers", CONVERT + "pfmtopam FILE | pnmpipe '..'"),
    (rb"\x1f\x8b", "a file compressed by gzip", DECOMPRESS + "gzip -dc FILE | pnmpipe '..'"),
    (rb"BZh[1-9]", "a file compressed by bzip2", DECOMPRESS + "bzip2 -dc FILE | pnmpipe '..'"),
    (rb"\xfd7zXZ\0", "a file compressed by xz", DECOMPRESS + "xz -dc FILE | pnmpipe '..'"),
    (rb"\x28\xb5\x2f\xfd", "a file compressed by zstd", DECOMPRESS + "zstd -dc FILE | pnmpipe '..'"),
    (rb"PK\x03\x04", "a ZIP archive", "Unpack it first:\nunzip -p FILE | pnmpipe '..'"),
    (rb"RaS2PwgRaster\0", "a PWG raster file, for printers", PRINTER),
    (rb"UNIRAST\0", "a URF file (Apple raster), for printers", PRINTER),
    (rb"RaS[t23]|[t23]SaR", "a CUPS raster file, for printers", PRINTER),
    (rb"\xff\x0a|\0\0\0\x0cJXL ", "a JPEG XL file", CONVERT + "djxl FILE NEW.ppm && pnmpipe '..' < NEW.ppm"),
    (rb"\x97JB2\r\n\x1a\n", "a JBIG2 file", CONVERT + "jbig2dec -t pbm -o - FILE | pnmpipe '..'"),
    (rb"8BPS\0[\x01\x02]", "a Photoshop file (PSD)", CONVERT + MAGICK.replace("FILE", "'FILE[0]'")),
    (rb"\x76\x2f\x31\x01", "an OpenEXR file", CONVERT + MAGICK),
    (rb"(?:/\*.*?\*/\s*)?#define\s+\w*width\s+\d", "an XBM file", CONVERT + "xbmtopbm FILE | pnmpipe '..'"),
    (rb"/\* XPM \*/", "an XPM file", CONVERT + "xpmtoppm FILE | pnmpipe '..'"),
    (rb"YUV4MPEG2 ", "a Y4M video", CONVERT + "ffmpeg -v error -i FILE -f image2pipe -c:v ppm - | pnmpipe '..'"),
    (rb"\xff\xfe|\xfe\xff", "text in UTF-16", "PowerShell's > writes UTF-16: have the program write the file itself."),
    (rb"\xef\xbb\xbfP[1-7]", "an image after a byte order mark", "Remove the mark:\ntail -c +4 FILE | pnmpipe '..'"),
    (MARK + rb"<(?i:!doctype html|html)\b", "an HTML page", "Perhaps a server answered with it: get the image itself."),
    (MARK + rb"<(?:\?xml|!|svg)", "SVG or other XML", "If it is SVG:\nrsvg-convert FILE | pngtopam | pnmpipe '..'"),
    # TGA has no mark of its own: the kinds of its palette and pixels, no palette or one, and bits a pixel
    (rb".(?:\0[\x02\x03\x0a\x0b]\0{5}|\x01[\x01\x09].{5}).{8}[\x08\x0f\x10\x18\x20][\0-\x3f]", "a TGA file", TARGA),
]

BROKEN_OFF = "The file was cut short, or the program before the pipe failed. Get the file again."
BEGINS = "a Netpbm image begins with P1 to P7."
CORRECT = "Correct the header."
DOS = "The header's lines end with CR LF. The CR ends the header, so the LF is taken for the raster's first byte."
TRANSFER = "A transfer in text mode has changed LF to CR LF in it. Transfer it again, in binary mode."


def number_shown(number):
    """A number, or that it has too many digits."""
    return f"{number:,}" if number < 10**15 else f"more than {10**15 - 1:,}"


def counted(number, unit):
    """A number of things."""
    return f"{number_shown(number)} {unit}{'s' * (number != 1)}"


def shown(text, most=16):
    """Bytes as they stand, where they are a text, or by their numbers in hexadecimal."""
    text, more = text[:most], " .." if len(text) > most else ""
    if text and all(32 <= byte < 127 or byte in BLANKS for byte in text):
        return '"' + text.decode().translate({9: r"\t", 10: r"\n", 13: r"\r"}) + f'"{more}'
    return " ".join(f"{byte:02X}" for byte in text) + more + " (hexadecimal)"


def byte_shown(byte):
    """A byte in words."""
    names = {9: "a TAB", 10: "an LF", 13: "a CR", 32: "a blank"}
    return names.get(byte) or (f'"{chr(byte)}"' if 32 < byte < 127 else f"the byte {byte:02X} (hexadecimal)")


def image_words(image):
    """What is known of an image."""
    told = f"Image {image.number}"
    if image.head:
        kind, width, height, depth, maxval, _ = image.head
        told += f", {'plain ' * image.is_plain}{KINDS[kind]} of {width:,} by {height:,}"
        told += f", depth {depth}" * (kind == "Pam") + f", maxval {maxval:,}" * (kind != "Bit") + ","
    return f"{told} begins at byte {image.start:,}."


def place_of(image, index):
    """The row, the column and, of several, the plane of a sample."""
    _, width, _, depth, _, _ = image.head
    pixel, plane = divmod(index, depth)
    return f"row {pixel // width:,}, column {pixel % width:,}" + f", plane {plane}" * (depth > 1)


def in_words(name):
    """A fault's name as that of a function."""
    return re.sub("(?<=[a-z])(?=[A-Z])", "_", name).lower()


class Words:
    """The words for the fault that a reader has met: what is wrong, and what to do."""

    def __init__(self, reader, fault):
        self.stream, self.image, self.before, self.fault = reader.stream, reader.image, reader.before, fault
        self.at = f"byte {fault.at:,}"

    def sentences(self):
        """What is known of the image, what is wrong, and what to do."""
        name = in_words(str(self.fault))
        what, remedy = getattr(self, name)()
        is_begun = name not in ("empty_input", "bad_magic", "read_failed")
        return image_words(self.image) + " " if is_begun else "", what, remedy

    def hidden(self):
        """That the header of another image seems to stand in the raster, if it does."""
        image = self.before if str(self.fault) == "BadMagic" else self.image
        if image.hidden is None:
            return ""
        return f" Inside the raster, at byte {image.hidden:,}, the header of another image seems to stand."

    def empty_input(self):
        what = "The chain is good, and the input is empty."
        return what, "Check the program that should have written it, or the file's name."

    def bad_magic(self):
        text = self.stream.peek(PIECE)
        bare = text.lstrip(BLANKS)
        blanks = f"white space ({counted(len(text) - len(bare), 'byte')})"
        other = next(((what, remedy) for form, what, remedy in OTHERS if re.match(form, text, re.S)), None)
        if self.image.number > 1:
            return self.behind_image(text, bare, blanks, other)
        if other:
            return f"The input is {other[0]}; {BEGINS}", other[1]
        if re.match(rb"P[1-7]", bare):
            return f"The input begins with {blanks}; {BEGINS}", "Remove the white space."
        return f"The input begins with {shown(text)}; {BEGINS}", "Check the program that wrote it."

    def behind_image(self, text, bare, blanks, other):
        """What is wrong where something else than an image follows one."""
        ends = f"Image {self.before.number} ends at {self.at}, by the numbers in its header, and"
        if other:
            return f"{ends} {other[0]} follows; {BEGINS}", other[1]
        if not bare:
            remedy = f"Only another image may follow a raw one. Cut it off:\nhead -c {self.fault.at} FILE > NEW"
            return f"{ends} {blanks} follows.", remedy
        if self.before.has_lines_of_dos:
            return f"{ends} {shown(text)} follows. {DOS}", TRANSFER
        if self.hidden():
            remedy = "The image was cut short, and took the missing bytes from the next one. Get the file again."
            return f"{ends} {shown(text)} follows, which isn't an image.{self.hidden()}", remedy
        if re.match(rb"P[1-7]", bare):
            return f"{ends} {blanks} stands before the next image.", "Remove it: nothing may stand between raw images."
        remedy = "The header gives too small a size or maxval for its raster, or what follows has to be removed."
        return f"{ends} {shown(text)} follows, which isn't an image.", remedy

    def header_cut(self):
        text = self.stream.peek(MOST_HEADER)
        return f"The input ends at {self.at}, in the image's header: {shown(text, 60)}.", BROKEN_OFF

    def too_long(self):
        if self.image.raster is not None:
            what = f"In the {MOST_GAP:,} bytes before {self.at} no sample ends, and fewer are allowed."
            return what, "Look there for white space, a comment or a number of that length, and shorten it."
        if self.fault.what is not None:
            return f"The image's tuple type has {self.fault.what:,} bytes; at most 255 are allowed.", "Shorten it."
        what = f"The image's header doesn't end within {MOST_HEADER:,} bytes."
        return what, "It has very long comments, or it isn't an image at all."

    def bad_number(self):
        if isinstance(self.fault.what, bytes):
            return f"The header's line at {self.at} has no decimal number: {shown(self.fault.what, 60)}.", CORRECT
        at = self.fault.at - self.image.start
        text = self.stream.peek(at + 16)
        names = ["width", "height"] if text[1:2] in b"14" else ["width", "height", "maxval"]
        # a number that has begun goes on, unless a byte before this one has ended it
        index = self.fault.what - text[at - 1 : at].isdigit()
        wanted = f"a digit of the {names[index]}, or white space," if index < len(names) else "white space"
        wanted = "white space before the width" if at == 2 else wanted
        what = f"At {self.at} is {byte_shown(text[at])}, where {wanted} is expected: {shown(text[: at + 1], 60)}."
        return what, "Correct the header, or check whether bytes of another file got in there."

    def zero_size(self):
        names = [name for name, number in self.fault.what.items() if not number and name != "maxval"]
        return f"Its {' and '.join(names)} is 0.", "An image has a column, a row and a plane at least: leave it out."

    def too_large(self):
        width, height, depth = (self.fault.what[name] for name in ("width", "height", "depth"))
        size = f"{counted(width, 'column')}, {counted(height, 'row')} and {counted(depth, 'plane')}"
        most = "at most 16,777,216 columns, as many rows, 256 planes, and 16,777,216 samples a row"
        return f"It has {size}; pnmpipe takes {most}.", "Cut it into smaller ones, or use Netpbm's own tools."

    def bad_maxval(self):
        maxval = self.fault.what["maxval"]
        return f"Its maxval is {number_shown(maxval)}; it has to be 1 to 65,535.", CORRECT

    def bad_pam_line(self):
        text = self.fault.what
        if self.fault.at == self.image.start + 2:
            what = f"P7 is followed by {byte_shown(text[0])}, and a PAM header's first line ends with an LF alone."
            return what, TRANSFER if text == b"\r" else CORRECT
        if re.match(rb"[ \t\r]*(WIDTH|HEIGHT|DEPTH|MAXVAL)[ \t\r]*$", text):
            return f"The header's line at {self.at} lacks its number: {shown(text, 60)}.", CORRECT
        fields = "WIDTH, HEIGHT, DEPTH, MAXVAL, TUPLTYPE, ENDHDR or #"
        return f"The header's line at {self.at} begins with none of {fields}: {shown(text, 60)}.", CORRECT

    def duplicate_field(self):
        what = f"The header's line at {self.at} repeats a field: {shown(self.fault.what, 60)}."
        return what, "Leave one of them out."

    def missing_field(self):
        return f"The header lacks {' and '.join(self.fault.what)} before its line ENDHDR.", CORRECT

    def raster_cut(self):
        image, height = self.image, self.image.head[2]
        if image.is_plain:
            what = f"The input ends at {self.at}, and lacks {counted(self.fault.what, 'sample')} of {image.samples():,}"
            return f"{what}, from {place_of(image, image.seen)} on.", BROKEN_OFF
        whole = (self.fault.at - image.raster) // image.row_size()
        missing = counted(self.fault.what, "byte")
        what = f"The input ends at {self.at}, {missing} before the raster's end"
        what += f": {whole:,} of {height:,} rows {'is' if whole == 1 else 'are'} whole." if height > 1 else "."
        if not self.hidden():
            return what, BROKEN_OFF
        return what + self.hidden(), "An image was cut short, and took bytes from the next one. Get the file again."

    def sample_above_maxval(self):
        image, fault = self.image, self.fault
        index = image.seen if image.is_plain else (fault.at - image.raster) // image.sample_size()
        sample = number_shown(fault.what)
        what = f"At {self.at} ({place_of(image, index)}) is the sample {sample}, above the maxval {image.head[4]:,}."
        if image.has_lines_of_dos and not image.is_plain:
            return f"{what} {DOS}", TRANSFER
        if self.hidden():
            return what + self.hidden(), "An image was cut short, and took bytes from the next one. Get the file again."
        return what, "The header gives too low a maxval, or the raster belongs to another header."

    def bad_sample(self):
        image, byte = self.image, byte_shown(self.fault.what)
        if image.seen == image.samples():
            what = f"At {self.at}, right behind the last sample, is {byte}, where white space or the end is expected."
            return what, "Remove what follows, or correct the size in the header."
        wanted = "0, 1, white space or a comment" if image.head[0] == "Bit" else "a digit, white space or a comment"
        what = f"At {self.at}, for the sample at {place_of(image, image.seen)}, is {byte}, where {wanted} is expected."
        return what, "Correct it there. A comment goes from # to its line's end."

    def plain_in_stream(self):
        what = "It is plain, and a plain image stands alone: it can't follow another one."
        return what, "Make it raw first, with Netpbm's own tool:\npamcut < plain.pgm > raw.pgm"

    def read_failed(self):
        number = self.fault.what.errno
        if number == errno.EBADF:
            return "Standard input is closed.", "Name a file:\npnmpipe '..' < FILE"
        if number == errno.EAGAIN:
            return "Standard input is set not to wait (O_NONBLOCK).", "Send it through cat:\ncat FILE | pnmpipe '..'"
        return f"Standard input can't be read at {self.at}: {self.fault.what.strerror}.", "Look at the disk or device."
