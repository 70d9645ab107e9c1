"""lettering.py: how wide texts are in a picture, so that none runs into another.

The widths are those of DejaVu Sans, the widest of the usual fonts without serifs: with any other one a text is narrower."""
WIDTHS = {28: "'ijlIJ", 35: " ,.·/:;\\|f-", 40: "()[]t!²³r", 52: '"*_`°sz?', 58: "cLFkvxyP",
          64: "TYaoeESbdghnpqu$0123456789{}µ", 70: "KAVBRXZC", 79: "UHNDG&OQ",
          86: "w#+<=>^~±M", 100: "%mW@…"}  # hundredths of the letters' size
WIDTH_OF = {character: width / 100 for width, characters in WIDTHS.items() for character in characters}
SIZE = 12  # pixels


def width_of(text, size=SIZE):
    """How wide a text is at most, in pixels."""
    return size * sum(WIDTH_OF.get(character, 1.0) for character in text)


def cut(text, room, size=SIZE):
    """A text, or if it is wider than the room as much of its beginning as fits, with … behind it."""
    if width_of(text, size) <= room:
        return text
    while text and width_of(text + "…", size) > room:
        text = text[:-1]
    return text + "…"
