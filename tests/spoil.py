"""Changes of valid files, for the scripts that spoil decks."""
WORDS = [b"0", b"-1", b"1", b"3", b"1E-40", b"-1E40", b"4000000000", b"0.000000001", b"1e400", b"999999999*1", b"2*",
         b"#", b"CONSTANT 1", b"INTERNAL 1 (FREE)", b"OPEN/CLOSE a.lpf 1 (FREE)", b"OPEN/CLOSE . 1 (FREE)", b"SS",
         b"TR", b"\xff", b"\0", b"\r", b"\t", b",",
         b"65537", b"1000000007"]


def spoilt(content, draw):
    """The content with one change."""
    lines = content.split(b"\n")
    at = draw.randrange(len(content) + 1)
    line = draw.randrange(len(lines))
    word = draw.choice(WORDS)
    change = draw.randrange(9)
    if change == 0:
        return content[:at] + bytes([draw.randrange(256)]) + content[at + 1:]
    if change == 1:
        return content[:at] + content[at + draw.randrange(1, 4):]
    if change == 2:
        return content[:at] + content[max(0, at - draw.randrange(1, 20)):]
    if change == 3:
        return content[:at]
    if change == 4:
        lines[line:line + 1] = []
    elif change == 5:
        lines[line:line + 1] = [lines[line]] * draw.choice([2, 3, 50])
    elif change == 6:
        other = draw.randrange(len(lines))
        lines[line], lines[other] = lines[other], lines[line]
    elif change == 7:
        words = lines[line].split(b" ")
        words[draw.randrange(len(words))] = word
        lines[line] = b" ".join(words)
    else:
        return content[:at] + word + content[at:]
    return b"\n".join(lines)
