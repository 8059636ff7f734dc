"""Names that reach the corners of the case rule and of the keyword list."""

WORDS = """joystick motor lift tray seat back leg rest headrest button axis speed dead_zone curve angle
limit brake light horn battery level volt amp profile user bench fitting wheel chair arm tilt
recline gyro can_bus node id count name kind mode state fault code offset gain scale unit""".split()

# Every word that ident.rs lists, and the ones it suffixes.
KEYWORDS = """as break const continue else enum false fn for if impl in let loop match mod move mut
pub ref return static struct trait true type unsafe use where while dyn abstract become box do final
macro override priv typeof unsized virtual yield async await try gen super self Self extern
crate""".split()

ODD = """HTTPServer XYz a1B A1Bc _1 _1_A __x x__ X1Y2z ABCDef aBC abC1D IOError i2c I2C_BUS Box Vec
Option String None Some Value OneOf r_type R2D2 x1 X_1 _a_ a_1b Ab1Cd MAX_u8 key value u32 bool i32
core std prost alloc google protobuf Message Debug m M f F Mode1 ModeSelf mode_SELF v1beta2 _2D _3_d
A B C aa AA aA Aa""".split()


def styled(rng, words):
    """The words as one name, in one of the usual styles."""
    style = rng.randrange(6)
    if style == 0:
        return "_".join(words)
    if style == 1:
        return "".join(word.capitalize() for word in words)
    if style == 2:
        return words[0] + "".join(word.capitalize() for word in words[1:])
    if style == 3:
        return "_".join(words).upper()
    if style == 4:
        return "".join(word.upper() if i % 2 else word.capitalize() for i, word in enumerate(words))
    return "_".join(word.capitalize() for word in words)


def name(rng, odd=0.25, most=64):
    """A name by document 01: `[A-Za-z_][A-Za-z0-9_]*` with a letter or digit, at most 64 bytes."""
    while True:
        found = candidate(rng, odd)
        if len(found) <= most and found.strip("_"):
            return found


def candidate(rng, odd):
    pick = rng.random()
    if pick >= odd:
        words = [rng.choice(WORDS) for _ in range(rng.choice((1, 1, 2, 2, 3)))]
        if rng.random() < 0.15:
            words.append(str(rng.randrange(100)))
        return styled(rng, words)
    if pick < odd / 3:
        word = rng.choice(KEYWORDS)
        return rng.choice((word, word, word.capitalize(), word.upper(), word + "_", "_" + word))
    if pick < odd * 2 / 3:
        return rng.choice(ODD)
    if pick < odd * 0.97:
        letters = "aAbBzZ019__"
        return rng.choice("aAbBzZ_") + "".join(rng.choice(letters) for _ in range(rng.randrange(8)))
    letters = "abcXYZ09_"
    return rng.choice("aX_") + "".join(rng.choice(letters) for _ in range(rng.randrange(40, 64)))


def bare(text):
    """The letters and digits of a name, in lower case. Names that differ in this differ as camel
    names too, however they are split, joined and sanitised."""
    return text.replace("_", "").lower()
