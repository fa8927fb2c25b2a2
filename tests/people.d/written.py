"""Certificates of other writers: what VIPR 1.0 allows beyond what bnc writes, and what it doesn't. Each has a model, and the claim or a word of the
refusal."""

HALF = """NAME half
ROWS
 N obj
 G r
COLUMNS
 m 'MARKER' 'INTORG'
 x obj 1 r 2
 y obj 1 r 2
 m 'MARKER' 'INTEND'
RHS
 rhs r 3
BOUNDS
 UP b x 4
 UP b y 4
ENDATA
"""

EQUAL = """NAME equal
ROWS
 N obj
 E r
 E s
COLUMNS
 m 'MARKER' 'INTORG'
 x obj 1 r 1
 x s 1
 y r 1 s -1
 m 'MARKER' 'INTEND'
RHS
 rhs r 4 s 2
BOUNDS
 UP b x 4
 UP b y 4
ENDATA
"""

MAXIMISED = """NAME two
OBJSENSE MAX
ROWS
 N obj
 L r
COLUMNS
 m 'MARKER' 'INTORG'
 x obj 1 r 2
 m 'MARKER' 'INTEND'
RHS
 rhs r 5
BOUNDS
 UP b x 5
ENDATA
"""

HALF_HEAD = "VER 1.0\nVAR 2\nx\ny\nINT 2\n0 1\nOBJ min\n2 0 1 1 1\nCON 5 4\nR0 G 3 2 0 2 1 2\nL0 G 0 1 0 1\nU0 L 4 1 0 1\nL1 G 0 1 1 1\nU1 L 4 1 1 1\n"
HALF_CLAIM = HALF_HEAD + "RTP range 2 2\nSOL 1\nS0 2 0 1 1 1\n"
HALF_PLAIN = HALF_CLAIM + "DER 1\nN0 G 2 2 0 1 1 1 { rnd 1 0 1/2 } -1\n"
# the branches x <= 0 and x >= 1: in both the objective is at least 2
HALF_SPLIT = HALF_CLAIM + ("DER 5\nA1 L 0 1 0 1 { asm } -1\nA2 G 1 1 0 1 { asm } -1\nN1 G 2 2 0 1 1 1 { rnd 1 0 1/2 } -1\n"
                           "N2 G 2 2 0 1 1 1 { rnd 1 0 1/2 } -1\nN0 G 2 2 0 1 1 1 { uns 7 5 8 6 } -1\n")

EQUAL_HEAD = ("VER 1.0\nVAR 2\nx\ny\nINT 2\n0 1\nOBJ min\n1 0 1\nCON 6 4\nr E 4 2 0 1 1 1\ns E 2 2 0 1 1 -1\nL0 G 0 1 0 1\nU0 L 4 1 0 1\nL1 G 0 1 1 1\n"
              "U1 L 4 1 1 1\n")
EQUAL_CLAIM = EQUAL_HEAD + "RTP range 3 3\nSOL 1\nbest 2 0 3 1 1\n"

MAX_HEAD = "VER 1.0\nVAR 1\nx\nINT 1\n0\nOBJ max\n1 0 1\nCON 3 2\nR0 L 5 1 0 2\nL0 G 0 1 0 1\nU0 L 5 1 0 1\n"
MAX_CLAIM = MAX_HEAD + "RTP range 2 2\nSOL 1\nS0 1 0 2\n"
MAX_CUT = MAX_CLAIM + "DER 2\nK0 G -2 1 0 -1 { rnd 1 0 -1/2 } -1\nN0 L 2 1 0 1 { lin 1 3 -1 } -1\n"


def edited(text, *pairs):
    """A text with pieces replaced, each of which stands there once."""
    for old, new in pairs:
        if text.count(old) != 1:
            raise ValueError(f"{old!r} stands there {text.count(old)} times")
        text = text.replace(old, new)
    return text


TAKEN = [
    ("as bnc writes it", HALF, HALF_PLAIN, "optimal 2"),
    ("a split", HALF, HALF_SPLIT, "optimal 2"),
    ("the branches of a split in the other order", HALF, edited(HALF_SPLIT, ("uns 7 5 8 6", "uns 8 6 7 5")), "optimal 2"),
    ("comments in front", HALF, "% by hand\n  % and more\n\n" + HALF_PLAIN, "optimal 2"),
    ("blanks, tabs, and lines that are broken anywhere", HALF, HALF_PLAIN.replace("\n", " ").replace(" { ", "\n\t{\n").replace(" ", "  ", 9), "optimal 2"),
    ("CR LF", HALF, HALF_PLAIN.replace("\n", "\r\n"), "optimal 2"),
    ("no line feed at the end", HALF, HALF_PLAIN[:-1], "optimal 2"),
    ("rows in another order", HALF, edited(HALF_PLAIN, ("R0 G 3 2 0 2 1 2\nL0 G 0 1 0 1\n", "lo G 0 1 0 1\nrow G 3 2 0 2 1 2\n"), ("1 0 1/2", "1 1 1/2")),
     "optimal 2"),
    ("columns in another order", HALF, edited(HALF_PLAIN, ("x\ny\n", "y\nx\n")), "optimal 2"),
    ("lists that don't rise, and a 0 in them", EQUAL, edited(EQUAL_CLAIM, ("1 0 1\nCON", "2 1 0 0 1\nCON"), ("2 0 1 1 -1", "2 1 -1 0 1"))
     + "DER 1\nd G 3 1 0 1 { lin 2 1 1/2 0 1/2 } -1\n", "optimal 3"),
    ("an E row that is derived, and shows both directions", EQUAL, EQUAL_CLAIM + "DER 2\ne E 3 1 0 1 { lin 2 0 1/2 1 1/2 } -1\nd G 3 1 0 1 { lin 1 6 1 } -1\n",
     "optimal 3"),
    ("an E row at the end", EQUAL, EQUAL_CLAIM + "DER 1\ne E 3 1 0 1 { lin 2 0 1/2 1 1/2 } -1\n", "optimal 3"),
    ("an E row of the model as two rows", EQUAL, edited(EQUAL_CLAIM, ("CON 6 4", "CON 7 4"), ("r E 4 2 0 1 1 1", "r1 G 4 2 0 1 1 1\nr2 L 4 2 0 1 1 1"))
     + "DER 1\nd G 3 1 0 1 { lin 2 0 1/2 2 1/2 } -1\n", "optimal 3"),
    ("OBJ for the objective's list", HALF, HALF_CLAIM + "DER 1\nN0 G 2 OBJ { rnd 1 0 1/2 } -1\n", "optimal 2"),
    ("a bound from a point (sol)", HALF, HALF_CLAIM + "DER 2\nc L 2 OBJ { sol } -1\nN0 G 2 OBJ { rnd 1 0 1/2 } -1\n", "optimal 2"),
    ("a range of several numbers", HALF, edited(HALF_PLAIN, ("range 2 2", "range 1 3")), "range 1 3"),
    ("a range without ends", HALF, edited(HALF_PLAIN, ("range 2 2", "range -inf inf")), "range -inf inf"),
    ("no point where no upper end is claimed", HALF, edited(HALF_PLAIN, ("range 2 2", "range 2 inf"), ("SOL 1\nS0 2 0 1 1 1\n", "SOL 0\n")), "range 2 inf"),
    ("numbers that aren't in lowest terms", HALF, edited(HALF_PLAIN, ("1 0 1/2 }", "1 0 3/6 }")), "optimal 2"),
    ("several points, the best not first", HALF, edited(HALF_PLAIN, ("SOL 1\n", "SOL 2\nbad 2 0 4 1 4\n")), "optimal 2"),
    ("a last number that tells the last use", HALF, edited(HALF_SPLIT, ("A1 L 0 1 0 1 { asm } -1", "A1 L 0 1 0 1 { asm } 9")), "optimal 2"),
    ("an absurd sum of the other sense", HALF, HALF_CLAIM + "DER 3\na L 0 2 0 1 1 1 { asm } -1\nb G 9 1 0 1 { lin 2 0 -1/2 5 1 } -1\n"
     "N0 G 2 OBJ { rnd 1 0 1/2 } -1\n", "optimal 2"),
    ("a maximised model", MAXIMISED, MAX_CUT, "optimal 2"),
    ("a maximised model, by an L row that is rounded down", MAXIMISED, MAX_CLAIM + "DER 1\nN0 L 2 1 0 1 { rnd 1 0 1/2 } -1\n", "optimal 2"),
    ("a maximised model, with a range", MAXIMISED, edited(MAX_CLAIM, ("range 2 2", "range 1 3")) + "DER 1\nN0 L 2 1 0 1 { rnd 1 0 1/2 } -1\n", "range 1 3"),
    ("a maximised model, with sol", MAXIMISED, MAX_CLAIM + "DER 2\nc G 2 OBJ { sol } -1\nN0 L 2 OBJ { rnd 1 0 1/2 } -1\n", "optimal 2"),
]

REFUSED = [
    ("an incomplete derivation", HALF, HALF_CLAIM + "DER 1\nN0 G 2 OBJ { lin incomplete 0 1 } -1\n", ":19: N0 is an incomplete derivation"),
    ("a weak derivation", HALF, HALF_CLAIM + "DER 1\nN0 G 2 OBJ { lin weak { 0 } 1 0 1 } -1\n", ":19: N0 is a weak derivation"),
    ("another version", HALF, edited(HALF_PLAIN, ("VER 1.0", "VER 1.1")), ":1: the version is 1.1"),
    ("a reason that VIPR 1.0 lacks", HALF, HALF_CLAIM + "DER 1\nN0 G 2 OBJ { triv } -1\n", ":19: N0 has no reason of VIPR 1.0: triv"),
    ("a comment behind VER", HALF, HALF_PLAIN.replace("OBJ min", "% no\nOBJ min"), "stands where OBJ should"),
    ("a point that breaks a row", HALF, edited(HALF_PLAIN, ("S0 2 0 1 1 1", "S0 1 0 1")), ":17: the point S0 breaks row r"),
    ("a point that breaks a bound", HALF, edited(HALF_PLAIN, ("S0 2 0 1 1 1", "S0 2 0 5 1 -3")), "breaks the upper bound of x"),
    ("a point that isn't whole", HALF, edited(HALF_PLAIN, ("S0 2 0 1 1 1", "S0 2 0 3/2 1 1/2")), "has 3/2 for x"),
    ("a point that doesn't reach the claim", HALF, edited(HALF_PLAIN, ("S0 2 0 1 1 1", "S0 2 0 2 1 1")), ":16: no listed point has an objective of at most 2"),
    ("a column that isn't integer", HALF, edited(HALF_PLAIN, ("INT 2\n0 1\n", "INT 1\n0\n")), ":5: the integer columns are 1, and all 2"),
    ("another direction", HALF, edited(HALF_PLAIN, ("OBJ min", "OBJ max")), "the direction of the certificate is not the model's"),
    ("another direction of the model", MAXIMISED, edited(MAX_CUT, ("OBJ max", "OBJ min")), "the direction of the certificate is not the model's"),
    ("another objective", HALF, edited(HALF_PLAIN, ("OBJ min\n2 0 1 1 1", "OBJ min\n2 0 1 1 2")), "the objective of the certificate is not the model's"),
    ("a row that is missing", HALF, edited(HALF_PLAIN, ("CON 5 4\nR0 G 3 2 0 2 1 2\n", "CON 4 4\n")), "row r of the model is missing"),
    ("a row too many", HALF, edited(HALF_PLAIN, ("CON 5 4\n", "CON 6 4\nX G 3 2 0 1 1 1\n")), ":10: X is no row and no bound of the model"),
    ("a row twice", HALF, edited(HALF_PLAIN, ("CON 5 4\n", "CON 6 4\nX G 3 2 0 2 1 2\n")), ":11: R0 is no row and no bound of the model, or stands there once more"),
    ("a tighter bound", HALF, edited(HALF_PLAIN, ("U0 L 4 1 0 1", "U0 L 3 1 0 1")), "U0 is no row and no bound of the model"),
    ("a column with another name", HALF, edited(HALF_PLAIN, ("x\ny\n", "x\nz\n")), ":2: the certificate has the column z where the model has y"),
    ("a wrong sign", EQUAL, EQUAL_CLAIM + "DER 1\nd G 3 1 0 1 { lin 3 0 1/2 1 1/2 2 -1 } -1\n", "its lines add up to an L row, which isn't absurd"),
    ("signs of both directions", HALF, HALF_CLAIM + "DER 1\nd G 2 OBJ { lin 2 0 1/2 1 -1 } -1\n", "the multiplier -1 of line 1, a G row, has the wrong sign"),
    ("a sum with other coefficients", HALF, HALF_CLAIM + "DER 1\nd G 2 OBJ { lin 2 0 1/2 1 1 } -1\n", "its lines add up to 2 times x, and it has 1"),
    ("a sum whose right side is too small", HALF, HALF_CLAIM + "DER 1\nd G 2 OBJ { lin 1 0 1/2 } -1\n", "its lines add up to the right side 3/2, and it has 2"),
    ("a rounded sum with a fraction", HALF, HALF_CLAIM + "DER 1\nd G 1 2 0 1/2 1 1/2 { rnd 1 0 1/4 } -1\n", "it is rounded, and the sum has 1/2 times x"),
    ("an E row from a G row", HALF, HALF_CLAIM + "DER 1\ne E 3 2 0 2 1 2 { lin 1 0 1 } -1\n", "derived line 1 of 1 (e, number 5)"),
    ("an E row that is rounded", EQUAL, EQUAL_CLAIM + "DER 1\ne E 4 2 0 1 1 1 { rnd 2 0 9/8 1 1/8 } -1\n", "it is rounded, and the sum has 5/4 times x"),
    ("the line itself", HALF, HALF_CLAIM + "DER 1\nd G 2 OBJ { lin 1 5 1 } -1\n", "it names line 5, which doesn't stand before it"),
    ("a later line", HALF, edited(HALF_SPLIT, ("uns 7 5 8 6", "uns 7 5 9 6")), "it names line 9, which doesn't stand before it"),
    ("a line twice", HALF, HALF_CLAIM + "DER 1\nd G 2 OBJ { rnd 2 0 1/4 0 1/4 } -1\n", "line 0 stands twice in a list"),
    ("a branch that is no assumption", HALF, edited(HALF_SPLIT, ("uns 7 5 8 6", "uns 7 2 8 6")), "line 2 is no assumption"),
    ("branches that leave a point out", HALF, edited(HALF_SPLIT, ("A2 G 1 1 0 1", "A2 G 2 1 0 1")), "its branches are at most 0 and at least 2"),
    ("branches of two sums", HALF, edited(HALF_SPLIT, ("A2 G 1 1 0 1", "A2 G 1 1 1 1")), "its branches have other coefficients"),
    ("branches with a fraction", HALF, edited(HALF_SPLIT, ("A1 L 0 1 0 1", "A1 L 1/2 1 0 1"), ("A2 G 1 1 0 1", "A2 G 3/2 1 0 1")), "its branches have a fraction"),
    ("two branches of one sense", HALF, edited(HALF_SPLIT, ("A2 G 1 1 0 1", "A2 L 1 1 0 1")), "its branches are not an L and a G row"),
    ("a case that doesn't show the line", HALF, edited(HALF_SPLIT, ("N1 G 2 2 0 1 1 1", "N1 G 1 2 0 1 1 1")), "line 7 doesn't dominate it"),
    ("an assumption at the end", HALF, HALF_CLAIM + "DER 2\na G 2 OBJ { asm } -1\nd G 2 OBJ { lin 1 5 1 } -1\n", ":20: the last line assumes line 5"),
    ("an assumption as the last line", HALF, HALF_CLAIM + "DER 1\na G 2 OBJ { asm } -1\n", "the last line assumes line 5"),
    ("a last line that shows less", HALF, edited(HALF_PLAIN, ("range 2 2", "range 3 2")), "doesn't show that the objective is at least 3"),
    ("infeasibility from a row that holds", HALF, edited(HALF_PLAIN, ("RTP range 2 2\nSOL 1\nS0 2 0 1 1 1\n", "RTP infeas\nSOL 0\n")), "isn't absurd"),
    ("sol without a point", HALF, edited(HALF_CLAIM, ("SOL 1\nS0 2 0 1 1 1\n", "SOL 0\n")) + "DER 1\nc L 2 OBJ { sol } -1\n", "no point is listed"),
    ("sol below the best point", HALF, HALF_CLAIM + "DER 1\nc L 1 OBJ { sol } -1\n", "the best listed point doesn't show it"),
    ("sol of the other sense", HALF, HALF_CLAIM + "DER 1\nc G 2 OBJ { sol } -1\n", "the best listed point doesn't show it"),
    ("sol of a maximised model, above the best point", MAXIMISED, MAX_CLAIM + "DER 1\nc G 3 OBJ { sol } -1\n", "the best listed point doesn't show it"),
    ("the lower end of a maximised model without its point", MAXIMISED, edited(MAX_CUT, ("S0 1 0 2", "S0 1 0 1")), "no listed point has an objective of at least 2"),
    ("the upper end of a maximised model that isn't shown", MAXIMISED, edited(MAX_CUT, ("range 2 2", "range 2 1")), "doesn't show that the objective is at most 1"),
    ("a G row in the place of an L row", MAXIMISED, edited(MAX_CUT, ("N0 L 2 1 0 1", "N0 G 2 1 0 1")), "add up to an L row"),
    ("fewer lines than are said", HALF, edited(HALF_PLAIN, ("DER 1", "DER 2")), "a part of a certificate: it ends where a derived line should stand"),
    ("more lines than are said", HALF, edited(HALF_SPLIT, ("DER 5", "DER 4")), "there is more behind the last derived line"),
    ("a denominator of 0", HALF, edited(HALF_PLAIN, ("1 0 1/2 }", "1 0 1/0 }")), "a denominator of 0"),
    ("a number with a sign", HALF, edited(HALF_PLAIN, ("1 0 1/2 }", "1 0 +1 }")), "+1 stands where"),
    ("a number with an underscore", HALF, edited(HALF_PLAIN, ("RTP range 2 2", "RTP range 2_0 2")), "2_0 stands where an end of the range should"),
    ("digits that aren't ASCII", HALF, edited(HALF_PLAIN, ("RTP range 2 2", "RTP range \u00b2 2")), "stands where an end of the range should"),
    ("a huge count of columns", HALF, edited(HALF_PLAIN, ("VAR 2", "VAR 99999999999999")), "stands there twice"),
    ("a column that isn't there", HALF, edited(HALF_PLAIN, ("S0 2 0 1 1 1", "S0 2 0 1 7 1")), "the number of a column is 7, and there are 2"),
]

# What only VIPR's rules allow is refused by `--strict`.
LOOSE = [title for title, *_ in TAKEN if title not in ("as bnc writes it", "a split", "a maximised model", "several points, the best not first",
                                                         "a maximised model, by an L row that is rounded down",
                                                         "a last number that tells the last use")]
