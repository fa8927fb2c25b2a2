* Coins of 4 are paid and coins of 2 come back, 5 in all: 4 paid - 2 back = 5. At most three are paid, and at most four come back.
*
* Fractions of coins would do (paid = 3/2, back = 1/2), so a relaxation does not see it: no whole numbers do.
NAME coins
ROWS
 N number
 E sum
COLUMNS
 m1 'MARKER' 'INTORG'
 paid number 1 sum 4
 back number 1 sum -2
 m2 'MARKER' 'INTEND'
RHS
 rhs sum 5
BOUNDS
 UP bnd paid 3
 UP bnd back 4
ENDATA
