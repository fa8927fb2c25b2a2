* Weights of 10,000,000 and of 10,000,002 that are to make 100,000,001: even numbers cannot make an odd one, so there is no answer.
*
* A solver that computes in floating point accepts ten weights of 10,000,002, which are 19 too many: that is 2 parts in 10,000,000,
* within its tolerance. (glpsol of GLPK 5.0 answers `INTEGER OPTIMAL`, count = 10.)
NAME parity
ROWS
 N count
 E weight
COLUMNS
 m1 'MARKER' 'INTORG'
 light count 1 weight 10000000
 heavy count 1 weight 10000002
 m2 'MARKER' 'INTEND'
RHS
 rhs weight 100000001
BOUNDS
 UP bnd light 20
 UP bnd heavy 20
ENDATA
