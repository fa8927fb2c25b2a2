NAME one
ROWS
 N obj
 G r
COLUMNS
 m 'MARKER' 'INTORG'
 x obj 3 r 1
 m 'MARKER' 'INTEND'
RHS
 rhs r 1
BOUNDS
 FX b x 2
ENDATA
