* A knapsack: which of five things to take, so that they weigh at most 15 and are worth the most.
*
* A worth is written with a minus sign, since the objective is minimised here (bakery.mps has one that is maximised). The most is 15, for all of
* them but the green one.
NAME knapsack
ROWS
 N worth
 L weight
COLUMNS
 m1 'MARKER' 'INTORG'
 green worth -4 weight 12
 grey worth -2 weight 1
 yellow worth -10 weight 4
 blue worth -2 weight 2
 orange worth -1 weight 1
 m2 'MARKER' 'INTEND'
RHS
 rhs weight 15
BOUNDS
 BV bnd green
 BV bnd grey
 BV bnd yellow
 BV bnd blue
 BV bnd orange
ENDATA
