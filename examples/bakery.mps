* A bakery: how many batches of bread and of cake to bake for the greatest profit.
*
* A batch of bread takes 6 kilograms of flour and 1 hour, one of cake 4 kilograms and 2 hours. There are 24 kilograms and 6 hours. The profit
* is 5 on bread and 4 on cake, and it is maximised. In fractions 3 of bread and 1.5 of cake would give 21; in whole batches 4 of bread give 20.
NAME bakery
OBJSENSE MAX
ROWS
 N profit
 L flour
 L time
COLUMNS
 m1 'MARKER' 'INTORG'
 bread profit 5 flour 6
 bread time 1
 cake profit 4 flour 4
 cake time 2
 m2 'MARKER' 'INTEND'
RHS
 rhs flour 24 time 6
BOUNDS
 UP bnd bread 4
 UP bnd cake 3
ENDATA
