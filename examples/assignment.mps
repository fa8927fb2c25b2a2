* An assignment: three people, three tasks, one each. Column ann_2 is 1 where Ann does task 2; the objective has the hours.
*
*          1  2  3
*    ann   4  1  3
*    bob   2  0  5
*    eve   3  2  2
*
* The least sum of hours is 5: ann does 2, bob 1, eve 3.
NAME assignment
ROWS
 N hours
 E ann
 E bob
 E eve
 E task1
 E task2
 E task3
COLUMNS
 m1 'MARKER' 'INTORG'
 ann_1 hours 4 ann 1
 ann_1 task1 1
 ann_2 hours 1 ann 1
 ann_2 task2 1
 ann_3 hours 3 ann 1
 ann_3 task3 1
 bob_1 hours 2 bob 1
 bob_1 task1 1
 bob_2 bob 1 task2 1
 bob_3 hours 5 bob 1
 bob_3 task3 1
 eve_1 hours 3 eve 1
 eve_1 task1 1
 eve_2 hours 2 eve 1
 eve_2 task2 1
 eve_3 hours 2 eve 1
 eve_3 task3 1
 m2 'MARKER' 'INTEND'
RHS
 rhs ann 1 bob 1
 rhs eve 1 task1 1
 rhs task2 1 task3 1
BOUNDS
 BV bnd ann_1
 BV bnd ann_2
 BV bnd ann_3
 BV bnd bob_1
 BV bnd bob_2
 BV bnd bob_3
 BV bnd eve_1
 BV bnd eve_2
 BV bnd eve_3
ENDATA
