* A blend: 10 to 12.5 kg of protein, from at most eight bags of oats and eight of soy, at the least price.
*
* A bag of oats has 1.1 kg and costs 2.35; a bag of soy has 3.6 kg and costs 7.8. The decimals count exactly as they are written. The
* least price is 219/10, for six bags of oats and one of soy.
NAME blend
ROWS
 N price
 G protein
COLUMNS
 m1 'MARKER' 'INTORG'
 oats price 2.35 protein 1.1
 soy price 7.8 protein 3.6
 m2 'MARKER' 'INTEND'
RHS
 rhs protein 10
RANGES
 rng protein 2.5
BOUNDS
 UP bnd oats 8
 UP bnd soy 8
ENDATA
