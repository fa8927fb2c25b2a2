\ A production plan: how many batches of each week to make, and how many to keep in store for the next week, so that each week's orders are met.
\
\ A week in which anything is made costs 140.25 to set up. A batch costs 12.75, and 1.85 for each week in store. A week has room for 40 batches,
\ and the store for 30.
Minimize
 cost: 140.25 setup1 + 140.25 setup2 + 140.25 setup3 + 140.25 setup4 + 140.25 setup5
   + 12.75 made1 + 12.75 made2 + 12.75 made3 + 12.75 made4 + 12.75 made5
   + 1.85 kept1 + 1.85 kept2 + 1.85 kept3 + 1.85 kept4
Subject To
 week1: made1 - kept1 = 18
 week2: kept1 + made2 - kept2 = 11
 week3: kept2 + made3 - kept3 = 25
 week4: kept3 + made4 - kept4 = 9
 week5: kept4 + made5 = 21
 runs1: made1 - 40 setup1 <= 0
 runs2: made2 - 40 setup2 <= 0
 runs3: made3 - 40 setup3 <= 0
 runs4: made4 - 40 setup4 <= 0
 runs5: made5 - 40 setup5 <= 0
Bounds
 made1 <= 40
 made2 <= 40
 made3 <= 40
 made4 <= 40
 made5 <= 40
 kept1 <= 30
 kept2 <= 30
 kept3 <= 30
 kept4 <= 30
Generals
 made1 made2 made3 made4 made5 kept1 kept2 kept3 kept4
Binaries
 setup1 setup2 setup3 setup4 setup5
End
