\ A rota of a week: how many people begin their five days on which day, and how many helpers come for two days, so that each day has enough
\ hands and the wages are least.
\
\ A day's wage is 90 on Monday and Tuesday, 92.50 on Wednesday and Thursday, 97.75 on Friday, 115.625 on Saturday, and 138.75 on Sunday. A helper
\ has 85.50 on Friday, 101.25 on Saturday and 121.35 on Sunday. Of the hands on Saturday at most a third may be helpers.
Minimize
 wages: 462.75 mon + 488.375 tue + 537.125 wed + 534.625 thu + 532.125 fri + 526.875 sat + 503.75 sun
   + 186.75 helper_fri + 222.6 helper_sat
Subject To
 monday:    mon + thu + fri + sat + sun >= 6
 tuesday:   mon + tue + fri + sat + sun >= 5
 wednesday: mon + tue + wed + sat + sun >= 6
 thursday:  mon + tue + wed + thu + sun >= 5
 friday:    mon + tue + wed + thu + fri + helper_fri >= 4
 saturday:  tue + wed + thu + fri + sat + helper_fri + helper_sat >= 5
 sunday:    wed + thu + fri + sat + sun + helper_sat >= 7
 third:     tue + wed + thu + fri + sat - 2 helper_fri - 2 helper_sat >= 0
Bounds
 mon <= 7
 tue <= 7
 wed <= 7
 thu <= 7
 fri <= 7
 sat <= 7
 sun <= 7
 helper_fri <= 4
 helper_sat <= 4
Generals
 mon tue wed thu fri sat sun helper_fri helper_sat
End
