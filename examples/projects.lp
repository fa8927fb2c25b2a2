\ Which projects to take, so that the money and the hands of two years are enough and the worth is greatest.
Maximize
 worth: 14.5 bridge + 9.25 school + 6.5 park + 11 harbour + 4.75 library + 8 tram
Subject To
 money_now:  6.2 bridge + 3.1 school + 1.4 park + 4.9 harbour + 1.3 library + 3.6 tram <= 10.5
 money_next: 4 bridge + 3.5 school + 2.2 park + 3.3 harbour + 1.7 library + 4.1 tram <= 11
 hands:      8 bridge + 5 school + 3 park + 7 harbour + 2 library + 6 tram <= 16
 one_water:  bridge + harbour <= 1
 tram_needs_bridge: tram - bridge <= 0
Binaries
 bridge school park harbour library tram
End
