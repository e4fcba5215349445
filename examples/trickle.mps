* Water from four springs: opening spring i costs 100 + i, and at least 7 drops are wanted.
* Spring i gives its drops Qi only where its switch Si is on: Qi is at most 10^9 times Si.
NAME trickle
ROWS
 N COST
 G WANTED
 L SPRING1
 L SPRING2
 L SPRING3
 L SPRING4
COLUMNS
 SWITCH 'MARKER' 'INTORG'
 S1 COST 101 SPRING1 -1e9
 S2 COST 102 SPRING2 -1e9
 S3 COST 103 SPRING3 -1e9
 S4 COST 104 SPRING4 -1e9
 Q1 WANTED 1 SPRING1 1
 Q2 WANTED 1 SPRING2 1
 Q3 WANTED 1 SPRING3 1
 Q4 WANTED 1 SPRING4 1
 SWITCH 'MARKER' 'INTEND'
RHS
 DROPS WANTED 7
BOUNDS
    BV BND S1
    BV BND S2
    BV BND S3
    BV BND S4
    UP BND Q1 1e9
    UP BND Q2 1e9
    UP BND Q3 1e9
    UP BND Q4 1e9
ENDATA
