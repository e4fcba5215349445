* A knapsack: how many of A, B and C to take, at most ten of each, within three limits, so that their value
* is greatest. Each value is negated, and the least sum of them wanted: not every reader knows OBJSENSE.
NAME          KNAP
ROWS
 N  Z
 L  P
 L  Q
 L  R
COLUMNS
    M         'MARKER'                 'INTORG'
    A         Z                   -5   P                    2
    A         Q                    4   R                    3
    B         Z                   -4   P                    3
    B         Q                    1   R                    4
    C         Z                   -3   P                    1
    C         Q                    2   R                    2
    M         'MARKER'                 'INTEND'
RHS
    S         P                    5   Q                   11
    S         R                    8
BOUNDS
 UP D         A                   10
 UP D         B                   10
 UP D         C                   10
ENDATA
