* Fire stations: which of seven sites to build so that each of eight districts is near one,
* at the least cost in millions. The sites of least cost for each district reached come to 8.75.
NAME          set_cover
ROWS
 N  COST
* A later N row is known and ignored: the number of stations built.
 N  BUILT
 G  HARBOUR
 G  MARKET
 G  MILL
 G  STATION
 G  CASTLE
 G  MEADOW
 G  QUARRY
 G  CHAPEL
* BV below makes the columns integer, so no marker is needed.
COLUMNS
    S1        COST               2.5   BUILT                1
    S1        MARKET               1   STATION              1
    S1        QUARRY               1   CHAPEL               1
    S2        COST               1.5   BUILT                1
    S2        HARBOUR              1   STATION              1
    S3        COST               3.5   BUILT                1
    S3        MILL                 1   QUARRY               1
    S4        COST              2.75   BUILT                1
    S4        STATION              1   CASTLE               1
    S4        QUARRY               1
    S5        COST                 2   BUILT                1
    S5        MARKET               1   MILL                 1
    S5        QUARRY               1
    S6        COST              1.75   BUILT                1
    S6        MARKET               1   CASTLE               1
    S7        COST               2.5   BUILT                1
    S7        HARBOUR              1   MEADOW               1
    S7        CHAPEL               1
* Each district is near at least one station.
RHS
    NEAR      HARBOUR              1   MARKET               1
    NEAR      MILL                 1   STATION              1
    NEAR      CASTLE               1   MEADOW               1
    NEAR      QUARRY               1   CHAPEL               1
BOUNDS
 BV SITE      S1
 BV SITE      S2
 BV SITE      S3
 BV SITE      S4
 BV SITE      S5
 BV SITE      S6
 BV SITE      S7
ENDATA
