* A job shop: job A is sawn (3 hours), drilled (2) and painted (2); B is sawn (2), painted (1) and drilled (4);
* C is drilled (4) and painted (3). Each machine does one job at a time, and all is done within 20 hours.
* The least end is wanted, and of the plans with that end the one whose starts are the earliest, at 0.01 an hour.
NAME job_shop
ROWS
 N COST
* Each step of a job begins behind the step before it, and the end stands behind the last ones.
 G A.SAW.DRILL
 G A.DRILL.PAINT
 G A.PAINT.END
 G B.SAW.PAINT
 G B.PAINT.DRILL
 G B.DRILL.END
 G C.DRILL.PAINT
 G C.PAINT.END
* Of two jobs on one machine one goes first. SAW.A.B is the start of B less that of A, and 20 more where B goes first:
* from 3, by RHS, to 18, by RANGES. So B starts at least 3 behind A where A goes first, and else at least 2 ahead of it.
 G SAW.A.B
 G DRILL.A.B
 G DRILL.A.C
 G DRILL.B.C
 G PAINT.A.B
 G PAINT.A.C
 G PAINT.B.C
COLUMNS
 M 'MARKER' 'INTORG'
* 1 where B goes before A at the saw, and so on
 B.A.SAW   SAW.A.B 20
 B.A.DRILL DRILL.A.B 20
 C.A.DRILL DRILL.A.C 20
 C.B.DRILL DRILL.B.C 20
 B.A.PAINT PAINT.A.B 20
 C.A.PAINT PAINT.A.C 20
 C.B.PAINT PAINT.B.C 20
* when the end is, and when each step begins
 END       COST 1              A.PAINT.END 1
 END       B.DRILL.END 1       C.PAINT.END 1
 A.SAW     COST 0.01           A.SAW.DRILL -1
 A.SAW     SAW.A.B -1
 A.DRILL   COST 0.01           A.SAW.DRILL 1
 A.DRILL   A.DRILL.PAINT -1    DRILL.A.B -1
 A.DRILL   DRILL.A.C -1
 A.PAINT   COST 0.01           A.DRILL.PAINT 1
 A.PAINT   A.PAINT.END -1      PAINT.A.B -1
 A.PAINT   PAINT.A.C -1
 B.SAW     COST 0.01           B.SAW.PAINT -1
 B.SAW     SAW.A.B 1
 B.PAINT   COST 0.01           B.SAW.PAINT 1
 B.PAINT   B.PAINT.DRILL -1    PAINT.A.B 1
 B.PAINT   PAINT.B.C -1
 B.DRILL   COST 0.01           B.PAINT.DRILL 1
 B.DRILL   B.DRILL.END -1      DRILL.A.B 1
 B.DRILL   DRILL.B.C -1
 C.DRILL   COST 0.01           C.DRILL.PAINT -1
 C.DRILL   DRILL.A.C 1         DRILL.B.C 1
 C.PAINT   COST 0.01           C.DRILL.PAINT 1
 C.PAINT   C.PAINT.END -1      PAINT.A.C 1
 C.PAINT   PAINT.B.C 1
 M 'MARKER' 'INTEND'
RHS
 HOURS A.SAW.DRILL 3       A.DRILL.PAINT 2
 HOURS A.PAINT.END 2       B.SAW.PAINT 2
 HOURS B.PAINT.DRILL 1     B.DRILL.END 4
 HOURS C.DRILL.PAINT 4     C.PAINT.END 3
 HOURS SAW.A.B 3           DRILL.A.B 2
 HOURS DRILL.A.C 2         DRILL.B.C 4
 HOURS PAINT.A.B 2         PAINT.A.C 2
 HOURS PAINT.B.C 1
RANGES
 HOURS SAW.A.B 15          DRILL.A.B 14
 HOURS DRILL.A.C 14        DRILL.B.C 12
 HOURS PAINT.A.B 17        PAINT.A.C 15
 HOURS PAINT.B.C 16
BOUNDS
 BV BND B.A.SAW
 BV BND B.A.DRILL
 BV BND C.A.DRILL
 BV BND C.B.DRILL
 BV BND B.A.PAINT
 BV BND C.A.PAINT
 BV BND C.B.PAINT
 UP BND END 20
 UP BND A.SAW 17
 UP BND A.DRILL 18
 UP BND A.PAINT 18
 UP BND B.SAW 18
 UP BND B.PAINT 19
 UP BND B.DRILL 16
 UP BND C.DRILL 16
 UP BND C.PAINT 17
ENDATA
