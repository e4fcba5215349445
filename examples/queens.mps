* Five queens on a board of 5 x 5, none of which attacks another, on squares of the greatest value. Squares are
* named as in chess. No bound is set here: read with --box 1, each column is 0 or 1. The values, from row 5 down:
*     1 1 1 9 1
*     8 5 4 2 6
*     8 1 7 7 1
*     8 8 7 4 2
*     3 2 5 2 8
NAME queens
OBJSENSE
 MAXIMIZE
ROWS
 N VALUE
* one queen in each row and in each column
 E ROW1
 E ROW2
 E ROW3
 E ROW4
 E ROW5
 E COLUMNA
 E COLUMNB
 E COLUMNC
 E COLUMND
 E COLUMNE
* at most one in each diagonal, up to the right and down to the right, named by its first square
 L UP.a4
 L UP.a3
 L UP.a2
 L UP.a1
 L UP.b1
 L UP.c1
 L UP.d1
 L DOWN.a2
 L DOWN.a3
 L DOWN.a4
 L DOWN.a5
 L DOWN.b5
 L DOWN.c5
 L DOWN.d5
COLUMNS
 M 'MARKER' 'INTORG'
 a1  VALUE 3     ROW1 1
 a1  COLUMNA 1   UP.a1 1
 a2  VALUE 8     ROW2 1
 a2  COLUMNA 1   UP.a2 1
 a2  DOWN.a2 1
 a3  VALUE 8     ROW3 1
 a3  COLUMNA 1   UP.a3 1
 a3  DOWN.a3 1
 a4  VALUE 8     ROW4 1
 a4  COLUMNA 1   UP.a4 1
 a4  DOWN.a4 1
 a5  VALUE 1     ROW5 1
 a5  COLUMNA 1   DOWN.a5 1
 b1  VALUE 2     ROW1 1
 b1  COLUMNB 1   UP.b1 1
 b1  DOWN.a2 1
 b2  VALUE 8     ROW2 1
 b2  COLUMNB 1   UP.a1 1
 b2  DOWN.a3 1
 b3  VALUE 1     ROW3 1
 b3  COLUMNB 1   UP.a2 1
 b3  DOWN.a4 1
 b4  VALUE 5     ROW4 1
 b4  COLUMNB 1   UP.a3 1
 b4  DOWN.a5 1
 b5  VALUE 1     ROW5 1
 b5  COLUMNB 1   UP.a4 1
 b5  DOWN.b5 1
 c1  VALUE 5     ROW1 1
 c1  COLUMNC 1   UP.c1 1
 c1  DOWN.a3 1
 c2  VALUE 7     ROW2 1
 c2  COLUMNC 1   UP.b1 1
 c2  DOWN.a4 1
 c3  VALUE 7     ROW3 1
 c3  COLUMNC 1   UP.a1 1
 c3  DOWN.a5 1
 c4  VALUE 4     ROW4 1
 c4  COLUMNC 1   UP.a2 1
 c4  DOWN.b5 1
 c5  VALUE 1     ROW5 1
 c5  COLUMNC 1   UP.a3 1
 c5  DOWN.c5 1
 d1  VALUE 2     ROW1 1
 d1  COLUMND 1   UP.d1 1
 d1  DOWN.a4 1
 d2  VALUE 4     ROW2 1
 d2  COLUMND 1   UP.c1 1
 d2  DOWN.a5 1
 d3  VALUE 7     ROW3 1
 d3  COLUMND 1   UP.b1 1
 d3  DOWN.b5 1
 d4  VALUE 2     ROW4 1
 d4  COLUMND 1   UP.a1 1
 d4  DOWN.c5 1
 d5  VALUE 9     ROW5 1
 d5  COLUMND 1   UP.a2 1
 d5  DOWN.d5 1
 e1  VALUE 8     ROW1 1
 e1  COLUMNE 1   DOWN.a5 1
 e2  VALUE 2     ROW2 1
 e2  COLUMNE 1   UP.d1 1
 e2  DOWN.b5 1
 e3  VALUE 1     ROW3 1
 e3  COLUMNE 1   UP.c1 1
 e3  DOWN.c5 1
 e4  VALUE 6     ROW4 1
 e4  COLUMNE 1   UP.b1 1
 e4  DOWN.d5 1
 e5  VALUE 1     ROW5 1
 e5  COLUMNE 1   UP.a1 1
RHS
 ONE  ROW1 1      ROW2 1
 ONE  ROW3 1      ROW4 1
 ONE  ROW5 1      COLUMNA 1
 ONE  COLUMNB 1   COLUMNC 1
 ONE  COLUMND 1   COLUMNE 1
 ONE  UP.a4 1     UP.a3 1
 ONE  UP.a2 1     UP.a1 1
 ONE  UP.b1 1     UP.c1 1
 ONE  UP.d1 1     DOWN.a2 1
 ONE  DOWN.a3 1   DOWN.a4 1
 ONE  DOWN.a5 1   DOWN.b5 1
 ONE  DOWN.c5 1   DOWN.d5 1
ENDATA
